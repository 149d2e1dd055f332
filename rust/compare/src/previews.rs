//! Previews: what a job would come to without one of its edges, against a copy of it with that magnitude zero, by the rules and, for its
//! window and free edges, by the original. What was lent stays, bit for bit.

use crate::betas::risen;
use crate::draw::Draw;
use crate::guarded::{equal, Guarded};
use crate::shapes::{any_graph, pairs, swept_graph, Reach};
use crate::spoils::{spoil_lent, KINDS_OF_SPOILS};
use copperhook::sys;
use oracle::lattice::Graph;
use oracle::rules::lists::{Edges, Pairs};
use oracle::rules::previews::{copied, preview, Figures};

/// A job with betas, and the raw place that is asked of.
struct Job {
    edges: Edges,
    pairs: Pairs,
    betas: Vec<f64>,
    place: usize,
    options: usize,
}

pub fn try_one(draw: &mut Draw) -> Result<usize, String> {
    let job = drawn(draw);
    let before = [draw.word() as usize, draw.word() as usize, draw.word() as usize];
    compare(&job, job.options, &before)
        .and_then(|number| compare(&job, job.options ^ 2, &before).map(|_| number))
        .map_err(|why| format!("{}: {why}", job.told()))
}

fn drawn(draw: &mut Draw) -> Job {
    let reach = Reach { window: draw.within(1, 24), n: draw.of(&[4, 12, 40, 40, 200, 1024]) };
    let mut edges = match draw.below(16) {
        0 | 1 => any_graph(draw),
        2 => five_short(draw),
        _ => swept_graph(draw, reach),
    };
    let count = draw.of(&[0, 1, 2, 6, 6, 20, 256]);
    let mut pairs = pairs(draw, edges.n, edges.window().min(1024), count);
    let mut betas = risen((0..draw.of(&[0, 1, 2, 5, 64])).map(|_| draw.between(-1024.0, 1024.0)).collect());
    for _ in 0..draw.of(&[0, 0, 1, 1, 1, 2]) {
        let kind = draw.below(KINDS_OF_SPOILS);
        spoil_lent(draw, kind, &mut edges, &mut pairs, &mut betas);
    }
    let place = place(draw, &edges);
    if let Some(magnitude) = edges.m.get_mut(place).filter(|_| draw.once_in(4)) {
        *magnitude = draw.no_magnitude();
    }
    Job { edges, pairs, betas, place, options: draw.options() }
}

/// Five short edges back from one vertex, any of which may go, among dropped ones.
fn five_short(draw: &mut Draw) -> Edges {
    let mut edges = Edges { n: draw.within(8, 60), floor: draw.within(8, 24), ..Edges::default() };
    let v = draw.within(7, edges.n - 1);
    let mut lengths: Vec<usize> = (1..=7).collect();
    draw.shuffle(&mut lengths);
    for (i, d) in lengths.into_iter().enumerate() {
        edges.push(v, v - d, if i < 5 { 1.0 } else { draw.of(&[0.0, -0.0]) });
    }
    edges
}

/// Any place, or one of more interest: the last, where an edge that spoils a job often stands; the first whose magnitude is none, or zero; at
/// the end and past it.
fn place(draw: &mut Draw, edges: &Edges) -> usize {
    let length = edges.a.len();
    let Some(last) = length.checked_sub(1).filter(|_| !draw.once_in(8)) else {
        return draw.of(&[length, length + 1, 1 << 63, usize::MAX]);
    };
    let first = |such: fn(f64) -> bool| edges.m.iter().position(|&m| such(m));
    match draw.below(6) {
        0 | 1 => last,
        2 => first(|m| m.is_nan() || m.abs() > 1024.0).unwrap_or(last),
        3 => first(|m| m == 0.0).unwrap_or(0),
        _ => draw.within(0, last),
    }
}

impl Job {
    fn told(&self) -> String {
        let (n, floor, edges) = (self.edges.n, self.edges.floor, self.edges.a.len());
        let (pairs, betas, place, options) = (self.pairs.us.len(), self.betas.len(), self.place, self.options);
        format!("{n} vertices, floor {floor}, {edges} edges, {pairs} pairs, {betas} betas, place {place}, options {options}")
    }

    fn expected(&self, options: usize) -> Result<Figures, usize> {
        preview(&self.edges, &self.pairs, &self.betas, self.place, options & 2 != 0)
    }

    /// Makes the call with these options, and finds all lists as they were.
    #[rustfmt::skip]
    fn called(&self, options: usize, told: &mut [Guarded<usize>; 3]) -> Result<usize, String> {
        let (e, p) = (&self.edges, &self.pairs);
        let named = [("a", &e.a), ("b", &e.b), ("us", &p.us), ("vs", &p.vs)];
        let numbers = named.map(|(_, list)| Guarded::new(list));
        let doubles = [Guarded::new(&e.m), Guarded::new(&self.betas)];
        let [a, b, us, vs] = numbers.each_ref().map(|list| (list.pointer(), list.len()));
        let [m, betas] = doubles.each_ref().map(|list| (list.pointer(), list.len()));
        let [window, free, room] = told.each_mut().map(Guarded::pointer_mut);
        let number = unsafe {
            sys::copperhook_preview(
                e.n, e.floor, a.0, a.1, b.0, b.1, m.0, m.1, us.0, us.1, vs.0, vs.1, betas.0, betas.1, self.place, options,
                window, free, room,
            )
        };
        numbers.iter().zip(named).try_for_each(|(list, (name, lent))| list.holds(name, lent))?;
        doubles[0].holds("m", &e.m)?;
        doubles[1].holds("betas", &self.betas)?;
        Ok(number)
    }
}

/// Compares the call with these options; the references of a refused one stay.
fn compare(job: &Job, options: usize, before: &[usize; 3]) -> Result<usize, String> {
    let mut told = before.map(|word| Guarded::new(&[word]));
    let number = job.called(options, &mut told)?;
    let expected = job.expected(options);
    equal("answer", number, expected.err().unwrap_or(0))?;
    let figures = expected.map_or(*before, |figures| [figures.window, figures.free, figures.room]);
    for ((found, figure), name) in told.iter().zip(figures).zip(["window", "free edges", "room"]) {
        found.holds(name, &[figure])?;
    }
    if expected.is_ok() {
        let graph = Graph::new(job.edges.n, &copied(&job.edges, job.place).raw());
        equal("the original's window", graph.win.max(job.edges.floor), figures[0])?;
        equal("the original's free edges", graph.cyclomatic(), figures[1])?;
    }
    Ok(number)
}

#[cfg(test)]
mod tests {
    use super::*;
    use oracle::rules::lists::room;
    use oracle::rules::refusals::job_refusal;

    /// Some drawn jobs, with what each is refused by now.
    fn drawn_jobs() -> Vec<(Job, usize)> {
        let jobs = (0..4000).map(|job| drawn(&mut Draw::new(3, 11, job)));
        jobs.map(|job| (job_refusal(&job.edges, &job.pairs, &job.betas), job)).map(|(now, job)| (job, now)).collect()
    }

    #[test]
    fn every_cure_is_drawn() {
        let jobs = drawn_jobs();
        let cured: Vec<&(Job, usize)> = jobs.iter().filter(|(job, _)| job.expected(job.options).is_ok()).collect();
        for number in [4, 5, 6, 7] {
            assert!(cured.iter().filter(|(_, now)| *now == number).count() >= 10, "{number}");
        }
        assert!(cured.iter().filter(|(job, _)| job.edges.m[job.place].is_nan()).count() >= 20);
    }

    #[test]
    fn every_figure_changes_in_some() {
        let mut counts = [0; 5];
        for (job, _) in drawn_jobs().iter().filter(|(_, now)| *now == 0) {
            let Ok(then) = job.expected(job.options) else { continue };
            let (window, free, less) = (job.edges.window(), job.edges.free().len(), job.options & 2 != 0);
            let now = Figures { window, free, room: room(&job.edges, &job.pairs, less) };
            let narrower = then.window < window;
            let smaller = !narrower && then.room < now.room;
            let arranged = job.expected(job.options ^ 2) != Ok(then);
            for (count, such) in counts.iter_mut().zip([narrower, then.free < free, smaller, then == now, arranged]) {
                *count += usize::from(such);
            }
        }
        assert!(counts.iter().zip([20, 100, 200, 100, 200]).all(|(&count, least)| count >= least), "{counts:?}");
    }
}
