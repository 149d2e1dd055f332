//! Drawn jobs for correlations, sound ones, and what spoils them.

use super::jobs::{is_large, Job};
use crate::draw::Draw;
use crate::shapes::{long_edge, pairs, short_edges, spoil_graph, swept_graph, Reach};
use oracle::rules::lists::{Edges, Pairs};

/// How large a job may be: mostly small, now and then larger.
fn reach(draw: &mut Draw) -> Reach {
    let entries: usize = match draw.below(1500) {
        0 => 1 << 24,
        1..=20 => 1 << 20,
        _ => 1 << 15,
    };
    let window = draw.within(1, 6).max(if draw.once_in(4) { draw.within(1, entries.ilog2() as usize - 3) } else { 1 }).min(18);
    let most = draw.of(&[4, 12, 40, 1024]);
    Reach { window, n: (entries >> window).clamp(1, most) }
}

pub fn sound(draw: &mut Draw) -> Job {
    let reach = reach(draw);
    let edges = swept_graph(draw, reach);
    let window = edges.window();
    let count = if draw.once_in(60) { 256 } else { draw.below(14) };
    // a pair costs a sweep of its own at most
    let count = count.min(((1 << 24) / (edges.n << window)).max(2));
    let pairs = pairs(draw, edges.n, window, count);
    let style = if is_large(&edges) { 0 } else { draw.below(10) };
    let (couplings, factors) = factors(draw, &edges, style);
    let (results, gentle) = (pairs.us.len(), style <= GENTLE);
    let (options, spare) = (draw.options(), draw.below(9) as isize);
    Job { edges, pairs, couplings, factors, house: None, options, results, spare, gentle, wide: false }
}

/// The same for house factors.
pub fn sound_house(draw: &mut Draw) -> Job {
    let job = sound(draw);
    let style = if is_large(&job.edges) { 0 } else { draw.below(3) };
    let couplings = job.edges.kept().iter().map(|_| draw.house_coupling(style)).collect();
    Job { house: Some(couplings), couplings: None, factors: Vec::new(), ..job }
}

/// Up to this style couplings are small.
const GENTLE: usize = 3;

/// Factors of some style, each of another strength. Exponentials have their couplings; other doubles have none.
pub fn factors(draw: &mut Draw, edges: &Edges, style: usize) -> (Option<Vec<f64>>, Vec<f64>) {
    let kept = edges.kept();
    if style >= 8 {
        let some = [5e-324, f64::MIN_POSITIVE, 1.0, f64::MAX, f64::from_bits(1.0f64.to_bits() - 1)];
        let ends = draw.once_in(3);
        let factors = kept.iter().map(|_| if ends { draw.of(&some) } else { draw.factor() }).collect();
        return (None, factors);
    }
    let most = draw.of(&[30.0, 90.0, 180.0, 350.0, 709.78]);
    let couplings: Vec<f64> = kept
        .iter()
        .map(|e| match style {
            0..=2 => draw.between(-1.5, 1.5),
            3 => draw.of(&[0.44, -0.44]) * e.2.clamp(-2.0, 2.0),
            4 => draw.between(-most, most),
            5 => draw.between(-745.1, 709.78),
            6 => most * e.2.signum(),
            _ => draw.of(&[0.0, -0.0, 1.0, -1.0, 2f64.ln(), most]),
        })
        .collect();
    let factors = couplings.iter().map(|x| x.exp()).collect();
    (Some(couplings), factors)
}

/// One thing that document 01 may refuse.
pub fn spoil(draw: &mut Draw, job: &mut Job) {
    let (n, pairs, edges) = (job.edges.n, job.pairs.us.len(), job.lent().len());
    let (pair, edge) = (pairs.checked_sub(1).map(|last| draw.within(0, last)), edges.checked_sub(1).map(|last| draw.within(0, last)));
    match draw.below(16) {
        0..=3 => spoil_graph(draw, &mut job.edges),
        4 => job.edges.floor = draw.of(&[12, 13, 24, 25, 1 << 40, usize::MAX]),
        5 => link(job, |edges| long_edge(draw, edges)),
        6 => link(job, |edges| short_edges(draw, edges)),
        7 => drop(if draw.once_in(2) { job.pairs.us.pop() } else { job.pairs.vs.pop() }),
        8 => {
            let many = draw.of(&[257, 257, 258, 1000]);
            (job.pairs, job.results) = (Pairs { us: vec![0; many], vs: vec![n.wrapping_sub(1); many] }, many);
        }
        9 => {
            if let Some(i) = pair.filter(|&i| i < job.pairs.vs.len()) {
                job.pairs.vs[i] = draw.of(&[n, usize::MAX, 1 << 63, job.pairs.us[i]]);
            }
        }
        10 => {
            if let Some(i) = edge {
                let bad = if job.house.is_some() { draw.no_house_coupling() } else { draw.no_factor() };
                job.lent_mut()[i] = bad;
                job.couplings = None;
            }
        }
        11 => {
            job.couplings = None;
            if draw.once_in(2) {
                job.lent_mut().push(1.0);
            } else {
                job.lent_mut().pop();
            }
        }
        12 | 13 => job.results = draw.of(&[job.results + 1, job.results.saturating_sub(1), 0]),
        _ => job.spare = draw.of(&[-1, -1, -2, -1000]),
    }
}

/// Edges that are added, with a factor or a coupling for each.
fn link(job: &mut Job, add: impl FnOnce(&mut Edges)) {
    let before = job.edges.a.len();
    add(&mut job.edges);
    for _ in before..job.edges.a.len() {
        let one = if job.house.is_some() { 0.5 } else { 0.5f64.exp() };
        job.lent_mut().push(one);
        if let Some(couplings) = &mut job.couplings {
            couplings.push(0.5);
        }
    }
}
