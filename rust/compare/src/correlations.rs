//! Correlations and their room, against the original where the factors are exponentials, and against document 01's sweep rules. Those by house
//! factors are drawn apart.

mod drawing;
mod expected;
mod jobs;
mod lent;

use crate::draw::Draw;
use crate::guarded::{equal, Guarded};
use crate::shapes::{pairs, swept_graph, Reach};
use drawing::{factors, sound, sound_house, spoil};
use expected::{outcome, Before, Outcome};
use jobs::{work_length, Job};
use lent::Lent;
use oracle::rules::refusals::job_refusal;

pub fn try_one(draw: &mut Draw) -> Result<usize, String> {
    let mut job = sound(draw);
    spoil_some(draw, &mut job);
    compare_job(draw, &job)
}

/// One by house factors.
pub fn try_house(draw: &mut Draw) -> Result<usize, String> {
    let mut job = sound_house(draw);
    spoil_some(draw, &mut job);
    job.settle_house();
    compare_job(draw, &job)
}

/// Up to two things that may be refused.
fn spoil_some(draw: &mut Draw, job: &mut Job) {
    for _ in 0..draw.of(&[0, 0, 0, 1, 1, 2]) {
        spoil(draw, job);
    }
}

fn compare_job(draw: &mut Draw, job: &Job) -> Result<usize, String> {
    compare_room(job).and_then(|()| compare(draw, job)).map_err(|why| format!("{}: {why}", job.told()))
}

/// A job of a window from 19 to 24, with a pair or two: hundreds of megabytes, and seconds.
pub fn try_wide(draw: &mut Draw) -> Result<usize, String> {
    let window = draw.within(19, 24);
    let n = window + draw.within(1, 4);
    let mut edges = swept_graph(draw, Reach { window, n });
    edges.n = edges.n.max(n);
    edges.floor = window;
    let count = draw.within(1, 2);
    let pairs = pairs(draw, edges.n, window, count);
    let (couplings, factors) = factors(draw, &edges, 0);
    let results = pairs.us.len();
    let options = draw.below(4);
    compare_job(draw, &Job { edges, pairs, couplings, factors, house: None, options, results, spare: 1, gentle: true, wide: true })
}

/// Compares what `room` returns with documents 01 and 02.
fn compare_room(job: &Job) -> Result<(), String> {
    let mut answered = 99;
    let lent = Lent::new(job);
    let number = lent.room(&mut answered);
    let expected = job_refusal(&job.edges, &job.pairs, &[]);
    equal("answer of the room", number, expected)?;
    equal("room", answered, if expected == 0 { job.room() } else { 99 })?;
    lent.unchanged()
}

/// Compares the calls of a job, and where it was swept those in the other arrangement: they return and leave the same but for the room.
fn compare(draw: &mut Draw, job: &Job) -> Result<usize, String> {
    let before = Before { results: draw.held(job.results), work: draw.held(work_length(job)) };
    let outcome = outcome(job, &before)?;
    let number = compare_calls(job, &outcome, &before)?;
    drop(before);
    if number == 0 || number == 14 {
        let other = job.rearranged();
        let outcome = Outcome { cleared: other.room(), ..outcome };
        let lent = draw.of(&[other.room(), job.room().max(other.room())]).saturating_add_signed(job.spare);
        let before = Before { results: draw.held(job.results), work: draw.held(lent) };
        compare_room(&other)
            .and_then(|()| compare_calls(&other, &outcome, &before))
            .map_err(|why| format!("in the other arrangement: {why}"))?;
    }
    Ok(number)
}

/// Compares the call with two lists of ends, and where these are of one length that with records; a call for house factors takes none.
fn compare_calls(job: &Job, outcome: &Outcome, before: &Before) -> Result<usize, String> {
    let lent = Lent::new(job);
    if job.house.is_none() && job.pairs.us.len() == job.pairs.vs.len() {
        compare_call(&lent, outcome, before, Lent::correlations_of).map_err(|why| format!("pair records: {why}"))?;
    }
    compare_call(&lent, outcome, before, Lent::correlations)
}

type Call<'a> = fn(&Lent<'a>, &mut Guarded<f64>, &mut Guarded<f64>) -> usize;

/// Makes a call, and compares what it returns and leaves.
fn compare_call<'a>(lent: &Lent<'a>, outcome: &Outcome, before: &Before, call: Call<'a>) -> Result<usize, String> {
    let (mut results, mut work) = (Guarded::new(&before.results), Guarded::new(&before.work));
    let number = call(lent, &mut results, &mut work);
    equal("answer", number, outcome.number)?;
    results.holds("results", &outcome.results)?;
    work.is_cleared("work", outcome.cleared, &before.work)?;
    lent.unchanged()?;
    Ok(number)
}

#[cfg(test)]
mod tests {
    use super::drawing::{sound, sound_house};
    use super::jobs::Job;
    use crate::draw::Draw;

    /// How many of some drawn jobs are such.
    fn drawn_jobs(such: fn(&Job) -> bool) -> usize {
        (0..4000).map(|job| sound(&mut Draw::new(3, 4, job))).filter(such).count()
    }

    #[test]
    fn both_arrangements_are_drawn() {
        assert!(drawn_jobs(|job| job.less()) > 1500 && drawn_jobs(|job| !job.less()) > 1500);
        let smaller = |job: &Job| job.room().abs_diff(job.rearranged().room()) > 0;
        assert!(drawn_jobs(smaller) > 800);
    }
    #[test]
    fn house_couplings_of_every_kind_are_drawn() {
        let jobs: Vec<Job> = (0..2000).map(|job| sound_house(&mut Draw::new(3, 10, job))).collect();
        let drawn = |such: fn(f64) -> bool| jobs.iter().filter(|job| job.lent().iter().any(|&x| such(x))).count();
        assert!(jobs.iter().all(|job| job.edges.kept().is_empty() || job.lent_refusal() == 0));
        assert!([drawn(|x| x == 4.0), drawn(|x| x == -4.0), drawn(|x| x.to_bits() == 1 << 63), drawn(|x| x.abs() < 1.0)]
            .iter()
            .all(|&n| n > 200));
    }
}
