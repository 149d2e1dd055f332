//! What a call for correlations should return and leave: by the checks, and where they pass by the sweep rules and the original.

use super::jobs::{is_large, Job};
use oracle::glass::{correlations as original, Plan};
use oracle::lattice::Graph;
use oracle::rules::refusals::{call_refusal, first, is_sound, unless};
use oracle::rules::sweeps::Model;

/// What the results and the work memory hold before a call.
pub struct Before {
    pub results: Vec<f64>,
    pub work: Vec<f64>,
}

/// What a call returns and leaves.
pub struct Outcome {
    pub number: usize,
    pub results: Vec<f64>,
    /// How much of the work memory is +0.0 afterwards.
    pub cleared: usize,
}

/// By the checks, and where they pass by the sweep rules and the original.
pub fn outcome(job: &Job, before: &Before) -> Result<Outcome, String> {
    let (e, p) = (&job.edges, &job.pairs);
    let number = first(call_refusal(e, p, &[], job.tester()), || {
        first(job.lent_refusal(), || first(unless(job.results == p.us.len(), 12), || unless(before.work.len() >= job.room(), 13)))
    });
    if number != 0 {
        return Ok(Outcome { number, results: before.results.clone(), cleared: 0 });
    }
    let cleared = job.room();
    let answers = job.couplings.as_ref().map(|couplings| original_answers(job, couplings));
    if is_large(e) {
        let results = answers.ok_or("a large job is to have couplings")?;
        return Ok(Outcome { number, results, cleared });
    }
    modelled(job, answers).map(|(number, results)| Outcome { number, results, cleared })
}

/// The original's answers. It reads its manner from the environment.
fn original_answers(job: &Job, couplings: &[f64]) -> Vec<f64> {
    std::env::set_var("FDK_SLOW", if job.each() { "1" } else { "0" });
    let mut graph = Graph::new(job.edges.n, &job.edges.raw());
    graph.win = graph.win.max(job.edges.floor);
    let plan = Plan::new(&graph, &job.pairs.raw());
    let mut answers = vec![f64::INFINITY; job.results];
    original(&plan, couplings, &mut plan.work(), &mut answers);
    answers
}

/// Returns 14 where some Z is not finite and above zero; else 0 and the answers, which the original's should equal.
fn modelled(job: &Job, answers: Option<Vec<f64>>) -> Result<(usize, Vec<f64>), String> {
    let edges: Vec<(usize, usize, f64)> = job.edges.kept().iter().zip(&job.factors).map(|(e, &x)| (e.0, e.1, x)).collect();
    let model = Model { n: job.edges.n, window: job.edges.window(), edges: &edges, each: job.each() };
    let modelled = model.answers(&job.pairs.raw());
    if !modelled.iter().all(|&(z, _)| is_sound(z)) {
        return Ok((14, vec![0.0; job.results]));
    }
    let results: Vec<f64> = modelled.iter().map(|x| x.1).collect();
    if let Some(i) = answers.as_ref().and_then(|a| a.iter().zip(&results).position(|(x, y)| x.to_bits() != y.to_bits())) {
        return Err(format!("pair {i}: the sweep rules answer {:e}, the original {:e}", results[i], answers.unwrap()[i]));
    }
    Ok((0, results))
}
