//! What a call for totals should return and leave: by the checks, and where they pass by the original and the rules.

use super::calls::{Call, MOST_MODELLED};
use crate::guarded::{equal, Guarded};
use oracle::glass::{exhaustive, exhaustive_c, sample, Plan};
use oracle::lattice::Graph;
use oracle::rules::configurations::Entry;
use oracle::rules::refusals::{first, unless};

/// What the result lists and the work memory hold before a call.
pub struct Before {
    pub lists: Vec<Vec<f64>>,
    pub work: Vec<f64>,
}

/// What a call returns and leaves: `lists` are its one or two result lists.
pub struct Outcome {
    pub number: usize,
    pub count: usize,
    pub lists: Vec<Vec<f64>>,
    /// How much of the work memory is +0.0 afterwards.
    pub cleared: usize,
}

/// What the count holds before a call.
pub const COUNT_BEFORE: usize = 99;

/// By the checks, and where they pass by the original and the rules.
pub fn outcome(call: &Call, before: &Before) -> Result<Outcome, String> {
    let lengths: Vec<usize> = before.lists.iter().map(|list| list.len()).collect();
    let number = first(call.by_rules().refusal(), || {
        let fits = unless(call.wanted() == lengths, 12);
        first(fits, || unless(before.work.len() >= call.room(), 13))
    });
    if number != 0 {
        return Ok(Outcome { number, count: COUNT_BEFORE, lists: before.lists.clone(), cleared: 0 });
    }
    let (count, cleared) = (call.configurations(), call.room());
    if count == 0 || call.sums() == 0 {
        return Ok(Outcome { number, count, lists: lengths.iter().map(|&length| vec![0.0; length]).collect(), cleared });
    }
    let originals = call.exponentials.then(|| original(call));
    if let Some((theirs, _)) = &originals {
        equal("the original's count", *theirs as usize, count)?;
    }
    let originals = originals.map(|(_, lists)| lists);
    if call.is_gentle() && call.entries() > MOST_MODELLED {
        return Ok(Outcome { number, count, lists: originals.ok_or("a gentle call has exponentials")?, cleared });
    }
    match modelled(call) {
        None => Ok(Outcome { number: 14, count: COUNT_BEFORE, lists: lengths.iter().map(|&length| vec![0.0; length]).collect(), cleared }),
        Some(lists) => {
            for (theirs, ours) in originals.iter().flatten().zip(&lists) {
                Guarded::new(theirs).holds("the original beside the rules", ours)?;
            }
            Ok(Outcome { number, count, lists, cleared })
        }
    }
}

/// The original's count and lists, with one thread. It reads its manner from the environment.
fn original(call: &Call) -> (f64, Vec<Vec<f64>>) {
    std::env::set_var("FDK_SLOW", if call.each() { "1" } else { "0" });
    let mut graph = Graph::new(call.edges.n, &call.edges.raw());
    graph.win = graph.win.max(call.edges.floor);
    let plan = Plan::new(&graph, &call.pairs.raw());
    let (betas, by) = (&call.betas[..], call.by);
    let total = match call.entry {
        Entry::Enumerated => exhaustive(&graph, &plan, betas, 1),
        Entry::Sampled => sample(&graph, &plan, betas, by.seed, by.from, by.to, by.samples, 1),
        Entry::Stored => {
            let stored: Vec<f64> = exhaustive_c(&graph, &plan, betas, 1).into_iter().flatten().flatten().collect();
            return ((stored.len() / call.sums()) as f64, vec![stored]);
        }
    };
    (total.count, vec![total.s1, total.s2])
}

/// The result lists by the rules; none where some Z is not finite and above zero.
fn modelled(call: &Call) -> Option<Vec<Vec<f64>>> {
    let (sums, totals) = (call.sums(), call.by_rules());
    let (mut squares, mut fourths) = (vec![0.0; sums], vec![0.0; sums]);
    let mut stored = vec![Vec::new(); sums];
    for chunk in totals.chunks() {
        let (mut of_squares, mut of_fourths) = (vec![0.0; sums], vec![0.0; sums]);
        for minus in chunk {
            for (k, c) in totals.correlations(&minus)?.into_iter().enumerate() {
                of_squares[k] += c * c;
                of_fourths[k] += (c * c) * (c * c);
                stored[k].push(c);
            }
        }
        for k in 0..sums {
            squares[k] += of_squares[k];
            fourths[k] += of_fourths[k];
        }
    }
    Some(if call.entry == Entry::Stored { vec![stored.concat()] } else { vec![squares, fourths] })
}
