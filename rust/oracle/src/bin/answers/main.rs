//! Writes the lists of the original's answers that Rattle replays. `answers NAME` writes the list NAME to standard output; `answers` names
//! the lists. A list for a program is a row of 64-bit words, little-endian, a double as its bits; a list for the prover is a file of
//! definitions.
//!
//!     cargo run --release --offline --bin answers -- NAME > FILE
//!
//! makes a list's file anew; `tests/answers.rs` has the file of each and holds it against what is written today.

mod correlation_jobs;
mod correlation_refusals;
mod correlations;
mod couplings;
mod estimates;
mod generators;
mod graphs;
mod hash;
mod spoils;
mod strips;
mod sweeps;
mod total_calls;
mod totals;
mod words;

use std::io::Write;
use std::process::ExitCode;

/// A list's name, and its bytes.
type List = (&'static str, fn() -> Vec<u8>);

const LISTS: &[List] = &[
    ("generators", || words(generators::generators())),
    ("graphs", || words(graphs::graphs())),
    ("strips", || words(strips::strips())),
    ("strip_edges", || words(strips::strip_edges())),
    ("dilutions", || words(strips::dilutions())),
    ("strip_refusals", || words(strips::strip_refusals())),
    ("correlations", || words(correlations::correlations())),
    ("couplings", || words(couplings::couplings())),
    ("estimates", || words(estimates::estimates())),
    ("roots", || words(estimates::roots())),
    ("totals", || words(totals::totals())),
    ("sweeps", || sweeps::sweeps().into_bytes()),
];

fn words(list: Vec<u64>) -> Vec<u8> {
    list.into_iter().flat_map(u64::to_le_bytes).collect()
}

fn main() -> ExitCode {
    let name = std::env::args().nth(1).unwrap_or_default();
    let Some((_, list)) = LISTS.iter().find(|(known, _)| *known == name) else {
        let names: Vec<&str> = LISTS.iter().map(|(known, _)| *known).collect();
        eprintln!("answers: no list is named '{name}'; the lists are: {}", names.join(", "));
        return ExitCode::from(2);
    };
    match std::io::stdout().write_all(&list()) {
        Ok(()) => ExitCode::SUCCESS,
        Err(e) => {
            eprintln!("answers: {e}");
            ExitCode::FAILURE
        }
    }
}
