//! The stored lists are what the original returns today.

use std::path::Path;
use std::process::Command;

#[test]
fn the_stored_lists_are_the_originals_answers() {
    let crates = Path::new(env!("CARGO_MANIFEST_DIR")).join("../../crates");
    for (list, place) in [
        ("generators", "replay_rng/data/generators.bin"),
        ("graphs", "replay_graph/data/graphs.bin"),
        ("strips", "replay_strip/data/strips.bin"),
        ("strip_edges", "replay_strip/data/edges.bin"),
        ("dilutions", "replay_strip/data/dilutions.bin"),
        ("strip_refusals", "replay_strip/data/refusals.bin"),
        ("correlations", "replay_correlations/data/correlations.bin"),
        ("couplings", "replay_couplings/data/couplings.bin"),
        ("estimates", "replay_estimate/data/estimates.bin"),
        ("roots", "replay_estimate/data/roots.bin"),
        ("totals", "replay_totals/data/totals.bin"),
        ("sweeps", "transfer_matrix/specs/Original.antt"),
    ] {
        let made = Command::new(env!("CARGO_BIN_EXE_answers")).arg(list).output().expect("answers runs");
        assert!(made.status.success(), "answers {list}: {}", String::from_utf8_lossy(&made.stderr));
        let stored = std::fs::read(crates.join(place)).unwrap_or_else(|e| panic!("{place}: {e}"));
        assert!(made.stdout == stored, "{place} is not what answers {list} writes");
    }
}
