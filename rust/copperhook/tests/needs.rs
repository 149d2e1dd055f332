//! What the archive needs from outside: a board's controller brings no more than the header says.

use std::collections::BTreeSet;
use std::process::Command;

/// The names that some object of the archive needs and does not have, as `nm`, which comes with the linker, lists them.
fn needed() -> BTreeSet<String> {
    let output = Command::new("nm").args(["--undefined-only", copperhook::ARCHIVE]).output().expect("nm runs");
    assert!(output.status.success(), "{}", String::from_utf8_lossy(&output.stderr));
    let text = String::from_utf8(output.stdout).unwrap();
    text.lines().filter_map(|line| line.trim().strip_prefix("U ")).map(String::from).collect()
}

/// The sentence of the header, in its words.
#[test]
fn memcpy_and_memset_alone() {
    let header = include_str!("../../../include/copperhook.h");
    assert!(header.contains("Of the C library the archive needs memcpy and memset alone."));
    assert_eq!(needed(), ["memcpy", "memset"].map(String::from).into(), "the header says memcpy and memset alone");
}
