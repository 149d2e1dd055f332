//! The table of house factors: by its rule, by its published digest, and as the library's source has it.

mod common;
use common::sha256;
use oracle::rules::house::table;
use std::path::Path;

/// Of the 1,025 doubles from entry -512 on, eight bytes each, lowest first.
const DIGEST: &str = "3ca8d2104653722ed80b4ff2680dad0120086d6d3800733a409707ac14771027";

fn digest(entries: &[f64]) -> String {
    sha256(&entries.iter().flat_map(|x| x.to_le_bytes()).collect::<Vec<u8>>())
}

#[test]
fn the_rule_gives_the_published_table() {
    assert_eq!(digest(table()), DIGEST);
}

/// The numbers between the brackets of the one list of 1,025 doubles that a text has; comments are passed over.
fn listed(text: &str) -> Option<Vec<f64>> {
    let code: String = text.lines().map(|line| line.split("//").next().unwrap_or("")).collect::<Vec<_>>().join("\n");
    let (_, behind) = code.split_once("; 1025]")?;
    let (_, list) = behind.split_once('[')?;
    let (list, _) = list.split_once(']')?;
    let numbers = list.split(',').map(str::trim).filter(|number| !number.is_empty());
    Some(numbers.map(|number| number.parse().unwrap_or_else(|e| panic!("'{number}': {e}"))).collect())
}

#[test]
fn a_list_is_found_in_a_text() {
    let text =
        "// a [f64; 1025]\npub const ENTRIES: [f64; 1025] = [\n    0.5, // one\n    1.0,\n];\nfn other() -> [f64; 2] { [3.0, 4.0] }\n";
    assert_eq!(listed(text), Some(vec![0.5, 1.0]));
    assert_eq!(listed("pub const OTHERS: [f64; 3] = [0.5, 1.0, 2.0];"), None);
}

/// The library's source has the same doubles.
#[test]
fn the_library_has_this_table() {
    let sources = Path::new(env!("CARGO_MANIFEST_DIR")).join("../../crates/house_table/src");
    let files = std::fs::read_dir(&sources).unwrap_or_else(|e| panic!("{}: {e}", sources.display()));
    let lists: Vec<Vec<f64>> = files.filter_map(|file| listed(&std::fs::read_to_string(file.unwrap().path()).unwrap())).collect();
    assert_eq!(lists.len(), 1, "one file of the crate is to have the list");
    assert_eq!(digest(&lists[0]), DIGEST);
    assert!(lists[0].iter().zip(table()).all(|(x, y)| x.to_bits() == y.to_bits()) && lists[0].len() == table().len());
}
