//! The built program, run.
#![allow(dead_code)]

use std::io::Write;
use std::path::PathBuf;
use std::process::{Command, Output, Stdio};

pub fn sheet(line: &str) -> Output {
    Command::new(env!("CARGO_BIN_EXE_sheet")).args(line.split_whitespace()).output().unwrap()
}

/// What it prints, where it does so without a word on standard error.
pub fn printed(line: &str) -> String {
    let output = sheet(line);
    assert!(output.status.success() && output.stderr.is_empty(), "{line}: {}", String::from_utf8_lossy(&output.stderr));
    String::from_utf8(output.stdout).unwrap()
}

/// What it says on standard error, with its exit status.
pub fn told(line: &str) -> (String, Option<i32>) {
    let output = sheet(line);
    (String::from_utf8(output.stderr).unwrap(), output.status.code())
}

/// A new folder.
pub fn folder(name: &str) -> PathBuf {
    let folder = PathBuf::from(env!("CARGO_TARGET_TMPDIR")).join(name);
    let _ = std::fs::remove_dir_all(&folder);
    std::fs::create_dir_all(&folder).unwrap();
    folder
}

pub const SQUARE: &str = "--kind square --width 2 --length 2 --beta 0.6931471805599453";

/// A text without its record.
pub fn body(text: &str) -> String {
    text.split_once("\n\ncopperhook: ").unwrap().0.to_string() + "\n"
}

/// The table of comma-separated values, without its record.
pub fn table(csv: &str) -> String {
    csv.lines().skip_while(|line| line.starts_with('#')).map(|line| format!("{line}\n")).collect()
}

/// Labels, and the bits of a column of a table of comma-separated values.
pub fn labels_and_bits(csv: &str, column: &str) -> Vec<(String, u64)> {
    let csv = table(csv);
    let place = csv.lines().next().unwrap().split(',').position(|name| name == format!("{column}_bits")).unwrap();
    let cell = |line: &str, i: usize| line.split(',').nth(i).unwrap().to_string();
    csv.lines().skip(1).map(|line| (cell(line, 5), u64::from_str_radix(&cell(line, place)[2..], 16).unwrap())).collect()
}

/// The record's entries, as comma-separated values have them.
pub fn entries(csv: &str) -> Vec<(String, String)> {
    let entry = |line: &str| line[2..].split_once(": ").map(|(key, value)| (key.to_string(), value.to_string())).unwrap();
    csv.lines().take_while(|line| line.starts_with("# ")).map(entry).collect()
}

/// What the record has for a key.
pub fn recorded(csv: &str, key: &str) -> String {
    entries(csv).into_iter().find(|entry| entry.0 == key).unwrap().1
}

/// The digest that the system's own program takes.
pub fn sha256(bytes: &[u8]) -> String {
    let mut child = Command::new("sha256sum").stdin(Stdio::piped()).stdout(Stdio::piped()).spawn().unwrap();
    child.stdin.take().unwrap().write_all(bytes).unwrap();
    let summed = String::from_utf8(child.wait_with_output().unwrap().stdout).unwrap();
    summed.split(' ').next().unwrap().to_string()
}
