//! `--less-room`, and that it is taken by itself where the memory is too little without: no number depends on it.

mod common;
use common::{folder, printed, sheet};
use std::process::{Command, Output};

/// Forty pairs of neighbours, each with a later vertex of its own: 2^18 times 82 doubles and some, with less room times 42.
fn near_pairs() -> String {
    let pairs: Vec<String> = (0..40).map(|u| format!("{u}-{}", u + 1)).collect();
    format!("--kind square --width 18 --length 3 --beta 0.4 --signs plus --pairs {}", pairs.join(","))
}

/// With so many kilobytes of memory in all.
fn within(kilobytes: usize, line: &str) -> Output {
    let mut command = Command::new("sh");
    command.args(["-c", &format!("ulimit -v {kilobytes} && exec \"$0\" \"$@\""), env!("CARGO_BIN_EXE_sheet")]);
    command.args(line.split_whitespace()).output().unwrap()
}

fn told(output: &Output) -> String {
    String::from_utf8(output.stderr.clone()).unwrap()
}

#[test]
fn it_is_taken_by_itself_where_the_memory_is_too_little_without() {
    let line = format!("{} --format csv --bits", near_pairs());
    let whole = printed(&line);
    let output = within(140_000, &line);
    assert_eq!(
        told(&output),
        "sheet: the work memory is 172.0 MB, which cannot be had; with less room it is 88.1 MB, no number depends on it\n"
    );
    assert!(output.status.success() && String::from_utf8(output.stdout).unwrap() == whole);
    // asked for, nothing is told
    let output = within(140_000, &format!("{line} --less-room"));
    assert!(output.status.success() && output.stderr.is_empty() && String::from_utf8(output.stdout).unwrap() == whole);
    for less in ["", "--less-room"] {
        let output = within(70_000, &format!("{line} {less}"));
        let lacking = "sheet: --width 18 --length 3: the work memory is 88.1 MB with less room, which cannot be had\n";
        assert_eq!((told(&output), output.status.code(), output.stdout.len()), (lacking.to_string(), Some(1), 0));
    }
}

#[test]
fn a_sheet_of_a_small_machine_is_verified_on_it_and_elsewhere() {
    let file = folder("less-room").join("sheet.csv");
    let output = within(140_000, &format!("{} --format csv", near_pairs()));
    std::fs::write(&file, output.stdout).unwrap();
    let line = format!("verify {}", file.display());
    let (here, there) = (sheet(&line), within(140_000, &line));
    assert!(here.status.success() && here.stderr.is_empty(), "{}", told(&here));
    assert!(there.status.success() && there.stdout == here.stdout && told(&there).contains("with less room"), "{}", told(&there));
}

#[test]
fn every_kind_of_sheet_is_the_same() {
    for of in ["", "--signs plus", "--sample 9 --chunks 3 --threads 2"] {
        let line = format!("--kind tri --width 3 --length 4 --beta 0.3,0.5 {of}");
        for format in ["csv --bits", "json --bits", "svg"] {
            assert_eq!(printed(&format!("{line} --format {format} --less-room")), printed(&format!("{line} --format {format}")));
        }
        let (less, whole) = (printed(&format!("{line} --less-room")), printed(&line));
        let foot: Vec<&str> = less.lines().filter(|row| !whole.contains(row)).collect();
        assert_eq!(foot.len(), 1, "{less}");
        assert!(foot[0].starts_with("worked out with less room: ") && foot[0].ends_with("; no number depends on it"), "{less}");
    }
    // in a window of 1 there is nothing to leave out, and nothing is told
    let line = "--kind square --width 1 --length 4 --beta 0.3";
    assert_eq!(printed(&format!("{line} --less-room")), printed(line));
}
