//! `sheet verify`: a sheet agrees, or is told where it does not.

mod common;
use common::{folder, printed, sheet};
use oracle::glass::{exhaustive, Acc, Plan};
use oracle::lattice::{Kind, Strip};
use std::path::Path;

const JOBS: [&str; 7] = [
    "--kind square --width 3 --length 4 --beta 0.44,0.6",
    "--kind tri --width 3 --length 8 --cylinder --beta 0.3 --seed 7 --manner element",
    "--kind tri --width 3 --length 9 --beta 0.5,1 --sample 10 --chunks 4 --threads 2",
    "--kind honey --width 4 --length 5 --beta 1 --dilute 0.9,0.5,1.5,11 --pairs 0-19,0-1 --signs plus",
    "--kind square --width 3 --length 4 --beta 0.4375,0.6015625 --house",
    "--kind tri --width 3 --length 9 --beta 0.5,1 --sample 10 --chunks 4 --threads 2 --house --tester",
    "--kind honey --width 4 --length 5 --beta -4 --dilute 0.9,1,1,11 --seed 3 --house --less-room",
];

/// The exit status, and what is told on standard output and on standard error.
fn verified(file: &Path) -> (Option<i32>, String) {
    let output = sheet(&format!("verify {} --threads 2", file.display()));
    (output.status.code(), String::from_utf8(output.stdout).unwrap() + &String::from_utf8(output.stderr).unwrap())
}

#[test]
fn a_sheet_as_it_was_made_agrees() {
    let file = folder("verify-good").join("sheet");
    for job in JOBS {
        for (format, how) in
            [("csv", "digit by digit"), ("csv --bits", "bit for bit"), ("json", "digit by digit"), ("json --bits", "bit for bit")]
        {
            std::fs::write(&file, printed(&format!("{job} --format {format}"))).unwrap();
            let (status, told) = verified(&file);
            assert!(status == Some(0) && told.ends_with(&format!(" cells agree, {how}\n")), "{job} {format}: {told}");
        }
    }
}

/// Where the one value stands in a sheet, as its format spells it.
fn place(whole: &str, format: &str) -> usize {
    let (before, start) = match format {
        "csv" => ("\nsquare,free,2,3,0.7,0-5,0,5,3,", "0."),
        "json" => ("\"correlation\": [", "0."),
        "csv --bits" => ("\nsquare,free,2,3,0.7,0-5,0,5,3,", "0x"),
        _ => ("\"correlation_bits\": [", "0x"),
    };
    let from = whole.find(before).unwrap() + before.len();
    from + whole[from..].find(start).unwrap() + start.len()
}

#[test]
fn one_digit_changed_is_found() {
    let file = folder("verify-digit").join("sheet");
    for (format, column) in
        [("csv", "correlation"), ("csv --bits", "correlation_bits"), ("json", "correlation[0]"), ("json --bits", "correlation_bits[0]")]
    {
        let whole = printed(&format!("--kind square --width 2 --length 3 --beta 0.7 --pairs 0-5 --seed 3 --format {format}"));
        // from the first digit to the last
        for at in place(&whole, format)..place(&whole, format) + 15 {
            let mut changed = whole.clone();
            changed.replace_range(at..at + 1, if whole.as_bytes()[at] == b'1' { "2" } else { "1" });
            std::fs::write(&file, &changed).unwrap();
            let (status, told) = verified(&file);
            assert!(status == Some(1) && told.contains(": 1 of "), "{format}: {told}");
            assert!(told.contains(&format!("{column}: the sheet has ")), "{format}: {told}");
        }
    }
}

#[test]
fn a_record_that_was_altered_is_found() {
    let file = folder("verify-record").join("sheet.csv");
    let csv = printed("--kind square --width 2 --length 3 --beta 0.7 --seed 3 --format csv");
    for (from, to, told) in [
        ("# count: 1", "# count: 2", "count: the sheet has 2, worked out 1\n"),
        ("# seed: 3", "# seed: 4", "seed: the sheet has 4, worked out 3\n"),
        ("# manner: block\n", "", "manner: the sheet has nothing, worked out block\n"),
        (",correlation_bound", ",bound", "columns: the sheet has "),
        ("--seed 3 --manner block", "--seed 4 --manner block", "worked out"),
    ] {
        assert!(csv.contains(from));
        std::fs::write(&file, csv.replacen(from, to, 1)).unwrap();
        let (status, what) = verified(&file);
        assert!(status == Some(1) && what.contains(told), "{what}");
    }
    let factors = csv.lines().find(|line| line.starts_with("# factors_sha256: ")).unwrap();
    std::fs::write(&file, csv.replacen(factors, "# factors_sha256: 0", 1)).unwrap();
    let (status, what) = verified(&file);
    assert!(status == Some(1) && what.contains("this host's exp is not the one"), "{what}");
}

/// Another build that gives the same numbers is worth a note, and no difference.
#[test]
fn another_build_is_noted() {
    let file = folder("verify-build").join("sheet.json");
    let json = printed("--kind square --width 2 --length 3 --beta 0.7 --format json");
    std::fs::write(&file, json.replacen("\"copperhook\": \"", "\"copperhook\": \"9", 1)).unwrap();
    let (status, told) = verified(&file);
    assert!(status == Some(0) && told.starts_with("note: copperhook: the sheet has 9"), "{told}");
}

/// The original's totals of all configurations of a 3 by 4 square at two betas, and how many pairs they have.
fn totals() -> (Acc, usize) {
    let strip = Strip { kind: Kind::Square, w: 3, l: 4, periodic: false };
    let pairs: Vec<(usize, usize)> = strip.pairs().iter().map(|p| (p.1, p.2)).collect();
    let graph = strip.graph();
    (exhaustive(&graph, &Plan::new(&graph, &pairs), &[0.44, 0.6], 1), pairs.len())
}

/// Sheets of that square as they were before spreads: with the standard errors of a sample, the original's.
fn before_spreads() -> [String; 2] {
    let (total, pairs) = totals();
    let error = |beta: usize, pair: usize| format!("{:?}", total.se(beta, pair) + 0.0);
    let told = |format: &str| printed(&format!("--kind square --width 3 --length 4 --beta 0.44,0.6 --format {format}"));
    let csv = told("csv");
    let (record, rows): (Vec<&str>, Vec<&str>) = csv.lines().partition(|line| line.starts_with('#'));
    let row = |(i, row): (usize, &&str)| {
        let mut cells: Vec<String> = row.split(',').map(String::from).collect();
        cells[10] = if i == 0 { "std_error".to_string() } else { error((i - 1) / pairs, (i - 1) % pairs) };
        cells.join(",") + "\n"
    };
    let csv = record.join("\n") + "\n" + &rows.iter().enumerate().map(row).collect::<String>();
    let json = told("json").replace("their spreads", "their standard errors");
    let parts: Vec<&str> = json.split("\"spread\": [").collect();
    let part = |(p, part): (usize, &&str)| format!("\"std_error\": [{}, {}]{}", error(0, p), error(1, p), part.split_once(']').unwrap().1);
    let json = parts[0].to_string() + &parts[1..].iter().enumerate().map(part).collect::<String>();
    [csv, json]
}

const BEFORE: &str =
    "note: the sheet is of all configurations and has no spreads: it was made before there were any, and was worked out as then, \
                      with the standard errors of a sample\n";

/// They agree as they were made, and a digit that was changed is found.
#[test]
fn a_sheet_from_before_spreads_goes_on_agreeing() {
    let file = folder("verify-before").join("sheet");
    for old in before_spreads() {
        assert!(old.contains("std_error") && !old.contains("spread"), "{old}");
        std::fs::write(&file, &old).unwrap();
        let (status, told) = verified(&file);
        assert!(status == Some(0) && told.starts_with(BEFORE) && told.ends_with(" cells agree, digit by digit\n"), "{told}");
        let (first, _) = totals();
        let told = format!("{:?}", first.se(0, 0));
        std::fs::write(&file, old.replacen(&told, &format!("{told}1"), 1)).unwrap();
        let (status, what) = verified(&file);
        assert!(status == Some(1) && what.contains(": 1 of ") && what.contains("std_error"), "{what}");
    }
    // one configuration had a mean alone
    let csv = printed("--kind square --width 1 --length 3 --beta 0.5 --format csv --pairs 0-1");
    std::fs::write(&file, csv.replacen(",spread,", ",", 1).replacen(",0.0,", ",", 1)).unwrap();
    let (status, told) = verified(&file);
    assert!(status == Some(0) && told.starts_with(BEFORE), "{told}");
    // a sheet of drawn configurations has no word of it
    std::fs::write(&file, printed(&format!("{} --format csv", JOBS[2]))).unwrap();
    assert!(!verified(&file).1.contains("note:"));
}

/// A spread that was changed is found.
#[test]
fn a_changed_spread_is_found() {
    let file = folder("verify-spread").join("sheet.csv");
    let csv = printed("--kind square --width 1 --length 3 --beta 0.5 --format csv --pairs 0-1");
    std::fs::write(&file, csv.replacen(",0.0,", ",0.5,", 1)).unwrap();
    let (status, told) = verified(&file);
    assert!(status == Some(1) && told.contains("spread: the sheet has 0.5, worked out 0.0\n"), "{told}");
}

#[test]
fn what_is_no_sheet_has_another_status() {
    let folder = folder("verify-none");
    let file = folder.join("sheet");
    let csv = printed("--kind square --width 2 --length 3 --beta 0.7 --format csv");
    for (text, told) in [
        ("", "it is no sheet in csv or json"),
        ("# kind: square\nu\n", "it has no record of a command"),
        (&printed("--kind square --width 2 --length 3 --beta 0.7"), "it is no sheet in csv or json"),
        ("{\"a\": ", "is no value"),
        ("{}", "it has no record of a command"),
        ("# kind: square\nu,v\n0,1,2\n", "row 1 has 3 cells; its head has 2"),
        ("# command: rm -r\nu\n", "its command is 'rm -r', which is none of a sheet"),
        ("# command: sheet --version\nu\n", "which makes no sheet"),
        ("# command: sheet make --kind cube\nu\n", "there is no such kind"),
        (&csv.replace("--width 2 --length 3", "--width 25 --length 3"), "this strip needs a window of 25"),
    ] {
        std::fs::write(&file, text).unwrap();
        let (status, what) = verified(&file);
        assert!(status == Some(2) && what.contains(told), "{text}: {what}");
    }
    assert_eq!(verified(&folder.join("absent")).0, Some(2));
    // a command's output is not followed
    let elsewhere = folder.join("elsewhere");
    std::fs::write(&file, csv.replace("--manner block", &format!("--manner block --output {}", elsewhere.display()))).unwrap();
    assert_eq!(verified(&file).0, Some(1));
    assert!(!elsewhere.exists());
}
