//! `record`, `join` and `totals`: samplings as files.

mod common;
use common::{body, folder, printed, sheet, table, told};
use std::fs;
use std::path::Path;

const JOB: &str = "--kind tri --width 3 --length 4 --dilute 0.9,0.5,1.5,2 --beta 0.2,0.44";

/// The record of these chunks, in a file of this name.
fn recorded(folder: &Path, name: &str, chunks: &str, more: &str) -> (String, Vec<u8>) {
    let file = folder.join(name).display().to_string();
    assert_eq!(printed(&format!("record {JOB} --sample 20 --seed 5 --chunks {chunks} --output {file} {more}")), "");
    let bytes = fs::read(&file).unwrap();
    (file, bytes)
}

#[test]
fn records_in_any_order_are_joined_to_one_long_run() {
    let folder = folder("run_record_joined");
    let parts = [("a", "0..3"), ("b", "3..4"), ("c", "4..9")].map(|(name, chunks)| recorded(&folder, name, chunks, "").0);
    let [(_, whole), (_, threaded), (_, less)] =
        [("w", ""), ("t", "--threads 3"), ("l", "--less-room")].map(|(name, more)| recorded(&folder, name, "0..9", more));
    assert_eq!((&threaded, &less), (&whole, &whole));
    let pairs = (whole.len() - 32) / (28 * 9 * 2);
    assert_eq!(whole.len(), 32 + 28 * 9 * 2 * pairs);
    for order in [[0, 1, 2], [2, 0, 1], [1, 2, 0]] {
        let output = folder.join("joined").display().to_string();
        let line = format!("join {} {} {} --output {output}", parts[order[0]], parts[order[1]], parts[order[2]]);
        assert_eq!(told(&line), (format!("sheet: 3 records joined: chunks 0..9 of 20 samples, seed 5, 2 betas, {pairs} pairs\n"), Some(0)));
        assert_eq!(fs::read(&output).unwrap(), whole);
    }
    // nothing is left beside them
    assert_eq!(fs::read_dir(&folder).unwrap().count(), 7);
}

#[test]
fn totals_with_the_job_are_the_sheet_of_a_sampling() {
    let folder = folder("run_record_totals");
    let (file, bytes) = recorded(&folder, "whole", "2..9", "");
    let sampled = |more: &str| printed(&format!("{JOB} --sample 20 --seed 5 --chunks 2..9 {more}"));
    assert_eq!(body(&printed(&format!("totals {file} {JOB}"))), body(&sampled("")));
    let csv = printed(&format!("totals {file} {JOB} --format csv --bits"));
    let record = format!("# run_record_sha256: {}\n", common::sha256(&bytes));
    assert_eq!(csv.replace(&record, ""), sampled("--format csv --bits"));
    // verify works it out by sampling, and tells a value that is not the run's
    let verified = |text: &str| {
        let file = folder.join("sheet.csv");
        fs::write(&file, text).unwrap();
        let output = sheet(&format!("verify {}", file.display()));
        (String::from_utf8(output.stdout).unwrap(), output.status.code())
    };
    let (verdict, status) = verified(&csv);
    assert!(verdict.starts_with("note: the sheet is of the totals of a run record; they were worked out again by sampling\n"), "{verdict}");
    assert!(verdict.ends_with("cells agree, bit for bit\n") && status == Some(0), "{verdict}");
    let other = printed(&format!("totals {file} {} --format csv --bits", JOB.replace("0.44", "0.45")));
    assert_eq!(verified(&other).1, Some(1));
}

#[test]
fn totals_without_a_job_are_numbered() {
    let folder = folder("run_record_numbered");
    let file = folder.join("whole").display().to_string();
    let strip = "--kind square --width 3 --length 4 --beta 0.25,0.5 --pairs 0-5,2-3 --house --manner element";
    printed(&format!("record {strip} --sample 20 --seed 5 --chunks 0..3 --output {file}"));
    let bytes = fs::read(&file).unwrap();
    let text = printed(&format!("totals {file}"));
    assert!(text.starts_with(&format!(
        "run record {file}: chunks 0..3 of 20 samples, seed 5, 2 betas, 2 pairs\n60 configurations drawn with seed 5"
    )));
    let csv = printed(&format!("totals {file} --format csv --bits"));
    let rows: Vec<String> = table(&csv).lines().map(String::from).collect();
    assert_eq!((rows.len(), rows[0].as_str()), (5, "beta,pair,mean_square,mean_square_bits,std_error,std_error_bits"));
    assert!(rows[1].starts_with("0,0,") && rows[2].starts_with("0,1,") && rows[3].starts_with("1,0,"));
    assert_eq!(common::recorded(&csv, "run_record_sha256"), common::sha256(&bytes));
    let out = folder.join("sheet.csv");
    fs::write(&out, csv).unwrap();
    assert!(sheet(&format!("verify {}", out.display())).status.success());
}

#[test]
fn what_does_not_join_is_told() {
    let folder = folder("run_record_apart");
    let [a, b, c] = [("a", "0..3"), ("b", "2..5"), ("c", "7..9")].map(|(name, chunks)| recorded(&folder, name, chunks, "").0);
    let output = folder.join("joined");
    let refused = |files: &str| {
        let (told, status) = told(&format!("join {files} --output {}", output.display()));
        assert!(status == Some(2) && !output.exists());
        told
    };
    assert_eq!(
        refused(&format!("{c} {a}")),
        "sheet: chunks are missing: 3..7; sheet record --chunks 3..7 .. makes the first of them (refusal 27)\n"
    );
    assert_eq!(
        refused(&format!("{b} {a} {c}")),
        format!("sheet: chunks are there twice: 2..3 in {a} (0..3) and {b} (2..5); leave one of the files out (refusal 27)\n")
    );
    let other = folder.join("other").display().to_string();
    printed(&format!("record {JOB} --sample 20 --seed 6 --chunks 3..7 --output {other}"));
    assert_eq!(
        refused(&format!("{a} {other}")),
        format!("sheet: records of different runs: seed 5 in {a}, and 6 in {other} (refusal 27)\n")
    );
}

#[test]
fn what_is_no_record_is_told_with_its_byte() {
    let folder = folder("run_record_none");
    let (file, good) = recorded(&folder, "a", "0..2", "");
    let refused = |bytes: &[u8]| {
        fs::write(&file, bytes).unwrap();
        let (told, status) = told(&format!("totals {file}"));
        assert_eq!(status, Some(2));
        assert!(!sheet(&format!("show {file}")).status.success());
        told.strip_prefix(&format!("sheet: {file}: ")).unwrap().strip_suffix(" (refusal 26)\n").unwrap().to_string()
    };
    let changed = |at: usize, byte: u8| {
        let mut bytes = good.clone();
        bytes[at] = byte;
        bytes
    };
    let pairs = (good.len() - 32) / (28 * 2 * 2);
    assert_eq!(refused(&[]), "it has 0 bytes, and a head 32");
    assert_eq!(refused(&good[..31]), "it has 31 bytes, and a head 32");
    assert_eq!(refused(&changed(0, 1)), "byte 0: a record of kind 1; a run record begins with kind 17");
    assert_eq!(refused(&changed(29, 65)), "byte 29: 65 betas; at most 64");
    assert_eq!(refused(&changed(31, 2)), format!("byte 30: {} pairs; at most 256", 512 + pairs));
    assert_eq!(refused(&changed(9, 3)), "byte 17: the end of the chunks, 2, is below their start, 3");
    let many = "4294967298 chunks of 20 samples = 85899345960 configurations; at most 4,294,967,296 (2^32)";
    assert_eq!(refused(&changed(21, 1)), format!("byte 25: {many}"));
    let long = good.len();
    assert_eq!(refused(&good[..long - 1]), format!("it has {} bytes; chunks 0..2 of 2 betas and {pairs} pairs have {long}", long - 1));
    let row = 32 + 28 * (pairs + 1);
    let told = format!("byte {row}: a row of kind 18, chunk 9, beta 1, pair 1; expected kind 18, chunk 0, beta 1, pair 1");
    assert_eq!(refused(&changed(row + 1, 9)), told);
    assert!(refused(&changed(row + 19, 0xc0)).ends_with("0 <= fourth powers <= squares <= 20 must hold, and no sum is -0"));
}

#[test]
fn a_record_is_sampled_again() {
    let folder = folder("run_record_verified");
    let (file, good) = recorded(&folder, "a", "3..7", "");
    let rows = (good.len() - 32) / 28;
    let verified = |more: &str| {
        let output = sheet(&format!("verify {file} {more}"));
        (String::from_utf8(output.stdout).unwrap(), output.status.code())
    };
    assert_eq!(verified(JOB), (format!("{file}: all {rows} rows of chunks 3..7 agree, bit for bit\n"), Some(0)));
    let some = format!("{file}: all {} rows of chunks 4..6 agree, bit for bit\n", rows / 2);
    assert_eq!(verified(&format!("{JOB} --chunks 4..6 --threads 2 --less-room")), (some, Some(0)));
    // another job, and a row that was altered: chunk 5, the first beta, the second pair
    let (told_other, status) = verified(&JOB.replace("0.44", "0.45"));
    assert!(told_other.contains(&format!("{} of {rows} rows of chunks 3..7 differ", rows / 2)) && status == Some(1), "{told_other}");
    let mut altered = good.clone();
    altered[32 + 28 * (rows / 2 + 1) + 20] ^= 1;
    fs::write(&file, altered).unwrap();
    let (told_altered, status) = verified(JOB);
    assert!(told_altered.starts_with("chunk 5, beta 0, pair 1: the record has ") && status == Some(1), "{told_altered}");
    assert!(told_altered.contains(&format!("{file}: 1 of {rows} rows of chunks 3..7 differ")), "{told_altered}");
    assert_eq!(verified(&format!("{JOB} --chunks 3..5")).1, Some(0));
    assert_eq!(told(&format!("verify {file} {JOB} --chunks 2..5")), (format!("sheet: --chunks 2..5: {file} has chunks 3..7\n"), Some(2)));
    assert!(told(&format!("verify {file}")).0.contains("a run record holds no job; give its options too"));
}

#[test]
fn a_record_that_is_there_stays() {
    let folder = folder("run_record_resumed");
    let (file, good) = recorded(&folder, "a", "0..2", "");
    let line = format!("record {JOB} --sample 20 --seed 5 --chunks 0..2 --output {file} --resume");
    assert_eq!(told(&line), (format!("sheet: {file} is there, and is the record of this run; it stays\n"), Some(0)));
    // cut short it is made anew
    fs::write(&file, &good[..good.len() - 5]).unwrap();
    let (told_anew, status) = told(&line);
    assert!(
        told_anew.contains("is there, and is no run record: it has") && told_anew.ends_with("; it is made anew\n") && status == Some(0)
    );
    assert_eq!(fs::read(&file).unwrap(), good);
    // the record of another run is not taken, nor replaced
    let (told_other, status) = told(&line.replace("0..2", "0..3"));
    assert!(told_other.contains("is the record of another run: chunks 0..2 of 20 samples, seed 5") && status == Some(2), "{told_other}");
    assert_eq!(fs::read(&file).unwrap(), good);
    let fresh = folder.join("c").display().to_string();
    assert_eq!(printed(&format!("record {JOB} --sample 20 --seed 5 --chunks 0..2 --output {fresh} --resume")), "");
    assert_eq!(fs::read(fresh).unwrap(), good);
}

#[test]
fn runs_that_no_record_takes_are_refused() {
    let output = folder("run_record_refused").join("a").display().to_string();
    let refused = |more: &str| told(&format!("record {JOB} --output {output} {more}"));
    let many = "sheet: --sample 4294967296: a run record takes at most 4,294,967,295 in each chunk; take more chunks (refusal 26)\n";
    assert_eq!(refused("--sample 4294967296"), (many.to_string(), Some(2)));
    assert!(refused("--sample 4294967297").0.ends_with("(refusal 11)\n"));
    assert!(refused("--sample 1 --chunks 0..4294967296").0.contains("sample fewer chunks, and join the files"));
    let (told, status) = told(&format!("record {JOB} --sample 5 --output {}", Path::new(&output).join("none").display()));
    assert!(told.contains("--output") && status == Some(1), "{told}");
    assert!(!Path::new(&output).exists());
}
