//! `--job`, `--write-job` and `show`: jobs as files.

mod common;
use common::{body, folder, printed, sheet, table, told};
use std::fs;

/// A job sheet that the program writes of this strip.
fn written(name: &str, line: &str) -> (String, Vec<u8>) {
    let file = folder(&format!("job_sheet_{name}")).join("board.job").display().to_string();
    printed(&format!("{line} --write-job {file}"));
    let bytes = fs::read(&file).unwrap();
    (file, bytes)
}

/// The values of a csv, without what says which strip they are of and the pair's name.
fn values(csv: &str) -> Vec<String> {
    table(csv).lines().skip(1).map(|row| row.split(',').skip(6).collect::<Vec<_>>().join(",")).collect()
}

#[test]
fn a_job_that_was_written_gives_the_same_numbers() {
    let line = "--kind tri --width 3 --length 4 --dilute 0.8,0.5,1.5,2 --beta 0.2,0.44 --format csv --bits --seed 5";
    let (file, bytes) = written("same", line);
    let (of_strip, of_job) = (printed(line), printed(&format!("--job {file} --format csv --bits --seed 5")));
    assert_eq!(values(&of_job), values(&of_strip));
    // and the job is written again as it is
    assert_eq!(written("again", &format!("--job {file} --signs plus")).1, bytes);
    let csv = folder("job_sheet_csv").join("same.csv");
    fs::write(&csv, of_job).unwrap();
    assert!(sheet(&format!("verify {}", csv.display())).status.success());
}

#[test]
fn a_sheet_is_shown_record_by_record() {
    let (file, bytes) = written("shown", "--kind square --width 2 --length 2 --beta 0.44 --pairs 3-0");
    let expected = format!(
        "  byte  kind
     0  1  4 vertices, floor 2
     4  2  edge 0-1, magnitude 1
    17  2  edge 0-2, magnitude 1
    30  2  edge 1-3, magnitude 1
    43  2  edge 2-3, magnitude 1
    56  3  beta 0.44
    65  4  pair 3-0
    70  5  end
{file}: a job sheet of 71 bytes: 4 edges, 1 beta, 1 pair
"
    );
    assert_eq!(printed(&format!("show {file}")), expected);
    assert_eq!(bytes.len(), 71);
}

/// A file with these bytes, shown: the last line and the exit status.
fn shown(name: &str, bytes: &[u8]) -> (String, Option<i32>) {
    let file = folder(&format!("job_sheet_{name}")).join("board.job");
    fs::write(&file, bytes).unwrap();
    let output = sheet(&format!("show {}", file.display()));
    let text = String::from_utf8(output.stdout).unwrap();
    let last = text.lines().last().unwrap();
    (last.strip_prefix(&format!("{}: ", file.display())).unwrap_or(last).to_string(), output.status.code())
}

#[test]
fn where_it_stops_being_a_sheet_is_told() {
    let size = [1, 2, 0, 0];
    let beta = [&[3][..], &f64::NAN.to_le_bytes()].concat();
    for (bytes, told) in [
        (vec![], "no job sheet: byte 0: the sheet ends there, without its end record; a record of kind 1 may follow (refusal 19)"),
        (vec![5, 0], "no job sheet: byte 0: a record of kind 5 is out of order; kind 1 may stand there (refusal 19)"),
        (vec![1, 2], "no job sheet: byte 0: a record of kind 1 has 4 bytes, and 2 are left (refusal 19)"),
        ([&size[..], &[9]].concat(), "no job sheet: byte 4: 9 is no kind of record; kind 2, 3, 4 or 5 may stand there (refusal 19)"),
        (
            [&size[..], &size].concat(),
            "no job sheet: byte 4: a record of kind 1 is out of order; kind 2, 3, 4 or 5 may stand there (refusal 19)",
        ),
        (
            [&size[..], &[4, 0, 0, 1, 0], &beta].concat(),
            "no job sheet: byte 9: a record of kind 3 is out of order; kind 4 or 5 may stand there (refusal 19)",
        ),
        ([&size[..], &[5, 5]].concat(), "no job sheet: byte 4: the end stands there, with 1 byte behind it (refusal 20)"),
    ] {
        assert_eq!(shown("no", &bytes), (told.to_string(), Some(2)));
    }
    let (refused, status) = shown("nan", &[&size[..], &beta, &[5]].concat());
    assert!(refused.starts_with("a job sheet of 0 edges, 1 beta, 0 pairs, whose job is refused: "), "{refused}");
    assert!(refused.ends_with("it must be finite and of size 1,024 at most (refusal 4)") && status == Some(2), "{refused}");
}

#[test]
fn a_bad_job_is_told_with_its_value_and_limit() {
    let edge = |a: u8, b: u8, m: f64| [&[2, a, 0, b, 0][..], &m.to_le_bytes()].concat();
    let size = |n: u8, floor: u8| vec![1, n, 0, floor];
    let file = folder("job_sheet_bad").join("board.job");
    for (bytes, said) in [
        ([size(0, 0), vec![5]].concat(), "0 vertices; 1 to 1,024 (refusal 1)"),
        ([size(3, 0), edge(2, 2, 1.0), vec![5]].concat(), "edge 0 is 2-2: its ends must differ (refusal 3)"),
        ([size(3, 0), edge(0, 1, 1.0), edge(2, 7, 1.0), vec![5]].concat(), "edge 1 is 2-7: vertices are 0 to 2 (refusal 3)"),
        ([size(3, 25), vec![5]].concat(), "a window of 25, the largest of the floor 25 and the longest kept edge; at most 24 (refusal 6)"),
        ([size(3, 0), vec![4, 1, 0, 1, 0, 5]].concat(), "pair 0 is 1-1: its ends must differ (refusal 8)"),
    ] {
        fs::write(&file, bytes).unwrap();
        assert_eq!(told(&format!("--job {}", file.display())), (format!("sheet: {}: {said}\n", file.display()), Some(2)));
    }
    fs::write(&file, [size(2, 0), edge(0, 1, 1.0), vec![3], 0.44f64.to_le_bytes().to_vec(), vec![5]].concat()).unwrap();
    let (house, _) = told(&format!("--job {} --house", file.display()));
    assert!(house.contains("change it in the job sheet"), "{house}");
    assert!(body(&printed(&format!("--job {}", file.display())))
        .starts_with(&format!("job {}: 2 vertices, 1 kept edge, window 1\n", file.display())));
}
