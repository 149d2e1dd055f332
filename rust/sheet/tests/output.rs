//! Nothing lost, nothing waited for in vain: files, pipes, full disks, runs that are broken off, and what is found before a long run.

mod common;
use common::{folder, printed, sheet, told, SQUARE};
use std::fs;
use std::io::{BufRead, BufReader, Read};
use std::os::unix::fs::PermissionsExt;
use std::process::{Command, Stdio};
use std::time::{Duration, Instant};

/// A run of minutes at least.
const LONG: &str = "--kind square --width 3 --length 17 --beta 0.5 --enumerate";

#[test]
fn a_file_is_there_whole_or_not_at_all() {
    let folder = folder("output");
    let file = folder.join("square.txt");
    for _ in 0..2 {
        assert_eq!(printed(&format!("{SQUARE} --output {}", file.display())), "");
        assert_eq!(fs::read_to_string(&file).unwrap(), printed(SQUARE));
    }
    let refused = sheet(&format!("{SQUARE} --signs + --output {}", folder.join("none").display()));
    assert_eq!(refused.status.code(), Some(2));
    assert_eq!(fs::read_dir(&folder).unwrap().count(), 1);
    assert_eq!(printed(&format!("{SQUARE} --output /dev/null")), "");
    assert!(!fs::metadata("/dev/null").unwrap().is_file());
}

#[test]
fn a_file_keeps_its_mode() {
    let file = folder("mode").join("square.txt");
    for mode in [0o600, 0o664, 0o400] {
        fs::write(&file, "old").unwrap();
        fs::set_permissions(&file, fs::Permissions::from_mode(mode)).unwrap();
        printed(&format!("{SQUARE} --output {}", file.display()));
        assert_eq!(fs::metadata(&file).unwrap().permissions().mode() & 0o777, mode);
        assert_eq!(fs::read_to_string(&file).unwrap(), printed(SQUARE));
        fs::remove_file(&file).unwrap();
    }
}

/// It is told within seconds, of a run of minutes.
fn told_at_once(line: &str, status: i32, message: &str) {
    let start = Instant::now();
    let (told, code) = told(line);
    assert!(code == Some(status) && told.contains(message), "{line}: {told}");
    assert!(start.elapsed() < Duration::from_secs(20), "{line}");
}

#[test]
fn what_is_in_the_way_is_told_before_a_long_run() {
    let folder = folder("before");
    told_at_once(&format!("{LONG} --output {}", folder.join("none/none").display()), 1, "sheet: --output ");
    told_at_once(&format!("{LONG} --output {}", folder.display()), 1, "is a directory");
    let overflows = "sheet: beta 300: the weights overflow, or vanish, as doubles; use a smaller one (refusal 14)\n";
    told_at_once(&LONG.replace("--beta 0.5", "--beta 0.5,0.6,300"), 2, overflows);
    told_at_once(&LONG.replace("--beta 0.5 --enumerate", "--beta 0.5,300 --sample 100000000"), 2, overflows);
    told_at_once(&LONG.replace("--beta 0.5", "--beta 0.5,710"), 2, "beta 710: exp(710) overflows");
}

/// It leaves no sheet then, and nothing beside it.
#[test]
fn a_run_that_is_broken_off_leaves_nothing() {
    let folder = folder("broken");
    let line = format!("{LONG} --output {}", folder.join("sheet.txt").display());
    // a test that is run in the background may have ^C ignored, and what it starts would ignore it too
    let mut command = Command::new("env");
    command.args(["--default-signal=INT", env!("CARGO_BIN_EXE_sheet")]).args(line.split_whitespace());
    let mut child = command.stderr(Stdio::piped()).spawn().unwrap();
    let mut estimate = String::new();
    BufReader::new(child.stderr.take().unwrap()).read_line(&mut estimate).unwrap();
    assert!(estimate.starts_with("sheet: about ") && estimate.ends_with(" of work memory\n"), "{estimate}");
    assert!(Command::new("kill").args(["-INT", &child.id().to_string()]).status().unwrap().success());
    assert!(!child.wait().unwrap().success());
    assert_eq!(fs::read_dir(&folder).unwrap().count(), 0);
}

/// Of a sheet that its file does not take, nothing is lost.
#[test]
fn a_full_disk() {
    let output = sheet(&format!("{SQUARE} --output /dev/full"));
    assert_eq!(output.status.code(), Some(1));
    assert_eq!(String::from_utf8(output.stdout).unwrap(), printed(SQUARE));
    let told = String::from_utf8(output.stderr).unwrap();
    assert!(
        told.starts_with("sheet: it cannot be written to its file, and goes to standard output\nsheet: --output /dev/full: No space"),
        "{told}"
    );
    let full = fs::OpenOptions::new().write(true).open("/dev/full").unwrap();
    let output = Command::new(env!("CARGO_BIN_EXE_sheet")).args(SQUARE.split_whitespace()).stdout(full).output().unwrap();
    assert_eq!(output.status.code(), Some(1));
    assert!(String::from_utf8(output.stderr).unwrap().starts_with("sheet: standard output: No space"));
}

#[test]
fn a_closed_pipe_ends_it_quietly() {
    let mut child = Command::new(env!("CARGO_BIN_EXE_sheet"))
        .args(SQUARE.split_whitespace())
        .stdout(Stdio::piped())
        .stderr(Stdio::piped())
        .spawn()
        .unwrap();
    drop(child.stdout.take());
    let mut told = String::new();
    child.stderr.take().unwrap().read_to_string(&mut told).unwrap();
    assert!(child.wait().unwrap().success() && told.is_empty(), "{told}");
}
