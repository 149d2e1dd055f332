//! `cluster`: a run in tasks, some of which end badly, is the bytes of one long run.

mod common;
use common::{folder, printed};
use std::fs;
use std::os::unix::fs::PermissionsExt;
use std::path::{Path, PathBuf};
use std::process::{Command, Output};

const JOB: &str = "--kind square --width 4 --length 6 --beta 0.25,0.5 --house --sample 300 --seed 9";

/// The script, with these options and this job, by this program.
fn cluster(program: &Path, line: &str, job: &str) -> Output {
    let script = Path::new(env!("CARGO_MANIFEST_DIR")).join("cluster");
    let mut command = Command::new("bash");
    command.arg(script).args(line.split_whitespace()).arg("--sheet").arg(program).arg("--").args(job.split_whitespace());
    command.output().unwrap()
}

fn said(output: &Output) -> String {
    String::from_utf8_lossy(&output.stderr).into_owned()
}

fn program() -> PathBuf {
    PathBuf::from(env!("CARGO_BIN_EXE_sheet"))
}

/// A program that does what the real one does, but for the first run of a task of chunks 4..6: it is killed while it samples, and leaves behind
/// what a file that is being written looks like.
fn dying(folder: &Path) -> PathBuf {
    let (path, marks) = (folder.join("dying"), folder.display());
    let real = program().display().to_string();
    let text = format!(
        r#"#!/usr/bin/env bash
echo "$*" >>{marks}/asked
case "$*" in
    "record "*"--chunks 4..6 "*)
        if [ ! -f {marks}/killed ]; then
            {real} "${{@/300/30000000}}" &
            sleep 0.2
            kill -9 $! && touch {marks}/killed
            wait $! 2>/dev/null
            head -c 99 {marks}/tasks/0..2.rec >{marks}/tasks/.4..6.rec.1.tmp 2>/dev/null
            exit 137
        fi ;;
esac
exec {real} "$@"
"#
    );
    fs::write(&path, text).unwrap();
    fs::set_permissions(&path, fs::Permissions::from_mode(0o755)).unwrap();
    path
}

/// The bytes of one long run.
fn long_run(folder: &Path, chunks: &str) -> Vec<u8> {
    let file = folder.join("long.rec");
    printed(&format!("record {JOB} --chunks {chunks} --output {}", file.display()));
    fs::read(file).unwrap()
}

#[test]
fn a_task_that_was_killed_is_taken_up_again() {
    let folder = folder("cluster_killed");
    let (dying, name, long) = (dying(&folder), folder.display(), long_run(&folder, "0..11"));
    let line = format!("--chunks 0..11 --task 2 --workers 3 --folder {name}/tasks --output {name}/whole.rec");
    // with one try it is told, and there is no record of all
    let output = cluster(&dying, &format!("{line} --tries 1"), JOB);
    assert!(said(&output).contains("task 4..6 has failed") && output.status.code() == Some(1), "{}", said(&output));
    assert!(said(&output).contains("1 of 6 tasks have no record: 4..6; the same line again takes them up\n"), "{}", said(&output));
    assert!(folder.join("killed").exists() && !folder.join("whole.rec").exists() && !folder.join("tasks/4..6.rec").exists());
    // the same line again does that task alone
    let before = fs::read_to_string(folder.join("asked")).unwrap().matches("record ").count();
    let output = cluster(&dying, &line, JOB);
    assert!(output.status.success(), "{}", said(&output));
    assert!(said(&output).contains("1 of 6 tasks to do, by processes\n"), "{}", said(&output));
    assert_eq!(fs::read_to_string(folder.join("asked")).unwrap().matches("record ").count(), before + 1);
    assert_eq!(fs::read(folder.join("whole.rec")).unwrap(), long);
}

#[test]
fn a_failed_task_is_tried_twice_and_a_bad_record_is_made_anew() {
    let folder = folder("cluster_anew");
    let (dying, name, long) = (dying(&folder), folder.display(), long_run(&folder, "3..9"));
    // 4..6 is a task only here: chunks 4..9, after 3..4 alone
    let line = |chunks: &str| format!("--chunks {chunks} --task 2 --workers 2 --folder {name}/tasks --output {name}/{chunks}.rec");
    let output = cluster(&dying, &line("4..9"), JOB);
    assert!(output.status.success() && folder.join("killed").exists(), "{}", said(&output));
    // a record that is cut short is put aside
    let task = folder.join("tasks/6..8.rec");
    let whole = fs::read(&task).unwrap();
    fs::write(&task, &whole[..whole.len() - 28]).unwrap();
    let output = cluster(&dying, &line("4..9"), JOB);
    assert!(said(&output).contains("6..8.rec is no run record; it is made anew\n") && output.status.success(), "{}", said(&output));
    assert_eq!(fs::read(&task).unwrap(), whole);
    // the part before them, and all of it joined
    printed(&format!("record {JOB} --chunks 3..4 --output {name}/first.rec"));
    let joined = Command::new(program()).args(["join", "4..9.rec", "first.rec", "--output", "all.rec"]).current_dir(&folder).output();
    assert!(joined.unwrap().status.success());
    assert_eq!(fs::read(folder.join("all.rec")).unwrap(), long);
}

#[test]
fn gnu_parallel_takes_up_what_failed_by_its_log() {
    if Command::new("parallel").arg("--version").output().is_err() {
        eprintln!("not tried: parallel does not run here");
        return;
    }
    let folder = folder("cluster_parallel");
    let (dying, name, long) = (dying(&folder), folder.display(), long_run(&folder, "0..11"));
    fs::write(folder.join("hosts"), "2/:\n").unwrap();
    let line = format!("--by parallel --chunks 0..11 --task 2 --workers 3 --folder {name}/tasks --output {name}/whole.rec");
    let line = format!("{line} --hosts {name}/hosts --tries 1");
    let output = cluster(&dying, &line, JOB);
    assert!(output.status.code() == Some(1) && !folder.join("whole.rec").exists(), "{}", said(&output));
    assert!(said(&output).contains("1 of 6 tasks have no record: 4..6; the same line again takes them up\n"), "{}", said(&output));
    let before = fs::read_to_string(folder.join("asked")).unwrap().matches("record ").count();
    let output = cluster(&dying, &line, JOB);
    assert!(output.status.success(), "{}", said(&output));
    assert_eq!(fs::read_to_string(folder.join("asked")).unwrap().matches("record ").count(), before + 1);
    assert_eq!(fs::read(folder.join("whole.rec")).unwrap(), long);
}

#[test]
fn what_is_wrong_is_told() {
    let folder = folder("cluster_told");
    let line = format!("--chunks 0..2 --folder {0}/tasks --output {0}/whole.rec --workers 1", folder.display());
    assert!(cluster(&program(), &line, JOB).status.success());
    let refused = |line: &str, job: &str| {
        let output = cluster(&program(), line, job);
        assert_eq!(output.status.code(), Some(2), "{}", said(&output));
        said(&output)
    };
    assert!(refused(&line, &JOB.replace("--seed 9", "--seed 8")).contains("has the tasks of another job"));
    assert_eq!(
        refused(&line.replace("0..2", "2..2"), JOB),
        "cluster: --chunks 2..2: it has no chunk; the second number must be above the first\n"
    );
    assert_eq!(refused(&line.replace("0..2", "5"), JOB), "cluster: --chunks '5': write it as 0..400\n");
    assert_eq!(refused(&line, &format!("{JOB} --resume")), "cluster: --resume is not for the job: each task has its own\n");
    assert_eq!(refused(&format!("{line} --by hand"), JOB), "cluster: --by hand: use processes, parallel or slurm\n");
    assert_eq!(refused(&line, ""), "cluster: no job is given; -- goes before its options\n");
    // what the program refuses is told of each task, and nothing is joined
    let bad = format!("--chunks 0..2 --folder {0}/bad --output {0}/bad.rec --workers 1 --tries 1", folder.display());
    let output = cluster(&program(), &bad, &JOB.replace("0.25", "0.3"));
    assert!(
        said(&output)
            .contains("task 0..1 has failed; its log ends: sheet: beta 0.3 times magnitude 1 is 0.3, which is no multiple of 1/128"),
        "{}",
        said(&output)
    );
    assert_eq!(output.status.code(), Some(1));
    assert!(Command::new("bash")
        .arg(Path::new(env!("CARGO_MANIFEST_DIR")).join("cluster"))
        .arg("--help")
        .output()
        .unwrap()
        .status
        .success());
}
