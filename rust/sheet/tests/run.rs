//! The script `run`, in a folder of its own with a prover and a builder that only say that they were called.

mod common;
use common::folder;
use std::fs;
use std::ops::Deref;
use std::os::unix::fs::{symlink, PermissionsExt};
use std::path::{Path, PathBuf};
use std::process::{Command, Output, Stdio};
use std::time::Duration;

const TOOLS: [&str; 30] = [
    "bash",
    "env",
    "dirname",
    "find",
    "sort",
    "tr",
    "xargs",
    "sha256sum",
    "sed",
    "awk",
    "grep",
    "sleep",
    "cat",
    "mkdir",
    "mv",
    "head",
    "git",
    "cc",
    "gcc",
    "ld",
    "as",
    "echo",
    "rm",
    "touch",
    "uname",
    "mawk",
    "gawk",
    "ld.lld",
    "true",
    "chmod",
];

const PROVER: &str = "#!/usr/bin/env bash
echo \"$*\" >>calls
[ ! -e fails ] || { echo 'rt: one is not proved'; exit 1; }
echo 'rt: one proved (1 s)'
";

const ARCHIVE: &str = "#!/usr/bin/env bash
set -e
rt lib export_jobs
mkdir -p target/staticlib && touch target/staticlib/libcopperhook.a
";

const BUILDER: &str = "#!/usr/bin/env bash
mkdir -p \"$ROOT/rust/target/release\"
printf '#!/usr/bin/env bash\\necho \"made $*\"\\n' >\"$ROOT/rust/target/release/sheet\"
chmod 755 \"$ROOT/rust/target/release/sheet\"
";

/// Where the first of the PATH's folders has it.
fn which(tool: &str) -> Option<PathBuf> {
    std::env::split_paths(&std::env::var_os("PATH")?).map(|folder| folder.join(tool)).find(|path| path.is_file())
}

fn script(path: &Path, text: &str) {
    fs::write(path, text).unwrap();
    fs::set_permissions(path, fs::Permissions::from_mode(0o755)).unwrap();
}

/// A folder that goes with the test: the gate reads every crates.txt below the repository's top, and would stop at this one.
struct Repository(PathBuf);

impl Deref for Repository {
    type Target = Path;

    fn deref(&self) -> &Path {
        &self.0
    }
}

impl Drop for Repository {
    fn drop(&mut self) {
        let _ = fs::remove_dir_all(&self.0);
    }
}

/// A repository with one crate, and a folder with all tools that the script may find.
fn repository(name: &str) -> Repository {
    let (root, package) = (folder(name), PathBuf::from(env!("CARGO_MANIFEST_DIR")));
    for made in ["rust/sheet", "bin", "crates/one/src"] {
        fs::create_dir_all(root.join(made)).unwrap();
    }
    for part in ["run", "src", "reading"] {
        symlink(package.join(part), root.join("rust/sheet").join(part)).unwrap();
    }
    fs::remove_file(root.join("rust/sheet/run")).unwrap();
    fs::copy(package.join("run"), root.join("rust/sheet/run")).unwrap();
    fs::copy(package.join("../Cargo.toml"), root.join("rust/Cargo.toml")).unwrap();
    fs::write(root.join("crates.txt"), "# a comment\none:\nother: one\nexport_jobs: one kit\n").unwrap();
    fs::write(root.join("crates/one/src/one.rt"), "1").unwrap();
    for tool in TOOLS {
        if let Some(path) = which(tool) {
            symlink(path, root.join("bin").join(tool)).unwrap();
        }
    }
    let rustc = Path::new(env!("CARGO")).with_file_name("rustc");
    symlink(if rustc.is_file() { rustc } else { which("rustc").unwrap() }, root.join("bin/rustc")).unwrap();
    script(&root.join("bin/rt"), PROVER);
    script(&root.join("archive"), ARCHIVE);
    script(&root.join("bin/cargo"), BUILDER);
    Repository(root)
}

fn command(root: &Path, line: &str) -> Command {
    let mut command = Command::new("bash");
    command.arg(root.join("rust/sheet/run")).args(line.split_whitespace());
    command.env("PATH", root.join("bin")).env("CARGO_HOME", root.join("none")).env("ROOT", root).env_remove("COPPERHOOK_LIB");
    command
}

fn run(root: &Path, line: &str) -> (Option<i32>, String, String) {
    let Output { status, stdout, stderr } = command(root, line).output().unwrap();
    (status.code(), String::from_utf8(stdout).unwrap(), String::from_utf8(stderr).unwrap())
}

fn calls(root: &Path) -> usize {
    fs::read_to_string(root.join("calls")).map_or(0, |text| text.lines().filter(|line| *line == "lib export_jobs").count())
}

const JOB: &str = "--kind square --width 2 --length 2 --beta 1";

#[test]
fn options_are_read_before_anything_is_proved() {
    let root = repository("run-options");
    let (status, help, _) = run(&root, "--help");
    assert!(status == Some(0) && help.contains("usage: sheet [make] --kind K"), "{help}");
    let (status, version, _) = run(&root, "--version");
    assert!(status == Some(0) && version.contains("archive not built from these sources yet"), "{version}");
    assert!(version.starts_with(&format!("copperhook {}\n", env!("CARGO_PKG_VERSION"))), "{version}");
    let typo = run(&root, &format!("{JOB} --colour red"));
    assert_eq!((typo.0, typo.2.as_str()), (Some(2), "sheet: there is no option --colour; sheet --help tells them\n"));
    assert_eq!(calls(&root), 0);
}

#[test]
fn it_is_proved_once_and_again_where_sources_are_others() {
    let root = repository("run-proves");
    let (status, made, told) = run(&root, JOB);
    assert_eq!((status, made), (Some(0), format!("made {JOB}\n")), "{told}");
    assert!(told.starts_with("sheet: the library is proved and built once, 2 crates, about "), "{told}");
    assert_eq!(run(&root, JOB).2, "");
    assert_eq!(calls(&root), 1);
    // the same length and another digit; a must-fail edit is no source
    fs::write(root.join("crates/one/src/one.rt"), "2").unwrap();
    run(&root, JOB);
    fs::create_dir_all(root.join("crates/one/must-fail")).unwrap();
    fs::write(root.join("crates/one/must-fail/a.edit"), "1").unwrap();
    run(&root, JOB);
    assert_eq!(calls(&root), 2);
    fs::remove_file(root.join("target/staticlib/libcopperhook.a")).unwrap();
    run(&root, JOB);
    assert_eq!(calls(&root), 3);
}

#[test]
fn what_fails_or_is_missing_gets_a_sentence() {
    let root = repository("run-fails");
    fs::write(root.join("fails"), "").unwrap();
    let (status, made, told) = run(&root, JOB);
    let log = root.join("target/sheet-proofs.log");
    assert!(status == Some(1) && made.is_empty(), "{told}");
    assert!(told.ends_with(&format!("could not be proved and built; what the prover told is in {}\n", log.display())), "{told}");
    assert_eq!(fs::read_to_string(log).unwrap(), "rt: one is not proved\n");
    for (tool, start) in [("rt", "sheet: rt is not on the PATH; "), ("cargo", "sheet: cargo is not on the PATH; ")] {
        fs::remove_file(root.join("bin").join(tool)).unwrap();
        let (status, _, told) = run(&root, JOB);
        assert!(status == Some(1) && told.starts_with(start) && told.lines().count() == 1, "{told}");
    }
}

/// The prover and what it started end with it, and nothing is taken for proved.
#[test]
fn a_run_that_is_broken_off_ends_its_prover() {
    let root = repository("run-broken");
    script(&root.join("bin/rt"), "#!/usr/bin/env bash\nsleep 600 &\necho $! >started.new\nmv started.new started\nwait\n");
    let mut child = command(&root, JOB).stderr(Stdio::null()).spawn().unwrap();
    let started = (0..300).find_map(|_| {
        std::thread::sleep(Duration::from_millis(100));
        fs::read_to_string(root.join("started")).ok()
    });
    let sleeper = PathBuf::from("/proc").join(started.unwrap().trim());
    assert!(sleeper.exists());
    assert!(Command::new("kill").args(["-TERM", &child.id().to_string()]).status().unwrap().success());
    assert_eq!(child.wait().unwrap().code(), Some(130));
    let running = || fs::read_to_string(sleeper.join("stat")).is_ok_and(|stat| !stat.contains(") Z "));
    assert!((0..50).any(|_| {
        std::thread::sleep(Duration::from_millis(100));
        !running()
    }));
    assert!(!root.join("target/staticlib/libcopperhook.a.sources").exists());
}
