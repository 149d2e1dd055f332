//! What a sheet's record tells of this build: the commit, and the digest of the archive that is linked in. The digest is taken here and not
//! at run time, when the file may be another one, or gone.

use std::path::{Path, PathBuf};
use std::process::Command;

#[path = "src/sha256.rs"]
mod sha256;

/// What git says in the package's folder, if it is there and says anything.
fn git(package: &Path, words: &[&str]) -> Option<String> {
    let output = Command::new("git").arg("-C").arg(package).args(words).output().ok()?;
    output.status.success().then(|| String::from_utf8_lossy(&output.stdout).trim().to_string())
}

/// The commit, and whether what the program is made of differs from it.
fn commit(package: &Path) -> String {
    let Some(commit) = git(package, &["rev-parse", "--short=12", "HEAD"]) else { return "unknown".to_string() };
    let changed = git(package, &["status", "--porcelain", "--", "../../crates", "../copperhook", "."]);
    match changed {
        Some(changes) if changes.is_empty() => commit,
        _ => commit + "+changes",
    }
}

fn main() {
    let package = PathBuf::from(std::env::var("CARGO_MANIFEST_DIR").unwrap());
    let folder = std::env::var("COPPERHOOK_LIB").map(PathBuf::from).unwrap_or(package.join("../../target/staticlib"));
    let archive = folder.join("libcopperhook.a");
    // where it is not there, the bindings' build says so
    let digest = std::fs::read(&archive).map_or("unknown".to_string(), |bytes| sha256::sha256(&bytes));
    println!("cargo:rustc-env=COPPERHOOK_ARCHIVE_SHA256={digest}");
    println!("cargo:rustc-env=COPPERHOOK_COMMIT={}", commit(&package));
    println!("cargo:rerun-if-env-changed=COPPERHOOK_LIB");
    println!("cargo:rerun-if-changed={}", archive.display());
    let heads = ["HEAD", "logs/HEAD"].map(|name| git(&package, &["rev-parse", "--path-format=absolute", "--git-path", name]));
    for head in heads.into_iter().flatten().filter(|head| Path::new(head).exists()) {
        println!("cargo:rerun-if-changed={head}");
    }
    for sources in ["../../crates", "../copperhook", "src", "reading", "tests", "run", "cluster", "build.rs", "Cargo.toml"] {
        println!("cargo:rerun-if-changed={sources}");
    }
}
