//! Links the archive: in the folder that COPPERHOOK_LIB names, else where `./archive` puts it.
use std::env;
use std::path::PathBuf;

fn main() {
    let package = PathBuf::from(env::var("CARGO_MANIFEST_DIR").unwrap());
    let folder = env::var("COPPERHOOK_LIB").map(PathBuf::from).unwrap_or(package.join("../../target/staticlib"));
    let folder = folder.canonicalize().unwrap_or(folder);
    let archive = folder.join("libcopperhook.a");
    println!("cargo:rerun-if-env-changed=COPPERHOOK_LIB");
    println!("cargo:rerun-if-changed={}", archive.display());
    if !archive.is_file() {
        eprintln!("error: {} is not there. In the repository's folder,", archive.display());
        eprintln!("    ./archive");
        eprintln!("proves the library and makes it; or set COPPERHOOK_LIB to the folder of another libcopperhook.a.");
        std::process::exit(1);
    }
    println!("cargo:rustc-env=COPPERHOOK_ARCHIVE={}", archive.display());
    println!("cargo:rustc-link-search=native={}", folder.display());
    println!("cargo:rustc-link-lib=static=copperhook");
}
