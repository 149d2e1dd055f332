//! Reads the options and does nothing else. `run` builds it by itself, before the library that the sheet needs is proved.
//! Exit status: 0 for a job, 3 where help was told, 4 where the version is asked for, 2 for a bad option.

#[path = "../src/help.rs"]
mod help;
#[path = "../src/options.rs"]
mod options;
#[path = "../src/trouble.rs"]
mod trouble;
#[path = "../src/values.rs"]
mod values;

use options::Asked;
use std::io::Write;
use std::process::ExitCode;

fn main() -> ExitCode {
    let words: Vec<String> = std::env::args_os().skip(1).map(|w| w.to_string_lossy().into_owned()).collect();
    ExitCode::from(match options::parse(&words) {
        Ok(Asked::Help) => {
            let _ = std::io::stdout().write_all(help::HELP.as_bytes());
            3
        }
        Ok(Asked::Version) => 4,
        Ok(_) => 0,
        Err(trouble) => {
            let _ = writeln!(std::io::stderr(), "sheet: {trouble}");
            trouble.status()
        }
    })
}
