//! Compares the library with the original and document 01 on drawn jobs. `compare --help` lists the options.

use compare::{line, run, Until, GROUPS};
use std::io::Write;
use std::process::ExitCode;
use std::time::Duration;

const HELP: &str = "\
Every entry of the library on drawn jobs, good and bad: what it answers and leaves against the original, bit for bit, and against the rules of
refusal. A list that is lent has guard words around it. Exit status 1 where something differs.

usage: compare [options]
    --seconds S    as long, shared by the groups; 40 without --jobs
    --jobs N       so many jobs of each group instead
    --seed N       where the draws start; 1 by default
    --from N       the number of the first job; 0 by default
    --only NAME    one group: generators, graphs, strips, couplings, correlations, estimates, totals, columns, accuracies, house (the calls
                   for house factors), previews, shares, complete (estimates of complete enumerations), sheets (job sheets), records (run
                   records); or wide, which runs only where it is named: windows from 19 to 24, with up to 3 GB of memory
    --help         this text

examples:
    compare                                                     about 40 seconds
    compare --seconds 3600 --seed 7                             an hour of other jobs
    compare --only correlations --seed 7 --from 1234 --jobs 1   one job again
";

struct Options {
    seconds: f64,
    jobs: Option<u64>,
    seed: u64,
    from: u64,
    only: Option<usize>,
}

fn parse(words: &[String]) -> Result<Options, String> {
    let mut options = Options { seconds: 40.0, jobs: None, seed: 1, from: 0, only: None };
    let mut words = words.iter();
    while let Some(option) = words.next() {
        let value = words.next().ok_or(format!("{option}: a value is missing"))?;
        let number = || value.parse::<u64>().map_err(|e| format!("{option} {value}: {e}"));
        match option.as_str() {
            "--seconds" => {
                options.seconds = value.parse().map_err(|e| format!("{option} {value}: {e}"))?;
                if !(0.0..=1e9).contains(&options.seconds) {
                    return Err(format!("{option} {value}: not from 0 to 1e9"));
                }
            }
            "--jobs" => options.jobs = Some(number()?),
            "--seed" => options.seed = number()?,
            "--from" => options.from = number()?,
            "--only" => {
                let group = GROUPS.iter().position(|g| g.name == value);
                options.only = Some(group.ok_or(format!("--only {value}: there is no such group"))?);
            }
            _ => return Err(format!("{option}: there is no such option")),
        }
    }
    Ok(options)
}

/// A line of the report. A reader that has closed the pipe misses the rest, and the exit status still says how it went.
fn say(line: &str) {
    let _ = writeln!(std::io::stdout(), "{line}");
}

fn main() -> ExitCode {
    let words: Vec<String> = std::env::args().skip(1).collect();
    if words.iter().any(|w| w == "--help" || w == "-h") {
        say(HELP.trim_end());
        return ExitCode::SUCCESS;
    }
    let options = match parse(&words) {
        Ok(options) => options,
        Err(why) => {
            eprintln!("compare: {why}\ncompare --help tells the options");
            return ExitCode::from(2);
        }
    };
    let groups: Vec<usize> = match options.only {
        Some(group) => vec![group],
        None => (0..GROUPS.len()).filter(|&g| GROUPS[g].share > 0.0).collect(),
    };
    say(&format!("{} with seed {}, jobs from {}", copperhook::ARCHIVE, options.seed, options.from));
    let (mut jobs, mut mismatches) = (0, 0);
    for &group in &groups {
        let all: f64 = groups.iter().map(|&g| GROUPS[g].share).sum();
        let share = if groups.len() == 1 { 1.0 } else { GROUPS[group].share / all };
        let until = options.jobs.map_or(Until::Time(Duration::from_secs_f64(options.seconds * share)), Until::Jobs);
        let tally = run(group, options.seed, options.from, until, &mut |mismatch| say(&format!("MISMATCH {mismatch}")));
        say(&line(GROUPS[group].name, &tally));
        jobs += tally.jobs;
        mismatches += tally.mismatches;
    }
    say(&format!("seed {}: {jobs} jobs, {mismatches} mismatches", options.seed));
    ExitCode::from(u8::from(mismatches != 0))
}
