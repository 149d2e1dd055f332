//! What a run will take, said before it starts.

use crate::board::Board;
use crate::progress::tell;
use crate::source::Source;
use crate::trouble::Trouble;
use copperhook::{Job, Kind, Manner, Options, Sampling, Strip};
use std::time::Instant;

/// A run is long from so many seconds on, and large from so many bytes on.
const LONG: f64 = 2.0;
const LARGE: f64 = 1e9;

pub struct Cost {
    /// The least and the most seconds that the trials let expect.
    pub seconds: (f64, f64),
    pub bytes: f64,
}

impl Cost {
    pub fn of(board: &Board, source: &dyn Source) -> Cost {
        let calls = source.sweeps() * board.betas.len() as f64;
        let cores = std::thread::available_parallelism().map_or(1, usize::from).min(source.threads());
        // nothing need be measured for what is short at any rate
        let (least, most) = if calls * board.entries() < 2e7 { (0.0, 0.0) } else { seconds_of_a_call(board) };
        let seconds = (source.least_share() * calls * least / source.threads() as f64, calls * most / cores as f64);
        Cost { seconds, bytes: bytes(board.room(), source.threads()) }
    }

    pub fn middle(&self) -> f64 {
        (self.seconds.0 + self.seconds.1) / 2.0
    }

    pub fn is_long(&self) -> bool {
        self.seconds.1 >= LONG
    }

    /// One line on standard error where the run is long or large.
    pub fn say(&self) {
        if self.is_long() || self.bytes >= LARGE {
            tell(&format!("sheet: {}, with {} of work memory\n", range(self.seconds), size(self.bytes)));
        }
    }
}

/// So many trials are taken.
const TRIALS: usize = 4;

/// The sweeps of one configuration at one beta, the least and the most that trials of some milliseconds took.
pub fn seconds_of_a_call(board: &Board) -> (f64, f64) {
    seconds_of(&board.job(), board.kept, board.options, board.room(), board.entries())
}

/// The same of a job with so many kept edges and so much room, by samples of the job itself, or where one of them would take longer, or it is
/// refused, by the entries of its sweeps.
pub fn seconds_of(job: &Job, kept: usize, options: Options, room: usize, entries: f64) -> (f64, f64) {
    let trial = |samples: usize| -> Result<f64, copperhook::Refusal> {
        let factors = [1.5, 0.75].repeat(kept);
        let (mut squares, mut fourths) = (vec![0.0; job.us.len()], vec![0.0; job.us.len()]);
        let (by, mut work) = (Sampling { seed: 1, from: 0, to: 1, samples }, vec![0.0; room]);
        let start = Instant::now();
        job.sample(&[0.5], &factors, options, &by, &mut squares, &mut fourths, &mut work)?;
        Ok(start.elapsed().as_secs_f64() / samples as f64)
    };
    if entries < 1e7 {
        let enough = [1, 10, 100, 1000].into_iter().find(|&samples| trial(samples).is_ok_and(|s| s * samples as f64 > 0.005));
        let trials: Result<Vec<f64>, _> = (0..TRIALS).map(|_| trial(enough.unwrap_or(1000))).collect();
        if let Ok(trials) = trials {
            return extremes(&trials);
        }
    }
    let rates: Vec<f64> = (0..TRIALS).map(|_| entries / entries_in_a_second()).collect();
    extremes(&rates)
}

fn extremes(trials: &[f64]) -> (f64, f64) {
    trials.iter().fold((f64::INFINITY, 0.0), |(least, most), &x| (least.min(x), most.max(x)))
}

/// Of a trial of some milliseconds.
fn entries_in_a_second() -> f64 {
    let strip = Strip { kind: Kind::Square, width: 12, length: 8, periodic: false };
    let trial = || -> Result<f64, copperhook::Refusal> {
        let edges = strip.edge_list()?;
        let job = Job { graph: edges.graph(strip.n()?), us: &[0], vs: &[11] };
        let (factors, mut results, mut work) = (vec![1.5; edges.m.len()], [0.0], vec![0.0; job.room()?]);
        let start = Instant::now();
        for _ in 0..4 {
            job.correlations(&factors, Manner::Block, &mut results, &mut work)?;
        }
        let entries = 4.0 * (2.0 * 96.0 + 2.0) * 4096.0;
        Ok(entries / start.elapsed().as_secs_f64().max(1e-9))
    };
    trial().unwrap_or(5e8)
}

/// Work memory of so many threads, all +0.0. Where it does not fit this machine's memory the calls take less room, and a line on standard
/// error says so; a sentence where that does not fit either.
pub fn work_memory(board: &mut Board, threads: usize) -> Result<Vec<f64>, Trouble> {
    let most = size(bytes(board.room(), threads));
    let work = allocated(board.room(), threads).or_else(|lacking| {
        if !board.take_less_room() {
            return Err(lacking);
        }
        let (work, less) = (allocated(board.room(), threads)?, size(bytes(board.room(), threads)));
        tell(&format!("sheet: the work memory is {most}, {lacking}; with less room it is {less}, no number depends on it\n"));
        Ok(work)
    });
    work.map_err(|lacking| {
        let needed = size(bytes(board.room(), threads));
        let which = board.strip.map_or(board.title(), |strip| format!("--width {} --length {}", strip.width, strip.length));
        let less = if board.has_less_room() { " with less room" } else { "" };
        Trouble::Machine(format!("{which}: the work memory is {needed}{less}, {lacking}"))
    })
}

/// Memory for the correlations of all pairs and configurations at one beta; a sentence where it does not fit this machine's.
pub fn stored_memory(board: &Board) -> Result<Vec<f64>, Trouble> {
    let (pairs, all) = (board.pairs.len(), board.pairs.len() << board.free);
    allocated(all, 1).map_err(|lacking| {
        let (free, needed) = (board.free, size(bytes(all, 1)));
        Trouble::Machine(format!(
            "{pairs} pairs of 2^{free} configurations: their correlations are {needed}, {lacking}; ask for fewer pairs with --pairs"
        ))
    })
}

/// That so many bytes are free, as far as the system says it; how many, where they are not.
pub fn has_memory(bytes: f64) -> Result<(), String> {
    free_memory().filter(|&free| free < bytes).map_or(Ok(()), |free| Err(format!("and {} are free", size(free))))
}

pub fn bytes(room: usize, threads: usize) -> f64 {
    8.0 * room as f64 * threads as f64
}

/// So many rooms, all +0.0; why not, where they do not fit the memory.
fn allocated(room: usize, threads: usize) -> Result<Vec<f64>, String> {
    has_memory(bytes(room, threads))?;
    let (mut work, doubles) = (Vec::new(), room.saturating_mul(threads));
    work.try_reserve_exact(doubles).map_err(|_| "which cannot be had".to_string())?;
    work.resize(doubles, 0.0);
    Ok(work)
}

/// The work memory of so many threads as the calls are arranged, and that of calls that keep all, where that is more.
pub fn less_room(board: &Board, threads: usize) -> Option<[String; 2]> {
    (board.room() < board.most_room()).then(|| [board.room(), board.most_room()].map(|room| size(bytes(room, threads))))
}

/// What the system says, if it says it.
fn free_memory() -> Option<f64> {
    let text = std::fs::read_to_string("/proc/meminfo").ok()?;
    let line = text.lines().find(|l| l.starts_with("MemAvailable:"))?;
    let kilobytes: f64 = line.split_whitespace().nth(1)?.parse().ok()?;
    Some(1024.0 * kilobytes)
}

pub fn time(seconds: f64) -> String {
    match seconds {
        s if s < 1.5 => "a second".to_string(),
        s if s < 120.0 => format!("{s:.0} seconds"),
        s if s < 7200.0 => format!("{:.0} minutes", s / 60.0),
        s if s < 172800.0 => format!("{:.1} hours", s / 3600.0),
        s if s < 6.3e7 => format!("{:.0} days", s / 86400.0),
        s => format!("{:.0} years", s / 31557600.0),
    }
}

/// A time of any size, in two digits.
pub fn brief(seconds: f64) -> String {
    let digits = |x: f64, unit: &str| if x < 9.95 { format!("{x:.1} {unit}") } else { format!("{x:.0} {unit}") };
    match seconds {
        s if s < 1e-3 => digits(1e6 * s, "us"),
        s if s < 1.0 => digits(1e3 * s, "ms"),
        s if s < 120.0 => digits(s, "s"),
        s => time(s),
    }
}

/// From the least to the most, in one unit where they share one.
pub fn range((least, most): (f64, f64)) -> String {
    let (low, high) = (time(least), time(most));
    match (low.split_once(' '), high.split_once(' ')) {
        _ if most < 1.5 => "at most a second".to_string(),
        _ if least < 1.5 => format!("up to {high}"),
        _ if low == high => format!("about {low}"),
        (Some((number, unit)), Some((_, same))) if unit == same => format!("about {number} to {high}"),
        _ => format!("about {low} to {high}"),
    }
}

pub fn size(bytes: f64) -> String {
    match bytes {
        b if b < 1e6 => format!("{:.1} kB", b / 1e3),
        b if b < 1e9 => format!("{:.1} MB", b / 1e6),
        b => format!("{:.1} GB", b / 1e9),
    }
}

#[cfg(test)]
mod tests {
    use super::{brief, extremes, range, size, time};

    #[test]
    fn sizes_and_times_are_short() {
        assert_eq!([size(104.0), size(2.5e6), size(1.34e9)], ["0.1 kB", "2.5 MB", "1.3 GB"]);
        assert_eq!([0.2, 59.6, 600.0, 9000.0].map(time), ["a second", "60 seconds", "10 minutes", "2.5 hours"]);
        assert_eq!([2e5, 1e8].map(time), ["2 days", "3 years"]);
        assert_eq!([3.14e-6, 0.0423, 9.96, 119.0, 600.0].map(brief), ["3.1 us", "42 ms", "10 s", "119 s", "10 minutes"]);
        assert_eq!(
            [(180.0, 300.0), (60.0, 60.2), (90.0, 121.0)].map(range),
            ["about 3 to 5 minutes", "about 60 seconds", "about 90 seconds to 2 minutes"]
        );
        assert_eq!([(0.1, 3.0), (0.1, 0.2)].map(range), ["up to 3 seconds", "at most a second"]);
        assert_eq!(extremes(&[3.0, 1.0, 2.0]), (1.0, 3.0));
    }
}
