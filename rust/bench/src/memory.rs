//! The widest window with forty near pairs: the memory that a call with less room asks for, and what is resident, beside the room of one that
//! keeps all.

use crate::clock::{least_times, Rounds};
use crate::correlations::Job;
use crate::manner::BLOCK;
use copperhook::{limits, Arrangement, Options};
use oracle::lattice::{Kind, Strip};

/// Each has a later vertex of its own, so that no two share a vector.
const PAIRS: usize = 40;
/// So many pairs at a time are asked for again in a call that keeps all, whose room is then less than that of all pairs with less room.
const AT_A_TIME: usize = 10;

fn strip() -> Strip {
    Strip { kind: Kind::Square, w: limits::WINDOW, l: 2, periodic: false }
}

/// The pairs of neighbours whose earlier vertices are these.
fn near_pairs(earlier: std::ops::Range<usize>) -> Job {
    Job::with_pairs(strip(), earlier.map(|u| (u, u + 1)).collect())
}

fn room(job: &Job, arrangement: Arrangement) -> usize {
    job.lists.room_in(arrangement).expect("the room of this strip is refused")
}

/// What the system says of this program's memory, in bytes: what is resident, or the most that ever was.
fn told(key: &str) -> f64 {
    let text = std::fs::read_to_string("/proc/self/status").expect("the system tells of this program");
    let line = text.lines().find(|line| line.starts_with(key)).expect("the system tells the memory");
    1024.0 * line.split_whitespace().nth(1).and_then(|kilobytes| kilobytes.parse::<f64>().ok()).expect("the memory is a number")
}

/// The results of one call, its seconds, and the bytes that are resident after it.
fn called(job: &Job, arrangement: Arrangement) -> (Vec<f64>, f64, f64) {
    let (mut results, mut work) = (vec![0.0; job.pairs.len()], vec![0.0; room(job, arrangement)]);
    let options = Options::from(BLOCK.ours).arranged(arrangement);
    let mut call = || job.lists.correlations(&job.factors, options, &mut results, &mut work).expect("this strip is refused");
    let seconds = least_times(&Rounds { least: 1, round: 0.0, total: 0.0 }, &mut [&mut call])[0];
    (results, seconds, told("VmRSS:"))
}

pub fn print_memory() {
    let job = near_pairs(0..PAIRS);
    let (n, window) = (job.strip.n(), job.graph.win);
    let [all, less] = [Arrangement::KeepAll, Arrangement::LessRoom].map(|arrangement| room(&job, arrangement));
    let gigabytes = |bytes: f64| format!("{:.3} GB", 1e-9 * bytes);
    let of_room = |room: usize| format!("{room} doubles, {}", gigabytes(8.0 * room as f64));
    println!("Window {window}, {n} vertices, {PAIRS} direct pairs with a later vertex each, block:");
    println!("room of a call that keeps all: {}", of_room(all));
    println!("room with less room: {}, {:.3} of it", of_room(less), less as f64 / all as f64);
    let before = told("VmRSS:");
    let (results, seconds, resident) = called(&job, Arrangement::LessRoom);
    println!(
        "resident before the call {}, after it {}, at most {}; {seconds:.1} s",
        gigabytes(before),
        gigabytes(resident),
        gigabytes(told("VmHWM:"))
    );
    for from in (0..PAIRS).step_by(AT_A_TIME) {
        let (again, _, _) = called(&near_pairs(from..from + AT_A_TIME), Arrangement::KeepAll);
        for (i, (x, y)) in results[from..].iter().zip(&again).enumerate() {
            assert_eq!(x.to_bits(), y.to_bits(), "pair {} differs: with less room {x}, all kept {y}", from + i);
        }
    }
    println!("the same bits, {AT_A_TIME} pairs at a time, from calls that keep all");
}
