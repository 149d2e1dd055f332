//! How far a call is from what the machine can do: the steps of its sweeps beside a copy of as much memory, and its sums, whose order is
//! fixed, beside a chain of additions that wait for each other.
use crate::clock::{least_times, Rounds};
use crate::correlations::{measure, Job};
use crate::manner::BLOCK;
use crate::strips::strip_of_entries;
use crate::times::Times;
use copperhook::limits;
use oracle::lattice::{Kind, Strip};
use std::hint::black_box;

const ROUNDS: Rounds = Rounds { least: 5, round: 0.003, total: 0.8 };
/// About how many entries a sweep steps over.
const ENTRIES: usize = 20_000_000;

pub fn print_limits() {
    print_steps();
    print_sums();
}

/// The strip of this window with a direct pair at its end. Four columns at least, so that the pair and what comes before the sweeps are little.
fn long_strip(window: usize) -> Strip {
    strip_of_entries(Kind::Square, window, false, ENTRIES, 4).expect("this window is not measured")
}

/// The original steps whole vectors of 2^window doubles, ours halves of them.
fn print_steps() {
    println!("Steps, block: a call with one direct pair at the end of a free square strip, divided by its steps, forward and backward; and a copy of");
    println!(
        "as many doubles as a step reads and writes, 2^window of the original's and half of these of ours. Ours takes two steps in one"
    );
    println!("pass where it can, so a step may take less than a copy. The ratios are a step's time over its copy's, and our step's over the original's.");
    println!();
    print!("| window | columns | bytes, original | copy, us | step, us | ratio | bytes, ours | copy, us | step, us | ratio |");
    println!(" ours / original |");
    println!("|---|---|---|---|---|---|---|---|---|---|---|");
    for window in 8..=22 {
        let strip = long_strip(window);
        let (n, l) = (strip.n(), strip.l);
        let times = measure(&Job::with_pairs(strip, vec![(n - 2, n - 1)]), BLOCK, &ROUNDS);
        print!("| {window} | {l} |");
        for (doubles, time) in [(1 << window, times.original), (1 << (window - 1), times.ours)] {
            let (copy, step) = (copy_time(doubles), time / (2 * n) as f64);
            print!(" {} | {:.3} | {:.3} | {:.2} |", 16 * doubles, 1e6 * copy, 1e6 * step, step / copy);
        }
        println!(" {:.3} |", times.ours / times.original);
    }
}

/// The time to copy so many doubles. There and back, as the vectors of a sweep move between two places. Both lists start at a cache line: from
/// other places a copy may take ten times as long.
fn copy_time(doubles: usize) -> f64 {
    let mut room = vec![1.0f64; 2 * doubles + 8];
    let line = room.as_ptr().align_offset(64);
    let (a, b) = room[line..][..2 * doubles].split_at_mut(doubles);
    let mut there_and_back = || {
        b.copy_from_slice(black_box(&*a));
        a.copy_from_slice(black_box(&*b));
    };
    least_times(&Rounds { least: 9, round: 0.003, total: 0.2 }, &mut [&mut there_and_back])[0] / 2.0
}

/// The original sums Z once for a vertex and N for each pair, one after the other; ours sums Z and N of two pairs side by side, so that four
/// terms wait for one addition.
fn print_sums() {
    let pairs = limits::PAIRS;
    println!();
    println!("Sums, block: a call with {pairs} direct pairs at the last vertex of a free square strip less the same with one, divided by the further");
    println!("pairs and by 2^window; and an addition that waits for the one before. The ratios are a term's time over the addition's, our term's over");
    println!("the original's, and ours over the original's of the whole call with all pairs.");
    println!();
    println!("| window | addition, ns | original, ns per term | ratio | ours, ns per term | ratio | ours / original | call |");
    println!("|---|---|---|---|---|---|---|---|");
    for window in (8..=20).step_by(2) {
        let addition = addition_time();
        let (many, one) = (with_pairs_at_the_end(window, pairs), with_pairs_at_the_end(window, 1));
        let terms = ((pairs - 1) << window) as f64;
        let [theirs, ours] = [many.original - one.original, many.ours - one.ours].map(|time| time / terms);
        print!("| {window} | {:.3} | {:.3} | {:.2} |", 1e9 * addition, 1e9 * theirs, theirs / addition);
        println!(" {:.3} | {:.2} | {:.3} | {:.3} |", 1e9 * ours, ours / addition, ours / theirs, many.ours / many.original);
    }
}

/// Pairs of the last vertex of four columns with those nearer than the window, which come again where they are fewer.
fn with_pairs_at_the_end(window: usize, pairs: usize) -> Times {
    let strip = Strip { kind: Kind::Square, w: window, l: 4, periodic: false };
    let last = strip.n() - 1;
    let pairs = (0..pairs).map(|i| (last - 1 - i % (window - 1), last)).collect();
    measure(&Job::with_pairs(strip, pairs), BLOCK, &ROUNDS)
}

/// The time of an addition that waits for the one before: the adder's latency. Sums of doubles may not be put in another order.
fn addition_time() -> f64 {
    const TERMS: usize = 1 << 16;
    let mut chain = || {
        let (mut sum, term) = (black_box(0.0f64), black_box(1.0f64));
        for _ in 0..TERMS {
            sum += term;
        }
        black_box(sum);
    };
    least_times(&Rounds { least: 9, round: 0.003, total: 0.1 }, &mut [&mut chain])[0] / TERMS as f64
}
