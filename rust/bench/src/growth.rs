//! How the time of a configuration grows with the window, the vertices, the pairs and the betas.
//!
//! Each time also stands divided by what it should be proportional to: where it is, that column stays the same.
use crate::clock::{stay_on_this_processor, Rounds};
use crate::correlations::{measure, Job};
use crate::manner::{Manner, MANNERS};
use crate::times::Times;
use crate::totals;
use copperhook::{limits, Sampling};
use oracle::lattice::{Kind, Strip};
use oracle::rng::Rng;

const ROUNDS: Rounds = Rounds { least: 5, round: 0.003, total: 0.5 };

pub fn print_growth() {
    stay_on_this_processor();
    println!("How the time of a configuration grows, on free square strips. Ours checks the job and plans in each call, the original has its plan.");
    for manner in MANNERS {
        print_windows(manner);
        print_vertices(manner);
        print_pairs(manner, false);
        print_pairs(manner, true);
        print_betas(manner);
    }
}

fn square(w: usize, l: usize) -> Strip {
    Strip { kind: Kind::Square, w, l, periodic: false }
}

/// The first two vertices, which is a direct pair, and the first and the last, which is propagated all the way. Standard pairs would be more
/// at some widths than at others.
fn two_pairs(strip: &Strip) -> Vec<(usize, usize)> {
    vec![(0, 1), (0, strip.n() - 1)]
}

fn print_windows(manner: Manner) {
    print_head(&format!("Strips of 4 columns, two pairs, {}", manner.name), &["window", "vertices"], &["entry"]);
    for w in 2..=20 {
        let strip = square(w, 4);
        let (n, pairs) = (strip.n(), two_pairs(&strip));
        let times = measure(&Job::with_pairs(strip, pairs), manner, &ROUNDS);
        print_row(&[w, n], &times, &[per(&times, n << w)]);
    }
}

fn print_vertices(manner: Manner) {
    print_head(&format!("Strips of width 6, two pairs, {}", manner.name), &["columns", "vertices"], &["vertex"]);
    for l in [4, 8, 16, 32, 64, 128, 170] {
        let strip = square(6, l);
        let (n, pairs) = (strip.n(), two_pairs(&strip));
        let times = measure(&Job::with_pairs(strip, pairs), manner, &ROUNDS);
        print_row(&[l, n], &times, &[per(&times, n)]);
    }
}

/// Beside one pair the sweeps are most of the time, so what each further pair takes has columns too.
fn print_pairs(manner: Manner, far: bool) {
    let kind = if far { "propagated" } else { "direct" };
    let strip = square(10, 30);
    let title = format!("A strip of {} x {}, {kind} pairs, {}", strip.w, strip.l, manner.name);
    print_head(&title, &["pairs"], &["pair", "further pair"]);
    let mut one = None;
    for count in doubling(limits::PAIRS) {
        let times = measure(&Job::with_pairs(strip.clone(), drawn_pairs(&strip, count, far)), manner, &ROUNDS);
        let first = *one.get_or_insert([times.original, times.ours]);
        let further = [times.original - first[0], times.ours - first[1]].map(|time| time / (count - 1) as f64);
        print_row(&[count], &times, &[per(&times, count), further]);
    }
}

/// So many pairs from one seed: the same ones to begin with, however many. No two start at one vertex, so that each has a propagated vector of
/// its own.
fn drawn_pairs(strip: &Strip, count: usize, far: bool) -> Vec<(usize, usize)> {
    let (n, w) = (strip.n(), strip.w);
    let mut rng = Rng::new(7);
    let mut below = |limit: usize| (rng.next_u64() % limit as u64) as usize;
    let mut firsts: Vec<usize> = (0..n - w).collect();
    let mut pair = || {
        let u = firsts.swap_remove(below(firsts.len()));
        (u, if far { u + w + below(n - w - u) } else { u + 1 + below(w - 1) })
    };
    (0..count).map(|_| pair()).collect()
}

/// Of one chunk, and the time of one of its samples. The strip is long, so that the thread that the original starts does not count.
fn print_betas(manner: Manner) {
    const SAMPLES: usize = 4;
    let strip = square(8, 64);
    let title = format!("A sample of a strip of {} x {}, standard pairs, {}", strip.w, strip.l, manner.name);
    print_head(&title, &["betas"], &["beta"]);
    for count in doubling(limits::BETAS) {
        let betas = (0..count).map(|i| 0.1 + 0.02 * i as f64).collect();
        let by = Sampling { seed: 7, from: 0, to: 1, samples: SAMPLES };
        let mut times = totals::measure(&totals::Job::sampling(strip.clone(), betas, by), manner);
        times.original /= SAMPLES as f64;
        times.ours /= SAMPLES as f64;
        print_row(&[count], &times, &[per(&times, count)]);
    }
}

/// 1, 2, 4 and so on, up to `most`.
fn doubling(most: usize) -> impl Iterator<Item = usize> {
    std::iter::successors(Some(1), |k| Some(2 * k)).take_while(move |k| *k <= most)
}

/// The original's and our time for each of so many.
fn per(times: &Times, count: usize) -> [f64; 2] {
    [times.original, times.ours].map(|time| time / count as f64)
}

fn print_head(title: &str, sizes: &[&str], units: &[&str]) {
    println!("\n{title}:\n");
    sizes.iter().for_each(|size| print!("| {size} "));
    print!("| original, ms | ours, ms | ratio |");
    units.iter().for_each(|unit| print!(" original, ns per {unit} | ours, ns per {unit} |"));
    println!("\n{}|", "|---".repeat(sizes.len() + 3 + 2 * units.len()));
}

fn print_row(sizes: &[usize], times: &Times, shares: &[[f64; 2]]) {
    sizes.iter().for_each(|size| print!("| {size} "));
    print!("| {:.4} | {:.4} | {:.3} |", 1e3 * times.original, 1e3 * times.ours, times.ours / times.original);
    shares.iter().flatten().for_each(|share| print!(" {} |", three_figures(1e9 * share)));
    println!();
}

/// With three figures or more; nothing where there is no number, as of no further pair.
fn three_figures(x: f64) -> String {
    if x.is_nan() {
        return String::new();
    }
    let decimals = (2.0 - x.abs().log10().floor()).clamp(0.0, 6.0) as usize;
    format!("{x:.decimals$}")
}
