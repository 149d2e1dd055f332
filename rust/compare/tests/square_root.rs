//! The proved square root beside the machine's, bit for bit, on millions of patterns. The seed of the random ones is from the clock and is
//! printed; `COPPERHOOK_SEED=N` takes another. Where the machine's root is a NaN ours is to be one: a NaN's sign and payload are nobody's.
use oracle::rng::Rng;
use std::time::{Instant, SystemTime, UNIX_EPOCH};

const SIGN: u64 = 1 << 63;
const HIDDEN: u64 = 1 << 52;
const INFINITY: u64 = 2047 << 52;

#[derive(Default)]
struct Sheet {
    patterns: usize,
    wrong: Vec<u64>,
}

impl Sheet {
    fn compare(&mut self, bits: u64) {
        let x = f64::from_bits(bits);
        let (theirs, ours) = (x.sqrt(), copperhook::sqrt(x));
        let same = if theirs.is_nan() { ours.is_nan() } else { theirs.to_bits() == ours.to_bits() };
        self.patterns += 1;
        if !same {
            self.wrong.push(bits);
        }
    }

    /// A pattern and those next to it, of either sign. Past the last there is none.
    fn compare_around(&mut self, bits: u64) {
        for next in [bits.saturating_sub(1), bits, (bits + 1).min(SIGN - 1)] {
            self.compare(next);
            self.compare(next | SIGN);
        }
    }
}

/// Zeros, the ends of the subnormals and of the finite numbers, infinities, NaNs that are quiet, signal, or have the most payload.
fn specials(sheet: &mut Sheet) {
    for bits in [0, 1, HIDDEN - 1, HIDDEN, INFINITY - 1, INFINITY, INFINITY + 1, INFINITY | (HIDDEN / 2), SIGN - 1] {
        sheet.compare_around(bits);
    }
}

fn powers_of_two(sheet: &mut Sheet) {
    for place in 0..52 {
        sheet.compare_around(1 << place);
    }
    for exponent in 1..2048 {
        sheet.compare_around(exponent << 52);
    }
}

/// The double next below or at n * 2^power, for an n that is not 0. Only normal ones are asked for.
fn double_of(n: u128, power: i64) -> u64 {
    let length = 128 - n.leading_zeros() as i64;
    let digits = if length > 53 { n >> (length - 53) } else { n << (53 - length) } as u64;
    (((length - 1 + power + 1023) as u64) << 52) | (digits - HIDDEN)
}

/// Squares of whole numbers, of which those below 2^53 are exact, and of numbers half way between two doubles.
fn squares(sheet: &mut Sheet, rng: &mut Rng, count: usize) {
    for _ in 0..count {
        let power = 2 * ((rng.next_u64() % 900) as i64 - 450);
        let short = (rng.next_u64() >> 38 | 1) as u128;
        let long = (rng.next_u64() >> 11 | HIDDEN) as u128;
        let middle = 2 * long + 1;
        for root in [short, long, middle] {
            let bits = double_of(root * root, power);
            for near in [bits - 1, bits, bits + 1] {
                sheet.compare(near);
            }
        }
    }
}

fn random(sheet: &mut Sheet, rng: &mut Rng, count: usize) {
    for _ in 0..count {
        sheet.compare(rng.next_u64());
        sheet.compare(rng.next_u64() % INFINITY);
        sheet.compare(rng.next_u64() % HIDDEN);
    }
}

fn main() {
    let clock = || SystemTime::now().duration_since(UNIX_EPOCH).unwrap().as_nanos() as u64;
    let seed = std::env::var("COPPERHOOK_SEED").map_or_else(|_| clock(), |s| s.parse().expect("COPPERHOOK_SEED is to be a number"));
    println!("square roots: seed {seed}");
    let start = Instant::now();
    let mut rng = Rng::new(seed);
    let mut sheet = Sheet::default();
    specials(&mut sheet);
    powers_of_two(&mut sheet);
    squares(&mut sheet, &mut rng, 500_000);
    random(&mut sheet, &mut rng, 1_500_000);
    println!("square roots: {} patterns in {:.1} s, {} wrong", sheet.patterns, start.elapsed().as_secs_f64(), sheet.wrong.len());
    for bits in sheet.wrong.iter().take(10) {
        let x = f64::from_bits(*bits);
        println!("{bits:#018x} = {x:e}: the machine's root is {:#018x}, ours {:#018x}", x.sqrt().to_bits(), copperhook::sqrt(x).to_bits());
    }
    assert!(sheet.wrong.is_empty(), "the proved square root differs from the machine's, with seed {seed}");
    assert!(sheet.patterns >= 4_000_000);
}
