//! Shares of stored correlations beside a plain sum of the same list, and beside a sum in eight lanes, which the memory alone holds back.

use crate::clock::{least_times, stay_on_this_processor, Rounds};
use copperhook::shares;
use oracle::rng::Rng;
use std::hint::black_box;

const ROUNDS: Rounds = Rounds { least: 5, round: 0.003, total: 0.8 };

fn sum_in_lanes(list: &[f64]) -> f64 {
    let mut lanes = [0.0; 8];
    for eight in list.chunks_exact(8) {
        lanes.iter_mut().zip(eight).for_each(|(lane, x)| *lane += x);
    }
    lanes.iter().sum()
}

pub fn print_shares() {
    stay_on_this_processor();
    println!("Shares of one list of drawn entries from -1 to 1: the check of every entry and all counts in one pass, then four fractions; a sum of the");
    println!(
        "same list, each addition behind the one before; and a sum in eight lanes. Nanoseconds an entry; ratios are ours over each sum's."
    );
    println!();
    println!("| entries | ours, ns | GB/s | sum, ns | ratio | sum in lanes, ns | ratio |");
    println!("|---|---|---|---|---|---|---|");
    for bits in [6, 10, 14, 18, 20, 22, 24] {
        let (entries, mut rng) = (1usize << bits, Rng::new(12));
        let list: Vec<f64> = (0..entries).map(|_| 2.0 * rng.uniform() - 1.0).collect();
        let mut ours = || {
            black_box(shares(black_box(&list), &[entries]).expect("these lists are refused"));
        };
        let mut sum = || {
            black_box(black_box(&list).iter().sum::<f64>());
        };
        let mut lanes = || {
            black_box(sum_in_lanes(black_box(&list)));
        };
        let times = least_times(&ROUNDS, &mut [&mut ours, &mut sum, &mut lanes]);
        let [ours, sum, lanes] = [0, 1, 2].map(|i| 1e9 * times[i] / entries as f64);
        println!("| 2^{bits} | {ours:.3} | {:.1} | {sum:.3} | {:.2} | {lanes:.3} | {:.2} |", 8.0 / ours, ours / sum, ours / lanes);
    }
}
