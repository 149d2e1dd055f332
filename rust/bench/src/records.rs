//! Samplings written as run records beside those that add their chunks up, whose bits are compared first; and records joined and added up, beside
//! a copy of their bytes.

use crate::clock::{least_times, stay_on_this_processor, Rounds};
use copperhook::{record_join, record_totals, Job, Kind, Manner, Refusal, Sampling, Strip};
use std::hint::black_box;

const ROUNDS: Rounds = Rounds { least: 5, round: 0.003, total: 0.8 };
const BETAS: [f64; 2] = [0.3, 0.7];

/// One strip with its standard pairs: the time of a sampling and of the same as a record, and the record.
fn times(strip: &Strip, by: &Sampling) -> Result<([f64; 2], Vec<u8>), Refusal> {
    let (edges, pairs) = (strip.edge_list()?, strip.labelled_pairs()?);
    let (us, vs): (Vec<usize>, Vec<usize>) = pairs.iter().map(|pair| (pair.u, pair.v)).unzip();
    let job = Job { graph: edges.graph(strip.n()?), us: &us, vs: &vs };
    let factors = job.graph.factors(&BETAS)?.all;
    let sums = BETAS.len() * us.len();
    let (mut squares, mut fourths) = (vec![0.0; sums], vec![0.0; sums]);
    let [mut work_of_sample, mut work_of_record] = [vec![0.0; job.room()?], vec![0.0; job.room()?]];
    job.sample(&BETAS, &factors, Manner::Block, by, &mut squares, &mut fourths, &mut work_of_sample)?;
    let record = job.sample_record(&BETAS, &factors, Manner::Block, by, &mut work_of_record)?;
    let totals = record_totals(&record)?;
    let bits = |list: &[f64]| list.iter().map(|x| x.to_bits()).collect::<Vec<_>>();
    assert_eq!((bits(&totals.squares), bits(&totals.fourths)), (bits(&squares), bits(&fourths)), "the totals of the record differ");
    let mut sample = || {
        let call = job.sample(&BETAS, black_box(&factors), Manner::Block, by, &mut squares, &mut fourths, &mut work_of_sample);
        call.expect("this strip is refused");
    };
    let mut written = || {
        let call = job.sample_record(&BETAS, black_box(&factors), Manner::Block, by, &mut work_of_record);
        black_box(call.expect("this strip is refused"));
    };
    let times = least_times(&ROUNDS, &mut [&mut sample, &mut written]);
    Ok(([times[0], times[1]], record))
}

fn print_sampling() -> Result<(), Refusal> {
    println!("Samplings of square strips with the standard pairs at two betas: their totals, and the same as a run record, whose buffer is made for it;");
    println!("the totals of the record are the same bits. The ratio is the record's time over the other's.");
    println!();
    println!("| width | length | chunks | samples of each | totals, ms | record, ms | ratio | bytes |");
    println!("|---|---|---|---|---|---|---|---|");
    for (width, length, to, samples) in [(2, 4, 64, 1), (4, 8, 64, 1), (4, 8, 16, 64), (6, 10, 16, 16), (8, 10, 8, 8), (12, 12, 2, 2)] {
        let strip = Strip { kind: Kind::Square, width, length, periodic: false };
        let ([sample, record], bytes) = times(&strip, &Sampling { seed: 1, from: 0, to, samples })?;
        let cells = format!("{:.3} | {:.3} | {:.3} | {}", 1e3 * sample, 1e3 * record, record / sample, bytes.len());
        println!("| {width} | {length} | {to} | {samples} | {cells} |");
    }
    Ok(())
}

fn print_reading() -> Result<(), Refusal> {
    println!();
    println!("Two records of as many chunks each, of one sample, joined, with every row of both checked; the totals of the joined one, checked too; and a copy");
    println!("of its bytes. Nanoseconds a row of the joined record, which is 28 bytes.");
    println!();
    println!("| chunks | bytes | joined, ns | totals, ns | copy, ns |");
    println!("|---|---|---|---|---|");
    let strip = Strip { kind: Kind::Square, width: 2, length: 4, periodic: false };
    for half in [1, 64, 4096] {
        let run = |from: u64, to: u64| times(&strip, &Sampling { seed: 1, from, to, samples: 1 }).map(|(_, record)| record);
        let (early, late) = (run(0, half)?, run(half, 2 * half)?);
        let whole = record_join(&late, &early)?;
        let mut join = || drop(black_box(record_join(black_box(&late), &early)));
        let mut totals = || drop(black_box(record_totals(black_box(&whole))));
        let mut copy = || drop(black_box(black_box(&whole).clone()));
        let times = least_times(&ROUNDS, &mut [&mut join, &mut totals, &mut copy]);
        let rows = (whole.len() - 32) as f64 / 28.0;
        let [join, totals, copy] = [0, 1, 2].map(|i| 1e9 * times[i] / rows);
        println!("| {} | {} | {join:.2} | {totals:.2} | {copy:.2} |", 2 * half, whole.len());
    }
    Ok(())
}

pub fn print_records() {
    stay_on_this_processor();
    print_sampling().and_then(|()| print_reading()).expect("these strips are refused");
}
