//! Calls by house factors beside those that are lent the same factors: the same jobs, whose bits are compared first.

use crate::beside::{times_beside, Call, Row, Table};
use crate::clock::Rounds;
use crate::manner::{Manner, MANNERS};
use crate::strips::{cells, strip_of_entries, KINDS};
use crate::{correlations, totals};
use copperhook::house;
use std::hint::black_box;

/// Betas that make couplings of the grid, near those of the other tables.
const BETAS: [f64; 2] = [0.296875, 0.703125];

fn row(rounds: &Rounds, results: usize, calls: [Call; 2]) -> Row {
    Row { cells: String::new(), times: times_beside(rounds, results, calls) }
}

/// The couplings of the other tables, each the nearest of the grid.
fn of_correlations(job: &correlations::Job, manner: Manner) -> Row {
    let couplings: Vec<f64> = job.couplings.iter().map(|&x| house::nearest(x)).collect();
    let factors: Vec<f64> = couplings.iter().map(|&x| house::factor(x).expect("it is on the grid")).collect();
    let [mut work_of_lent, mut work_of_house] = [(); 2].map(|()| vec![0.0; job.room()]);
    let mut lent = |results: &mut [f64]| {
        let call = job.lists.correlations(black_box(&factors), manner.ours, results, &mut work_of_lent);
        call.expect("this strip is refused");
    };
    let mut by_house = |results: &mut [f64]| {
        let call = job.lists.job().house_correlations(black_box(&couplings), manner.ours, results, &mut work_of_house);
        call.expect("this strip is refused");
    };
    row(&Rounds { least: 5, round: 0.003, total: 0.8 }, job.pairs.len(), [&mut lent, &mut by_house])
}

fn of_totals(job: &totals::Job, manner: Manner) -> Row {
    let room = job.lists.room().expect("the room of this strip is refused");
    let [mut work_of_lent, mut work_of_house] = [(); 2].map(|()| vec![0.0; room]);
    let mut lent = |results: &mut [f64]| {
        let (squares, fourths) = results.split_at_mut(job.sums());
        job.ours(manner.ours, squares, fourths, &mut work_of_lent).expect("this strip is refused");
    };
    let mut by_house = |results: &mut [f64]| {
        let (squares, fourths) = results.split_at_mut(job.sums());
        job.house(manner.ours, squares, fourths, &mut work_of_house).expect("this strip is refused");
    };
    row(&Rounds { least: 3, round: 0.003, total: 0.3 }, 2 * job.sums(), [&mut lent, &mut by_house])
}

/// A configuration's factors as the sweeps take them: from a list of one beta's, or each looked up at its coupling. The second is the design that
/// was not taken (DECISIONS 113).
struct Laying {
    beta: f64,
    magnitudes: Vec<f64>,
    factors: Vec<f64>,
    signs: Vec<bool>,
}

impl Laying {
    fn of(job: &totals::Job) -> Laying {
        let magnitudes = job.graph.mag.clone();
        let factor = |coupling| house::factor(coupling).expect("it is on the grid");
        let factors = magnitudes.iter().flat_map(|m| [factor(BETAS[0] * m), factor(-BETAS[0] * m)]).collect();
        let signs = (0..magnitudes.len()).map(|e| e % 3 == 0).collect();
        Laying { beta: BETAS[0], magnitudes, factors, signs }
    }

    fn by_list(&self, laid: &mut [f64]) {
        for (e, (to, &minus)) in laid.iter_mut().zip(&self.signs).enumerate() {
            *to = self.factors[2 * e + usize::from(minus)];
        }
    }

    /// The couplings passed 23, so none is asked for again.
    fn looked_up(&self, laid: &mut [f64]) {
        for ((to, &minus), m) in laid.iter_mut().zip(&self.signs).zip(&self.magnitudes) {
            let steps = (self.beta * m * house::STEPS) as i32;
            *to = house::TABLE[((if minus { -steps } else { steps }) + 512) as usize];
        }
    }
}

/// What a look-up of every factor in every configuration would add to an enumeration, in parts of its time.
fn print_looked_up() {
    println!();
    println!("The factors of one configuration laid from a list of its beta's, as it is done, or looked up in the table one by one.");
    println!();
    println!("| kind | boundary | width | columns | window | vertices | edges | a configuration, ns | from a list, ns | looked up, ns | more, per cent of a configuration |");
    println!("|---|---|---|---|---|---|---|---|---|---|---|");
    let boundaries = |w| KINDS.into_iter().flat_map(move |kind| [false, true].map(|periodic| (kind, w, periodic)));
    let strips =
        [4, 6].into_iter().flat_map(boundaries).filter_map(|(kind, w, periodic)| strip_of_entries(kind, w, periodic, totals::ENTRIES, 2));
    for strip in strips {
        let job = totals::Job::of_house(&strip, totals::Entry::Exhaustive, &BETAS);
        let laying = Laying::of(&job);
        let edges = laying.magnitudes.len();
        let rounds = Rounds { least: 5, round: 0.003, total: 0.1 };
        let mut list = |laid: &mut [f64]| black_box(&laying).by_list(laid);
        let mut table = |laid: &mut [f64]| black_box(&laying).looked_up(laid);
        let [from_list, looked_up] = times_beside(&rounds, edges, [&mut list, &mut table]).map(|seconds| 1e9 * seconds);
        let configurations = BETAS.len() as f64 * f64::from(1u32 << job.graph.cyclomatic());
        let whole = 1e9 * of_totals(&job, MANNERS[0]).times[0] / configurations;
        let more = 100.0 * (looked_up - from_list) / whole;
        println!("| {} | {edges} | {whole:.0} | {from_list:.0} | {looked_up:.0} | {more:.1} |", cells(&job.strip, job.graph.win));
    }
}

pub fn print_house() {
    println!("Calls by house factors beside those that are lent the same factors, with the standard pairs; the bits are the same.");
    println!();
    let totals = |strip: &_, entry| totals::Job::of_house(strip, entry, &BETAS);
    Table { widths: &[4, 6, 8], heads: "", names: ["lent", "house"], of_correlations, totals, of_totals }.print();
    print_looked_up();
}
