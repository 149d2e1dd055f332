//! The arrangement with less room beside the one that keeps all: the same jobs, whose bits are compared first.

use crate::beside::{times_beside, Row, Table};
use crate::clock::Rounds;
use crate::manner::Manner;
use crate::{correlations, totals};
use copperhook::{Arrangement, Options};
use std::hint::black_box;

/// The widths that are measured.
pub const WIDTHS: [usize; 6] = [4, 6, 8, 12, 16, 20];
const ARRANGEMENTS: [Arrangement; 2] = [Arrangement::KeepAll, Arrangement::LessRoom];

/// Both sides of a call that leaves so many results, with the megabytes of its rooms.
fn row(manner: Manner, rooms: [usize; 2], results: usize, rounds: &Rounds, call: impl Fn(Options, &mut [f64], &mut [f64])) -> Row {
    let options = ARRANGEMENTS.map(|arrangement| Options::from(manner.ours).arranged(arrangement));
    let [mut room_of_all, mut room_of_less] = rooms.map(|room| vec![0.0; room]);
    let times = times_beside(
        rounds,
        results,
        [&mut |all| call(options[0], all, &mut room_of_all), &mut |less| call(options[1], less, &mut room_of_less)],
    );
    let [all, less] = rooms.map(|room| 8e-6 * room as f64);
    Row { cells: format!(" {all:.2} | {less:.2} |"), times }
}

fn of_correlations(job: &correlations::Job, manner: Manner) -> Row {
    let rooms = ARRANGEMENTS.map(|arrangement| job.lists.room_in(arrangement).expect("the room of this strip is refused"));
    row(manner, rooms, job.pairs.len(), &Rounds { least: 5, round: 0.003, total: 0.8 }, |options, results, work| {
        job.lists.correlations(black_box(&job.factors), options, results, work).expect("this strip is refused");
    })
}

fn of_totals(job: &totals::Job, manner: Manner) -> Row {
    let rooms = ARRANGEMENTS.map(|arrangement| job.lists.room_in(arrangement).expect("the room of this strip is refused"));
    row(manner, rooms, 2 * job.sums(), &Rounds { least: 3, round: 0.003, total: 0.3 }, |options, results, work| {
        let (squares, fourths) = results.split_at_mut(job.sums());
        job.ours(options, squares, fourths, work).expect("this strip is refused");
    })
}

/// Prints the jobs of these widths, one line for each entry and manner, and their means.
pub fn print_arrangements(widths: &[usize]) {
    println!("The arrangement with less room beside the one that keeps all, with the standard pairs; the bits are the same.");
    println!();
    let heads = " room, MB | less room, MB |";
    Table { widths, heads, names: ["all kept", "less room"], of_correlations, totals: totals::Job::new, of_totals }.print();
}
