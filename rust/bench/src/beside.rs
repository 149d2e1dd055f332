//! Two ways to the same bits: their times, job by job, and the table of them.

use crate::clock::{least_times, stay_on_this_processor, Rounds};
use crate::manner::{Manner, MANNERS};
use crate::ratios::Ratios;
use crate::strips::{cells, strip_of_entries, KINDS};
use crate::{correlations, totals};
use oracle::lattice::Strip;
use std::hint::black_box;

/// A call that leaves its results in a list.
pub type Call<'a> = &'a mut dyn FnMut(&mut [f64]);

/// Seconds of either call, whose results, so many, are compared first.
pub fn times_beside(rounds: &Rounds, results: usize, [one, other]: [Call; 2]) -> [f64; 2] {
    let (mut first, mut second) = (vec![0.0; results], vec![0.0; results]);
    one(&mut first);
    other(&mut second);
    for (i, (x, y)) in first.iter().zip(&second).enumerate() {
        assert_eq!(x.to_bits(), y.to_bits(), "result {i} differs: {x} and {y}");
    }
    let times = least_times(rounds, &mut [&mut || one(black_box(&mut first)), &mut || other(black_box(&mut second))]);
    [times[0], times[1]]
}

/// What a table tells of one job: its own cells, and the seconds of either way.
pub struct Row {
    pub cells: String,
    pub times: [f64; 2],
}

/// The second way beside the first, over correlations and totals of strips of these widths with their standard pairs.
pub struct Table<'a> {
    pub widths: &'a [usize],
    /// The heads of a row's own cells.
    pub heads: &'a str,
    /// The names of the first way and of the second.
    pub names: [&'a str; 2],
    pub of_correlations: fn(&correlations::Job, Manner) -> Row,
    pub totals: fn(&Strip, totals::Entry) -> totals::Job,
    pub of_totals: fn(&totals::Job, Manner) -> Row,
}

const CORRELATIONS: &str = "correlations";

impl Table<'_> {
    /// Prints a line for each strip, entry and manner, and their means.
    pub fn print(&self) {
        stay_on_this_processor();
        let [one, other] = self.names;
        let head = format!(
            "| entry | kind | boundary | width | columns | window | vertices | manner |{} {one}, ms | {other}, ms | ratio |",
            self.heads
        );
        println!("{head}");
        println!("{}|", "|---".repeat(head.matches('|').count() - 1));
        let names: Vec<&str> = [CORRELATIONS].into_iter().chain(totals::ENTRIES_NAMED.map(|named| named.1)).collect();
        let mut ratios: Vec<[Ratios; 2]> = names.iter().map(|_| Default::default()).collect();
        for &w in self.widths {
            for (kind, periodic) in KINDS.into_iter().flat_map(|kind| [(kind, false), (kind, true)]) {
                let strip = |entries, least| strip_of_entries(kind, w, periodic, entries, least);
                let (Some(long), Some(short)) = (strip(correlations::ENTRIES, 3), strip(totals::ENTRIES, 2)) else { continue };
                let job = correlations::Job::new(long);
                for (m, manner) in MANNERS.into_iter().enumerate() {
                    print_row(CORRELATIONS, &job.strip, job.graph.win, manner, (self.of_correlations)(&job, manner), &mut ratios[0][m]);
                }
                for (e, (entry, name)) in totals::ENTRIES_NAMED.into_iter().enumerate() {
                    let job = (self.totals)(&short, entry);
                    for (m, manner) in MANNERS.into_iter().enumerate() {
                        print_row(name, &job.strip, job.graph.win, manner, (self.of_totals)(&job, manner), &mut ratios[e + 1][m]);
                    }
                }
            }
        }
        println!();
        for (of_entry, name) in ratios.iter().zip(names) {
            for (ratios, manner) in of_entry.iter().zip(MANNERS) {
                ratios.print(&format!("{other} over {one}, {name}, {}", manner.name));
            }
        }
    }
}

fn print_row(entry: &str, strip: &Strip, window: usize, manner: Manner, row: Row, ratios: &mut Ratios) {
    let [one, other] = row.times;
    let times = format!("{:.3} | {:.3} | {:.3}", 1e3 * one, 1e3 * other, other / one);
    println!("| {entry} | {} | {} |{} {times} |", cells(strip, window), manner.name, row.cells);
    ratios.add(other / one, strip);
}
