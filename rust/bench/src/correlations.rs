//! Correlations of one configuration beside the original's.

use crate::clock::{least_times, Rounds};
use crate::manner::{Manner, MANNERS};
use crate::ours::Lists;
use crate::ratios::Ratios;
use crate::strips::{cells, strip_of_entries, KINDS};
use crate::times::Times;
use oracle::glass::{correlations, Plan};
use oracle::lattice::{Graph, Strip};
use oracle::rng::Rng;
use std::hint::black_box;
use std::ops::RangeInclusive;

/// About how many entries a sweep steps over: a call then takes up to some hundred milliseconds.
pub const ENTRIES: usize = 40_000_000;

/// A strip with pairs and couplings of either sign, as each side takes it.
pub struct Job {
    pub strip: Strip,
    pub raw: Vec<(usize, usize, f64)>,
    pub graph: Graph,
    pub pairs: Vec<(usize, usize)>,
    pub lists: Lists,
    pub couplings: Vec<f64>,
    pub factors: Vec<f64>,
}

impl Job {
    /// With the standard pairs.
    pub fn new(strip: Strip) -> Job {
        let pairs = strip.pairs().iter().map(|p| (p.1, p.2)).collect();
        Job::with_pairs(strip, pairs)
    }

    pub fn with_pairs(strip: Strip, pairs: Vec<(usize, usize)>) -> Job {
        let raw = strip.raw_edges();
        let graph = Graph::new(strip.n(), &raw);
        let lists = Lists::new(strip.n(), &raw, &pairs);
        let mut rng = Rng::new(7);
        let couplings: Vec<f64> = graph
            .mag
            .iter()
            .map(|m| {
                let size = m * (0.25 + 0.5 * rng.uniform());
                let minus = rng.next_u64() % 2 == 1;
                if minus {
                    -size
                } else {
                    size
                }
            })
            .collect();
        let factors = couplings.iter().map(|x| x.exp()).collect();
        Job { strip, raw, graph, pairs, lists, couplings, factors }
    }

    /// The original's plan, which reads its manner from the environment.
    pub fn plan(&self, manner: Manner) -> Plan {
        std::env::set_var("FDK_SLOW", manner.slow);
        Plan::new(&self.graph, &self.pairs)
    }

    pub fn room(&self) -> usize {
        self.lists.room().expect("the room of this strip is refused")
    }
}

/// Returns the times of one call on both sides, whose bits are compared first.
pub fn measure(job: &Job, manner: Manner, rounds: &Rounds) -> Times {
    let plan = job.plan(manner);
    let mut memory = plan.work();
    let mut theirs = vec![0.0; job.pairs.len()];
    let mut results = vec![0.0; job.pairs.len()];
    let mut work = vec![0.0; job.room()];

    correlations(&plan, &job.couplings, &mut memory, &mut theirs);
    job.lists.correlations(&job.factors, manner.ours, &mut results, &mut work).expect("this strip is refused");
    for (i, (x, y)) in theirs.iter().zip(&results).enumerate() {
        assert_eq!(x.to_bits(), y.to_bits(), "pair {i} differs: the original has {x}, ours is {y}");
    }

    let times = least_times(
        rounds,
        &mut [&mut || correlations(black_box(&plan), black_box(&job.couplings), &mut memory, &mut theirs), &mut || {
            let _ = black_box(job.lists.correlations(black_box(&job.factors), manner.ours, &mut results, &mut work));
        }],
    );
    Times { original: times[0], ours: times[1], exponentials: exponentials(job) }
}

fn exponentials(job: &Job) -> f64 {
    let mut factors = job.factors.clone();
    let mut take = || {
        for (x, coupling) in factors.iter_mut().zip(black_box(&job.couplings)) {
            *x = coupling.exp();
        }
        black_box(&mut factors);
    };
    least_times(&Rounds { least: 9, round: 0.0005, total: 0.0 }, &mut [&mut take])[0]
}

fn print_job(job: &Job, manner: Manner, times: &Times) {
    println!("| {} | {} | {} | {} |", cells(&job.strip, job.graph.win), job.pairs.len(), manner.name, times.cells());
}

/// Prints the jobs of these widths, one line for each manner, and their means.
pub fn print_sheet(widths: RangeInclusive<usize>, rounds: &Rounds, tell_room: bool) {
    println!("| kind | boundary | width | columns | window | vertices | pairs | manner | original, ms | ours, ms | ratio | with exp |");
    println!("|---|---|---|---|---|---|---|---|---|---|---|---|");
    let mut wide: [Ratios; 2] = Default::default();
    let mut narrow: [Ratios; 2] = Default::default();
    for w in widths {
        for kind in KINDS {
            for periodic in [false, true] {
                let Some(strip) = strip_of_entries(kind, w, periodic, ENTRIES, 3) else { continue };
                let job = Job::new(strip);
                if tell_room {
                    println!("room: {} doubles, {:.1} MB", job.room(), 8e-6 * job.room() as f64);
                }
                for (m, manner) in MANNERS.into_iter().enumerate() {
                    let times = measure(&job, manner, rounds);
                    print_job(&job, manner, &times);
                    let ratios = if job.graph.win >= 8 { &mut wide } else { &mut narrow };
                    ratios[m].add(times.ratio(), &job.strip);
                }
            }
        }
    }
    println!();
    for (m, manner) in MANNERS.iter().enumerate() {
        wide[m].print(&format!("windows of 8 and more, {}", manner.name));
        narrow[m].print(&format!("windows below 8, {}", manner.name));
    }
}
