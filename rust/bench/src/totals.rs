//! The totals beside the original's, with one thread: enumerated ones of short strips and of long ones that are almost trees, and sampled ones
//! of long strips.
//!
//! Both sides take the graph and, the original, its plan as made; it makes its work memory in each call, and takes the exponentials of each
//! configuration's couplings anew. Ours is lent factors, two for each beta and edge: the last column adds the time of those exponentials.
use crate::clock::{least_times, stay_on_this_processor, Rounds};
use crate::manner::{Manner, MANNERS};
use crate::ours::Lists;
use crate::ratios::Ratios;
use crate::strips::{cells, strip_of_entries, KINDS};
use crate::times::Times;
use copperhook::{Options, Refusal, Sampling};
use oracle::glass::{exhaustive, sample, Acc, Plan};
use oracle::lattice::{Graph, Strip};
use std::hint::black_box;
use std::ops::RangeInclusive;

/// The widths that are measured.
pub const WIDTHS: RangeInclusive<usize> = 4..=20;
const BETAS: [f64; 2] = [0.3, 0.7];
/// The most free edges of a sparse strip: 32 configurations, and as many are drawn.
const SPARSE: usize = 5;
/// About how many entries the sweep of a configuration of a long strip steps over.
pub const ENTRIES: usize = 400_000;

#[derive(Clone, Copy, PartialEq)]
pub enum Entry {
    Exhaustive,
    /// Of a long strip with few free edges.
    Sparse,
    Sample,
}

pub const ENTRIES_NAMED: [(Entry, &str); 3] =
    [(Entry::Exhaustive, "exhaustive"), (Entry::Sparse, "exhaustive, sparse"), (Entry::Sample, "sample")];

/// A strip with its standard pairs and its betas, as each side takes it.
pub struct Job {
    entry: Entry,
    pub strip: Strip,
    pub graph: Graph,
    pairs: Vec<(usize, usize)>,
    pub lists: Lists,
    betas: Vec<f64>,
    /// Of a sampling alone.
    by: Sampling,
    couplings: Vec<f64>,
    factors: Vec<f64>,
}

/// How many free edges an enumeration has at most: 10 at width 4, 6 at width 12, 1 from width 18 on, so that a call stays below about a second.
fn most_free(w: usize) -> usize {
    if w <= 12 {
        10 - (w - 4) / 2
    } else {
        19usize.saturating_sub(w).max(1)
    }
}

fn free_if_sparse(w: usize) -> usize {
    most_free(w).min(SPARSE)
}

/// As many configurations as a sparse strip has, in four chunks where there are as many.
fn drawn(w: usize) -> Sampling {
    let configurations = 1 << free_if_sparse(w);
    let chunks = configurations.min(4);
    Sampling { seed: 7, from: 0, to: chunks as u64, samples: configurations / chunks }
}

/// One alone where two would take a call beyond a second.
fn betas_of(window: usize) -> Vec<f64> {
    let from = usize::from(window >= 20);
    BETAS[from..].to_vec()
}

/// The longest strip with so few free edges, of two columns at least.
fn enumerated(strip: &Strip) -> Strip {
    let of_length = |l| Strip { l, ..strip.clone() };
    let fits = |l: &usize| of_length(*l).graph().cyclomatic() <= most_free(strip.w);
    with_free_edges(of_length((2..40).take_while(fits).last().unwrap_or(2)))
}

/// The strip, or where it has fewer free edges than a sparse one takes, the next longer one that has them: a honeycomb of two columns is a tree.
fn with_free_edges(mut strip: Strip) -> Strip {
    while strip.graph().cyclomatic() < free_if_sparse(strip.w) {
        strip.l += 1;
    }
    strip
}

/// The strip's edges, all of magnitude 1.0; for an enumeration those past the free ones that it takes get magnitude zero.
fn edges_of(strip: &Strip, entry: Entry) -> Vec<(usize, usize, f64)> {
    let mut raw = strip.raw_edges();
    let tree = Graph::new(strip.n(), &raw).spanning_forest();
    let free: Vec<usize> = (0..tree.len()).filter(|&e| !tree[e]).collect();
    let sparse = free_if_sparse(strip.w);
    // the sparse ones are spread over the strip
    let stays: Vec<usize> = match entry {
        Entry::Exhaustive => free.iter().copied().take(most_free(strip.w)).collect(),
        Entry::Sparse => (0..sparse).map(|i| free[i * free.len() / sparse]).collect(),
        Entry::Sample => free.clone(),
    };
    free.iter().filter(|e| !stays.contains(e)).for_each(|&e| raw[e].2 = 0.0);
    raw
}

impl Job {
    pub fn new(strip: &Strip, entry: Entry) -> Job {
        Job::at(strip, entry, betas_of(strip.graph().win))
    }

    /// At betas of the grid, with the table's factors.
    pub fn of_house(strip: &Strip, entry: Entry, betas: &[f64]) -> Job {
        let job = Job::at(strip, entry, betas.to_vec());
        let factors = job.lists.job().graph.house_factors(betas).expect("these betas are refused").all;
        Job { factors, ..job }
    }

    fn at(strip: &Strip, entry: Entry, betas: Vec<f64>) -> Job {
        let strip = if entry == Entry::Exhaustive { enumerated(strip) } else { with_free_edges(strip.clone()) };
        let by = drawn(strip.w);
        Job::of(strip, entry, betas, by)
    }

    pub fn sampling(strip: Strip, betas: Vec<f64>, by: Sampling) -> Job {
        Job::of(strip, Entry::Sample, betas, by)
    }

    fn of(strip: Strip, entry: Entry, betas: Vec<f64>, by: Sampling) -> Job {
        let raw = edges_of(&strip, entry);
        let mut graph = Graph::new(strip.n(), &raw);
        graph.win = strip.graph().win;
        let pairs: Vec<(usize, usize)> = strip.pairs().iter().map(|p| (p.1, p.2)).collect();
        let lists = Lists::new(strip.n(), &raw, &pairs).with_floor(graph.win);
        let couplings: Vec<f64> = betas.iter().flat_map(|beta| graph.mag.iter().map(move |m| beta * m)).collect();
        let factors = couplings.iter().flat_map(|x| [x.exp(), (-x).exp()]).collect();
        Job { entry, strip, graph, pairs, lists, betas, by, couplings, factors }
    }

    /// How many sums there are of a kind.
    pub fn sums(&self) -> usize {
        self.betas.len() * self.pairs.len()
    }

    fn configurations(&self) -> usize {
        match self.entry {
            Entry::Exhaustive | Entry::Sparse => 1 << self.graph.cyclomatic(),
            Entry::Sample => (self.by.to - self.by.from) as usize * self.by.samples,
        }
    }

    fn original(&self, plan: &Plan) -> Acc {
        match self.entry {
            Entry::Exhaustive | Entry::Sparse => exhaustive(&self.graph, plan, &self.betas, 1),
            Entry::Sample => sample(&self.graph, plan, &self.betas, self.by.seed, self.by.from, self.by.to, self.by.samples, 1),
        }
    }

    pub fn ours(&self, options: impl Into<Options>, squares: &mut [f64], fourths: &mut [f64], work: &mut [f64]) -> Result<usize, Refusal> {
        let (job, factors) = (self.lists.job(), black_box(&self.factors[..]));
        match self.entry {
            Entry::Exhaustive | Entry::Sparse => job.exhaustive(&self.betas, factors, options, squares, fourths, work),
            Entry::Sample => job.sample(&self.betas, factors, options, &self.by, squares, fourths, work),
        }
    }

    /// The same by house factors.
    pub fn house(&self, options: impl Into<Options>, squares: &mut [f64], fourths: &mut [f64], work: &mut [f64]) -> Result<usize, Refusal> {
        let (job, betas) = (self.lists.job(), black_box(&self.betas[..]));
        match self.entry {
            Entry::Exhaustive | Entry::Sparse => job.house_exhaustive(betas, options, squares, fourths, work),
            Entry::Sample => job.house_sample(betas, options, &self.by, squares, fourths, work),
        }
    }
}

/// Seconds of one call of the original, of ours, and of the exponentials that ours is lent. The caller stays on one processor.
pub fn measure(job: &Job, manner: Manner) -> Times {
    std::env::set_var("FDK_SLOW", manner.slow);
    let plan = Plan::new(&job.graph, &job.pairs);
    let mut work = vec![0.0; job.lists.room().expect("the room of this strip is refused")];
    let totals = job.sums();
    let (mut squares, mut fourths) = (vec![0.0; totals], vec![0.0; totals]);

    let theirs = job.original(&plan);
    let count = job.ours(manner.ours, &mut squares, &mut fourths, &mut work).expect("this strip is refused");
    assert_eq!(count as f64, theirs.count);
    for (x, y) in theirs.s1.iter().chain(&theirs.s2).zip(squares.iter().chain(&fourths)) {
        assert_eq!(x.to_bits(), y.to_bits(), "a total differs: the original has {x}, ours is {y}");
    }

    let mut factors = job.factors.clone();
    let times = least_times(
        &Rounds { least: 3, round: 0.003, total: 0.3 },
        &mut [
            &mut || drop(black_box(job.original(black_box(&plan)))),
            &mut || {
                let _ = black_box(job.ours(manner.ours, &mut squares, &mut fourths, &mut work));
            },
            &mut || {
                for (pair, coupling) in factors.chunks_mut(2).zip(black_box(&job.couplings)) {
                    pair.copy_from_slice(&[coupling.exp(), (-coupling).exp()]);
                }
                black_box(&mut factors);
            },
        ],
    );
    Times { original: times[0], ours: times[1], exponentials: times[2] }
}

fn print_job(job: &Job, manner: Manner, times: &Times) {
    let (name, strip) = (ENTRIES_NAMED[job.entry as usize].1, cells(&job.strip, job.graph.win));
    let (free, pairs, betas) = (job.graph.cyclomatic(), job.pairs.len(), job.betas.len());
    println!("| {name} | {strip} | {free} | {pairs} | {betas} | {} | {} | {} |", job.configurations(), manner.name, times.cells());
}

pub fn print_totals(widths: RangeInclusive<usize>) {
    stay_on_this_processor();
    println!();
    println!("Totals: of all configurations of short strips, of all of long strips with {SPARSE} free edges or fewer, and of drawn ones of long strips.");
    println!();
    print!("| entry | kind | boundary | width | columns | window | vertices | free edges | pairs | betas | configurations | manner |");
    println!(" original, ms | ours, ms | ratio | with exp |");
    println!("|---|---|---|---|---|---|---|---|---|---|---|---|---|---|---|---|");
    let mut ratios: [[Ratios; 2]; 3] = Default::default();
    for w in widths {
        for (kind, periodic) in KINDS.into_iter().flat_map(|kind| [(kind, false), (kind, true)]) {
            let Some(strip) = strip_of_entries(kind, w, periodic, ENTRIES, 2) else { continue };
            for (e, (entry, _)) in ENTRIES_NAMED.into_iter().enumerate() {
                let job = Job::new(&strip, entry);
                for (m, manner) in MANNERS.into_iter().enumerate() {
                    let times = measure(&job, manner);
                    print_job(&job, manner, &times);
                    ratios[e][m].add(times.ratio(), &job.strip);
                }
            }
        }
    }
    println!();
    for (of_entry, (_, name)) in ratios.iter().zip(ENTRIES_NAMED) {
        for (ratios, manner) in of_entry.iter().zip(MANNERS) {
            ratios.print(&format!("{name}, {}", manner.name));
        }
    }
}
