//! The table of house factors beside this host's `exp`, and the correlations that follow from either. How far they are apart is printed and not
//! judged, as another host has another `exp`; where no entry is apart, no result may be.

use copperhook::{house, Graph, Job, Manner};
use oracle::glass::{correlations, exhaustive, Plan};
use oracle::lattice::{Kind, Strip};
use oracle::rules::house::{entry, table, MOST};
use oracle::rules::lists::{Edges, Pairs};

/// How many doubles lie from one to the other, both above zero.
fn last_places(x: f64, y: f64) -> u64 {
    x.to_bits().abs_diff(y.to_bits())
}

/// The entries that are not this host's exponentials, with how many last places each is off.
fn apart() -> Vec<(i32, u64)> {
    let off = (-MOST..=MOST).map(|i| (i, last_places(entry(i), (f64::from(i) / 128.0).exp())));
    off.filter(|&(_, places)| places > 0).collect()
}

/// Results of both sides: how many, how many of them differ, and the largest difference.
#[derive(Default)]
struct Gap {
    results: usize,
    differ: usize,
    most: f64,
}

impl Gap {
    fn take(&mut self, ours: &[f64], theirs: &[f64]) {
        for (x, y) in ours.iter().zip(theirs) {
            self.results += 1;
            self.differ += usize::from(x.to_bits() != y.to_bits());
            self.most = self.most.max((x - y).abs());
        }
    }

    fn say(&self, what: &str) {
        println!("{what}: {} of {} results differ from the original's, by {:e} at most", self.differ, self.results, self.most);
    }
}

/// A strip as each side takes it.
struct Sides {
    graph: oracle::lattice::Graph,
    plan: Plan,
    edges: Edges,
    pairs: Pairs,
}

impl Sides {
    fn new(kind: Kind, w: usize, l: usize, periodic: bool) -> Sides {
        let strip = Strip { kind, w, l, periodic };
        let pairs: Vec<(usize, usize)> = strip.pairs().iter().map(|p| (p.1, p.2)).collect();
        let graph = strip.graph();
        let plan = Plan::new(&graph, &pairs);
        Sides { plan, edges: Edges::new(strip.n(), &strip.raw_edges()), pairs: Pairs::new(&pairs), graph }
    }

    fn job(&self) -> Job<'_> {
        let Edges { n, a, b, m, .. } = &self.edges;
        Job { graph: Graph::new(*n, a, b, m), us: &self.pairs.us, vs: &self.pairs.vs }
    }

    /// One configuration at every coupling of the grid, every third edge minus.
    fn one_configuration(&self, gap: &mut Gap) {
        let (job, mut memory) = (self.job(), self.plan.work());
        let mut work = vec![0.0; job.room().unwrap()];
        let (mut ours, mut theirs) = (vec![0.0; job.us.len()], vec![0.0; job.us.len()]);
        for i in -MOST..=MOST {
            let couplings: Vec<f64> = (0..self.edges.m.len()).map(|e| f64::from(i) / if e % 3 == 1 { -128.0 } else { 128.0 }).collect();
            job.house_correlations(&couplings, Manner::Block, &mut ours, &mut work).unwrap();
            correlations(&self.plan, &couplings, &mut memory, &mut theirs);
            gap.take(&ours, &theirs);
        }
    }

    /// All configurations at every beta that makes couplings of the grid.
    fn all_configurations(&self, gap: &mut Gap) {
        let (job, betas) = (self.job(), (-MOST..=MOST).map(|i| f64::from(i) / 128.0).collect::<Vec<f64>>());
        let mut work = vec![0.0; job.room().unwrap()];
        for betas in betas.chunks(64) {
            let sums = betas.len() * job.us.len();
            let (mut squares, mut fourths) = (vec![0.0; sums], vec![0.0; sums]);
            job.house_exhaustive(betas, Manner::Block, &mut squares, &mut fourths, &mut work).unwrap();
            let theirs = exhaustive(&self.graph, &self.plan, betas, 1);
            gap.take(&squares, &theirs.s1);
            gap.take(&fourths, &theirs.s2);
        }
    }
}

fn main() {
    std::env::set_var("FDK_SLOW", "0");
    let same = house::TABLE.iter().map(|x| x.to_bits()).eq(table().iter().map(|x| x.to_bits()));
    assert!(same, "the bindings have another table than the rules");
    let apart = apart();
    println!("house factors: {} of the 1025 entries are not this host's exp", apart.len());
    apart.iter().for_each(|(i, places)| println!("    entry {i}: {places} last places off"));
    let (mut one, mut all) = (Gap::default(), Gap::default());
    for sides in [Sides::new(Kind::Square, 3, 4, false), Sides::new(Kind::Tri, 3, 3, true), Sides::new(Kind::Honey, 4, 4, true)] {
        sides.one_configuration(&mut one);
    }
    for sides in [Sides::new(Kind::Square, 2, 4, false), Sides::new(Kind::Tri, 2, 3, false)] {
        sides.all_configurations(&mut all);
    }
    one.say("correlations of one configuration");
    all.say("sums over all configurations");
    assert!(!apart.is_empty() || one.differ == 0 && all.differ == 0, "results differ where no factor does");
}
