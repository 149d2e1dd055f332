//! How large the errors of correlations are beside their proved bound, on strips too long for exact fractions: against a sweep with 77 digits.
//!
//! That sweep goes from the first vertex to the last, and sums the settings in which both ends of a pair are up: it has no backward vector, no
//! scale, and nothing below zero. Weights are the squares of the factors of edges whose ends agree, as in the tests against exact fractions.
use crate::clock::{least_times, Rounds};
use crate::manner::MANNERS;
use crate::ours::Lists;
use crate::wide::{Wide, ZERO};
use oracle::lattice::{Kind, Strip};
use oracle::rng::Rng;
use std::hint::black_box;

const BETAS: [f64; 3] = [0.3, 1.0, 2.0];
const UNIT: f64 = 1.0 / (1u64 << 53) as f64;

/// Edges without couplings, the smaller end first.
struct Shape {
    name: String,
    n: usize,
    window: usize,
    edges: Vec<(usize, usize)>,
}

fn strip(kind: Kind, w: usize, l: usize, periodic: bool) -> Shape {
    let strip = Strip { kind, w, l, periodic };
    let graph = strip.graph();
    let edges = strip.raw_edges().iter().map(|e| (e.0.min(e.1), e.0.max(e.1))).collect();
    Shape { name: format!("{} {}, {w} x {l}", strip.kind.name(), strip.bc()), n: strip.n(), window: graph.win, edges }
}

/// Four near edges at every vertex, and one as long as the window: 820 vertices have as many edges as there may be.
fn dense(n: usize, window: usize) -> Shape {
    let back = |t: usize| [1, 2, 3, 4, window].into_iter().filter(move |&d| d <= t).map(move |d| (t - d, t));
    Shape { name: "four near edges".to_string(), n, window, edges: (0..n).flat_map(back).collect() }
}

fn shapes() -> Vec<Shape> {
    vec![
        strip(Kind::Square, 4, 16, false),
        strip(Kind::Square, 8, 8, true),
        strip(Kind::Honey, 8, 32, true),
        strip(Kind::Tri, 8, 32, true),
        strip(Kind::Square, 4, 256, false),
        strip(Kind::Square, 8, 128, true),
        strip(Kind::Tri, 8, 128, true),
        strip(Kind::Square, 12, 85, false),
        dense(820, 6),
        dense(256, 11),
        dense(820, 12),
    ]
}

/// Factors of either sign, of magnitudes from 0.2 to 1.
fn drawn_factors(rng: &mut Rng, shape: &Shape, beta: f64) -> Vec<f64> {
    let mut factor = || {
        let size = beta * (0.2 + 0.8 * rng.uniform());
        (if rng.next_u64() % 2 == 1 { -size } else { size }).exp()
    };
    shape.edges.iter().map(|_| factor()).collect()
}

/// Some drawn pairs, and some by the window: next to each other, a window apart, two, and four.
fn drawn_pairs(rng: &mut Rng, shape: &Shape) -> Vec<(usize, usize)> {
    let (n, w, middle) = (shape.n, shape.window, shape.n / 2);
    let any = |rng: &mut Rng| (rng.next_u64() % n as u64) as usize;
    let mut pairs: Vec<(usize, usize)> = (0..4).map(|_| (any(rng), any(rng))).collect();
    pairs.extend([(middle, middle + 1), (middle, middle + w), (middle, middle + 2 * w), (3, 3 + 4 * w), (0, n - 1)]);
    pairs.into_iter().filter(|&(u, v)| u != v && v < n).map(|(u, v)| (u.min(v), u.max(v))).collect()
}

/// The edges back from each vertex, by their lengths, with the squares of their factors.
struct Reference {
    window: usize,
    back: Vec<Vec<(usize, Wide)>>,
}

impl Reference {
    fn new(shape: &Shape, factors: &[f64]) -> Reference {
        let mut back = vec![Vec::new(); shape.n];
        for (&(early, late), &factor) in shape.edges.iter().zip(factors) {
            back[late].push((late - early, Wide::of(factor).times(Wide::of(factor))));
        }
        Reference { window: shape.window, back }
    }

    /// Bit d of an entry's index is the spin of vertex t - d. The next vertex comes in below, and the oldest goes out above.
    fn step(&self, t: usize, vector: &[Wide]) -> Vec<Wide> {
        let half = vector.len() / 2;
        let near: Vec<(usize, Wide)> = self.back[t].iter().filter(|e| e.0 < self.window).copied().collect();
        let left = self.back[t].iter().find(|e| e.0 == self.window).map_or(Wide::of(1.0), |e| e.1);
        // by which of the near edges agree
        let product = |agree: usize| (0..near.len()).filter(|i| agree >> i & 1 == 1).fold(Wide::of(1.0), |x, i| x.times(near[i].1));
        let table: Vec<Wide> = (0..1 << near.len()).map(product).collect();
        let mut next = Vec::with_capacity(vector.len());
        for k in 0..half {
            let down = near.iter().enumerate().fold(0, |bits, (i, e)| bits | (k >> (e.0 - 1) & 1) << i);
            let (old_up, old_down) = (vector[k], vector[half + k]);
            next.push(old_up.times(left).plus(old_down).times(table[!down & (table.len() - 1)]));
            next.push(old_up.plus(old_down.times(left)).times(table[down]));
        }
        next
    }

    /// The sum of all weights, and for each pair that of the settings in which both ends are up. Turning all spins changes no weight.
    fn sums(&self, pairs: &[(usize, usize)]) -> (Wide, Vec<Wide>) {
        let total = |vector: &[Wide]| vector.iter().fold(ZERO, |sum, x| sum.plus(*x));
        let keep_up = |vector: &mut [Wide]| vector.iter_mut().skip(1).step_by(2).for_each(|x| *x = ZERO);
        let mut vector = vec![Wide::of(1.0); 1 << self.window];
        let mut both = vec![ZERO; pairs.len()];
        for t in 0..self.back.len() {
            vector = self.step(t, &vector);
            for (&(_, v), sum) in pairs.iter().zip(&mut both).filter(|(pair, _)| pair.0 == t) {
                let mut marked = vector.clone();
                keep_up(&mut marked);
                for later in t + 1..self.back.len() {
                    marked = self.step(later, &marked);
                    if later == v {
                        keep_up(&mut marked);
                    }
                }
                *sum = total(&marked);
            }
        }
        (total(&vector), both)
    }
}

/// How far x is from 4 both / all - 1.
fn error(x: f64, all: Wide, both: Wide) -> f64 {
    let one_more = if x < 0.0 { Wide::of(1.0).apart(Wide::of(-x)) } else { Wide::of(1.0).plus(Wide::of(x)) };
    one_more.times(all).apart(both.times(Wide::of(4.0))).ratio(all)
}

/// The largest error of a job's answers, in both manners.
fn worst(lists: &Lists, factors: &[f64], reference: &Reference, pairs: &[(usize, usize)]) -> f64 {
    let (all, both) = reference.sums(pairs);
    let mut work = vec![0.0; lists.room().expect("the room of this strip is refused")];
    let mut worst: f64 = 0.0;
    for manner in MANNERS {
        let mut results = vec![0.0; pairs.len()];
        lists.correlations(factors, manner.ours, &mut results, &mut work).expect("this strip is refused");
        let errors = results.iter().zip(&both).map(|(&x, &both)| error(x, all, both));
        worst = errors.fold(worst, f64::max);
    }
    worst
}

/// Seconds of a call for the bound.
fn time(lists: &Lists, factors: &[f64]) -> f64 {
    let mut call = || {
        let _ = black_box(lists.job().graph.error_bound(black_box(factors)));
    };
    least_times(&Rounds { least: 9, round: 0.001, total: 0.05 }, &mut [&mut call])[0]
}

pub fn print_accuracy() {
    println!("Errors of correlations beside their proved bound; u is 2^-53. Random signs, magnitudes 0.2 to 1 times beta, both manners.");
    println!();
    println!("| strip | vertices | window | beta | bound | bound, u | worst error, u | error / bound | its call, us |");
    println!("|---|---|---|---|---|---|---|---|---|");
    let (mut rng, mut largest) = (Rng::new(5), 0.0f64);
    for shape in shapes() {
        let pairs = drawn_pairs(&mut rng, &shape);
        let raw: Vec<(usize, usize, f64)> = shape.edges.iter().map(|e| (e.0, e.1, 1.0)).collect();
        let lists = Lists::new(shape.n, &raw, &pairs);
        for beta in BETAS {
            let factors = drawn_factors(&mut rng, &shape, beta);
            let bound = lists.job().graph.error_bound(&factors).expect("this strip is refused").expect("no bound is known");
            let worst = worst(&lists, &factors, &Reference::new(&shape, &factors), &pairs);
            largest = largest.max(worst / bound);
            let (name, n, window, units) = (&shape.name, shape.n, shape.window, bound / UNIT);
            let (ratio, us) = (worst / bound, 1e6 * time(&lists, &factors));
            println!("| {name} | {n} | {window} | {beta} | {bound:.1e} | {units} | {:.1} | {ratio:.5} | {us:.1} |", worst / UNIT);
            assert!(worst <= bound, "an answer is past its bound");
        }
    }
    println!();
    println!("largest error over bound: {largest:.5}");
}

#[cfg(test)]
mod tests {
    use super::*;

    #[test]
    fn the_settled_square() {
        let shape = strip(Kind::Square, 2, 2, false);
        let pairs = [(0, 1), (0, 3)];
        for (last, exact) in [(2.0, [(255.0, 353.0), (225.0, 353.0)]), (0.5, [(15.0, 34.0), (0.0, 1.0)])] {
            let (all, both) = Reference::new(&shape, &[2.0, 2.0, 2.0, last]).sums(&pairs);
            for (&both, (n, z)) in both.iter().zip(exact) {
                // 4 both z is (n + z) all
                let apart = both.times(Wide::of(4.0 * z)).apart(all.times(Wide::of(n + z)));
                assert!(apart.ratio(all) < 1e-70);
            }
            assert!(error(exact[0].0 / exact[0].1, all, both[0]) <= UNIT);
            assert!((error(0.25, all, both[0]) - (exact[0].0 / exact[0].1 - 0.25)).abs() < 1e-15);
        }
    }
}
