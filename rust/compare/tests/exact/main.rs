//! Answers within their proved bounds, against exact fractions: jobs of up to 11 vertices with factors up to the ends of what a bound is known
//! for, and small strips of eight neighbours, which the original does not have. The worst error over its bound is printed. `cargo test --release --package compare --test exact -- 100000` takes as many jobs, and the
//! seed is from the clock then and printed; `COPPERHOOK_SEED=N` takes another.

mod sums;

use copperhook::{estimate, Estimate, ForestEdge, Graph, Job, Kind, Manner, Sampling, Strip};
use oracle::rng::Rng;
use oracle::rules::natural::Natural;
use oracle::rules::strips::eight_edges;
use std::time::{Instant, SystemTime, UNIX_EPOCH};
use sums::{parts, Sums};

const MANNERS: [Manner; 2] = [Manner::PerElement, Manner::Block];
/// Jobs without an argument, of correlations; those of totals are fewer.
const JOBS: u64 = 600;
const SEED: u64 = 20261116;
/// Strips of eight neighbours, of which the last has 1,024 configurations.
const EIGHT: [(usize, usize, bool); 5] = [(2, 2, false), (2, 2, true), (1, 4, true), (2, 3, false), (3, 2, true)];

struct Draw(Rng);

impl Draw {
    fn below(&mut self, n: usize) -> usize {
        (self.0.next_u64() % n as u64) as usize
    }

    fn within(&mut self, low: usize, high: usize) -> usize {
        low + self.below(high - low + 1)
    }
}

/// A graph that checks 1 to 7 pass: at most four edges back from a vertex that are shorter than the window, and one as long.
struct Shape {
    n: usize,
    window: usize,
    near: usize,
    edges: Vec<(usize, usize)>,
}

impl Shape {
    fn drawn(draw: &mut Draw, most: usize) -> Shape {
        let n = draw.within(2, most);
        let window = draw.within(1, n - 1);
        let (few, dense) = (draw.within(0, 4), draw.below(3) == 0);
        let (mut near, mut edges) = (0, Vec::new());
        for t in 1..n {
            let mut lengths: Vec<usize> = (1..window.min(t + 1)).collect();
            while lengths.len() > few || !lengths.is_empty() && !dense && draw.below(4) == 0 {
                lengths.swap_remove(draw.below(lengths.len()));
            }
            near = near.max(lengths.len());
            if window <= t && (t + 1 == n || draw.below(3) > 0) {
                lengths.push(window);
            }
            edges.extend(lengths.iter().map(|d| (t - d, t)));
        }
        Shape { n, window, near, edges }
    }

    /// A strip of eight neighbours, as the library lists it.
    fn eight(width: usize, length: usize, periodic: bool) -> Shape {
        let list = Strip { kind: Kind::Eight, width, length, periodic }.edge_list().unwrap();
        let edges: Vec<(usize, usize)> = list.a.into_iter().zip(list.b).collect();
        let of_02 = eight_edges(width, length, periodic);
        assert!(of_02.iter().map(|e| (e.0, e.1)).eq(edges.iter().copied()));
        let (n, window) = (width * length, edges.iter().map(|e| e.1 - e.0).max().unwrap());
        let near = (0..n).map(|v| edges.iter().filter(|e| e.1 == v && v - e.0 < window).count()).max().unwrap();
        Shape { n, window, near, edges }
    }

    /// The largest power of two that factors may be.
    fn bits(&self) -> i32 {
        (0..=52).rev().find(|k| k * (self.near + 1) * (2 * self.window + 8) + self.window + 57 <= 1022).unwrap() as i32
    }

    /// The bound, in units of 2^-53.
    fn units(&self) -> u64 {
        (2 * (self.near + 5) * self.n + (2 << self.window) + 6) as u64
    }

    fn pairs(&self) -> Vec<(usize, usize)> {
        (0..self.n).flat_map(|v| (0..v).map(move |u| (u, v))).collect()
    }

    /// So many factors: gentle, of every size that is allowed, or at the very ends.
    fn factors(&self, draw: &mut Draw, count: usize) -> Vec<f64> {
        let (bits, style) = (f64::from(self.bits()), draw.below(4));
        let (most, least) = (bits.exp2(), (-bits).exp2());
        let ends = [most, least, f64::from_bits(most.to_bits() - 1), f64::from_bits(least.to_bits() + 1), 1.0];
        let any = |draw: &mut Draw, size: f64| ((2.0 * draw.0.uniform() - 1.0) * size).exp2().clamp(least, most);
        (0..count)
            .map(|_| match style {
                0 => any(draw, 1.0),
                1 => any(draw, bits),
                2 => ends[draw.below(5)],
                _ => ends[draw.below(2)],
            })
            .collect()
    }
}

/// A shape as it is lent, for all its pairs.
struct Lists {
    n: usize,
    a: Vec<usize>,
    b: Vec<usize>,
    m: Vec<f64>,
    us: Vec<usize>,
    vs: Vec<usize>,
}

impl Lists {
    fn of(shape: &Shape) -> Lists {
        let (a, b): (Vec<usize>, Vec<usize>) = shape.edges.iter().copied().unzip();
        let (us, vs) = shape.pairs().into_iter().unzip();
        Lists { n: shape.n, m: vec![1.0; a.len()], a, b, us, vs }
    }

    fn job(&self) -> Job<'_> {
        Job { graph: Graph::new(self.n, &self.a, &self.b, &self.m), us: &self.us, vs: &self.vs }
    }
}

/// What was found so far.
#[derive(Default)]
struct Found {
    jobs: u64,
    answers: u64,
    worst: f64,
}

impl Found {
    fn take(&mut self, (ratio, within): (f64, bool), of: &str) {
        assert!(within, "{of}: the error is {ratio} of its bound");
        self.answers += 1;
        self.worst = self.worst.max(ratio);
    }

    fn say(&self, of: &str, start: Instant) {
        let (jobs, answers, seconds) = (self.jobs, self.answers, start.elapsed().as_secs_f64());
        println!("{of}: {jobs} jobs, {answers} answers, worst error over bound {:.4}, in {seconds:.1} s", self.worst);
        assert!(self.jobs > 0 && self.answers > 0 && self.worst > 0.0);
    }
}

/// That a bound is known up to the ends, and unknown one unit past them, at every place; its units are the definition's.
fn bound_is_told(shape: &Shape, factors: &[f64], told: impl Fn(&[f64]) -> Option<f64>) -> u64 {
    let units = shape.units();
    assert_eq!(told(factors), Some(units as f64 / (1u64 << 53) as f64));
    let most = 2f64.powi(shape.bits());
    for place in 0..factors.len() {
        for past in [f64::from_bits(most.to_bits() + 1), f64::from_bits((1.0 / most).to_bits() - 1)] {
            let mut factors = factors.to_vec();
            factors[place] = past;
            assert_eq!(told(&factors), None);
        }
    }
    units
}

/// An answer that is moved by 1.2 of its bound, to the side of the middle: that is to be seen, as no true error comes near the bound.
fn moved(x: f64, middle: f64, units: u64) -> f64 {
    let bound = 1.2 * units as f64 / (1u64 << 53) as f64;
    x + if x > middle { -bound } else { bound }
}

/// Every pair's correlation of a job, in both manners.
fn correlations(draw: &mut Draw, found: &mut Found) {
    let shape = Shape::drawn(draw, 11);
    let lists = Lists::of(&shape);
    let job = lists.job();
    let (factors, pairs) = (shape.factors(draw, shape.edges.len()), shape.pairs());
    let units = bound_is_told(&shape, &factors, |factors| job.graph.error_bound(factors).unwrap());
    let sums = Sums::of(shape.n, &shape.edges, &factors, &pairs);
    let mut work = vec![0.0; job.room().unwrap()];
    for manner in MANNERS {
        let mut results = vec![0.0; pairs.len()];
        job.correlations(&factors, manner, &mut results, &mut work).unwrap();
        for (i, &x) in results.iter().enumerate() {
            found.take(sums.error_over_bound(i, x, units), &format!("{:?} {factors:?} {:?} {manner:?}", shape.edges, pairs[i]));
            assert!(!sums.error_over_bound(i, moved(x, 0.0, units), units).1, "an answer past its bound was let through");
        }
    }
    found.jobs += 1;
}

/// The condition is not idle. Two triangles whose edges cannot all be satisfied meet at vertex 0, and the correlation of 0 and 1 is near 1/3.
/// Per element, with factors of 2^400, all settings in which the two agree are lost to underflow on the way back, and the answer is -1.
fn past_the_condition() {
    let edges = vec![(0, 1), (0, 2), (0, 3), (1, 3), (0, 4), (2, 4)];
    let shape = Shape { n: 5, window: 4, near: 2, edges };
    let (lists, pairs) = (Lists::of(&shape), [(0, 1)]);
    let job = Job { us: &[0], vs: &[1], ..lists.job() };
    let mut work = vec![0.0; job.room().unwrap()];
    let mut answered = |bits: i32| {
        let strong = 2f64.powi(bits);
        let factors = [strong, strong, strong, 1.0 / strong, strong, 1.0 / strong];
        let mut results = [0.0];
        job.correlations(&factors, Manner::PerElement, &mut results, &mut work).unwrap();
        let within = Sums::of(5, &shape.edges, &factors, &pairs).error_over_bound(0, results[0], shape.units()).1;
        (results[0], within, job.graph.error_bound(&factors).unwrap().is_some())
    };
    let (third, within, known) = answered(shape.bits());
    assert!((third - 1.0 / 3.0).abs() < 1e-12 && within && known);
    assert_eq!(answered(400), (-1.0, false, false));
}

/// Which configurations a total is of: the signs of each, true for minus, in chunks of one size.
struct Configurations {
    minus: Vec<Vec<bool>>,
    chunks: u64,
    size: u64,
}

impl Configurations {
    fn all(shape: &Shape, graph: &Graph) -> Configurations {
        let mut forest = vec![ForestEdge::Tree; shape.edges.len()];
        graph.spanning_forest(&mut forest).unwrap();
        let signs = |x: usize| forest.iter().map(|edge| edge.bit().is_some_and(|i| x >> i & 1 == 1)).collect();
        let count = 1 << graph.cyclomatic().unwrap();
        let size = count.min(1024);
        Configurations { minus: (0..count).map(signs).collect(), chunks: (count / size) as u64, size: size as u64 }
    }

    /// Few edges: one word has the signs of a sample.
    fn drawn(shape: &Shape, by: &Sampling) -> Configurations {
        let of_chunk = |chunk: u64| {
            let mut rng = Rng::stream(by.seed, chunk);
            (0..by.samples).map(move |_| rng.next_u64()).collect::<Vec<u64>>()
        };
        let signs = |word: u64| (0..shape.edges.len()).map(|e| word >> e & 1 == 1).collect();
        let minus = (by.from..by.to).flat_map(of_chunk).map(signs).collect();
        Configurations { minus, chunks: by.to - by.from, size: by.samples as u64 }
    }

    /// The bound of a mean, in units of 2^-53: one more than the roundings.
    fn mean_units(&self, units: u64) -> u64 {
        2 * (units - 1) + 2 + self.size + self.chunks + 1
    }
}

/// Binary places of an exact correlation where squares are added.
const PLACES: usize = 200;

/// The sums of the exact squares, from below, with twice as many places.
struct Squares(Vec<Natural>);

impl Squares {
    fn add(&mut self, sums: &Sums) {
        for (i, total) in self.0.iter_mut().enumerate() {
            let size = sums.size(i, PLACES);
            total.add(&size.times(&size));
        }
    }

    /// The error of a mean of so many over its bound, at most: each square is short of the exact one by less than 2^(1 - PLACES).
    fn error_over_bound(&self, pair: usize, mean: f64, count: u64, units: u64) -> (f64, bool) {
        assert!((0.0..=1.0).contains(&mean));
        let (digits, s) = parts(mean);
        let answered = Natural::new(digits).times(&Natural::new(count)).shifted(2 * PLACES);
        let mut error = answered.apart(&self.0[pair].shifted(s));
        error.add(&Natural::new(count).shifted(PLACES + 2 + s));
        let bound = Natural::new(units).times(&Natural::new(count)).shifted(2 * PLACES + s);
        (error.shifted(53).ratio(&bound), error.shifted(53) <= bound)
    }
}

/// A shape with at most so many free edges, and at least so many.
fn shape_with_free_edges(draw: &mut Draw, n: usize, least: usize, most: usize) -> Shape {
    loop {
        let shape = Shape::drawn(draw, n);
        let lists = Lists::of(&shape);
        if (least..=most).contains(&lists.job().graph.cyclomatic().unwrap()) {
            return shape;
        }
    }
}

/// What is stored in either manner.
fn stored_lists(job: &Job, factors: &[f64], length: usize) -> [Vec<f64>; 2] {
    MANNERS.map(|manner| {
        let (mut list, mut work) = (vec![0.0; length], vec![0.0; job.room().unwrap()]);
        job.exhaustive_c(&[1.0], factors, manner, &mut list, &mut work).unwrap();
        list
    })
}

/// The stored correlations of all configurations, and the mean squares of all and of drawn ones.
fn totals(draw: &mut Draw, shape: &Shape, [stored, means, drawn]: [&mut Found; 3]) {
    let lists = Lists::of(shape);
    let (job, beta, pairs) = (lists.job(), [1.0], shape.pairs());
    let factors = shape.factors(draw, 2 * shape.edges.len());
    let units = bound_is_told(shape, &factors, |factors| job.graph.totals_error_bound(&beta, factors).unwrap());
    let exact = |minus: &[bool]| {
        let signed: Vec<f64> = minus.iter().enumerate().map(|(e, &m)| factors[2 * e + usize::from(m)]).collect();
        Sums::of(shape.n, &shape.edges, &signed, &pairs)
    };
    let all = Configurations::all(shape, &job.graph);
    let count = all.minus.len();
    let by = Sampling { seed: draw.0.next_u64(), from: 3, to: 3 + draw.within(1, 3) as u64, samples: draw.within(1, 5) };
    let some = Configurations::drawn(shape, &by);
    let (mut squares, mut of_some) = (Squares(vec![Natural::new(0); pairs.len()]), Squares(vec![Natural::new(0); pairs.len()]));
    let mut work = vec![0.0; job.room().unwrap()];
    let each = stored_lists(&job, &factors, pairs.len() * count);
    for (x, minus) in all.minus.iter().enumerate() {
        let sums = exact(minus);
        squares.add(&sums);
        for list in &each {
            (0..pairs.len()).for_each(|p| stored.take(sums.error_over_bound(p, list[p * count + x], units), "stored"));
        }
    }
    some.minus.iter().for_each(|minus| of_some.add(&exact(minus)));
    for manner in MANNERS {
        let (mut s, mut f) = (vec![0.0; pairs.len()], vec![0.0; pairs.len()]);
        let counted = job.exhaustive(&beta, &factors, manner, &mut s, &mut f, &mut work).unwrap();
        take_means(means, &squares, (&s, &f), counted, all.mean_units(units));
        let counted = job.sample(&beta, &factors, manner, &by, &mut s, &mut f, &mut work).unwrap();
        take_means(drawn, &of_some, (&s, &f), counted, some.mean_units(units));
    }
    [stored, means, drawn].into_iter().for_each(|found| found.jobs += 1);
}

/// Every pair's mean square, from its sums of squares and of fourth powers.
fn take_means(found: &mut Found, exact: &Squares, (squares, fourths): (&[f64], &[f64]), count: usize, units: u64) {
    for p in 0..squares.len() {
        let mean = match estimate(count, squares[p], fourths[p]).unwrap() {
            Estimate::Estimated { mean, .. } | Estimate::TooFew { mean } => mean,
        };
        found.take(exact.error_over_bound(p, mean, count as u64, units), "mean");
        let wrong = moved(mean, 0.5, units);
        assert!(!exact.error_over_bound(p, wrong, count as u64, units).1, "a mean past its bound was let through");
    }
}

fn main() {
    past_the_condition();
    let asked = std::env::args().skip(1).find_map(|word| word.parse::<u64>().ok());
    let clock = || SystemTime::now().duration_since(UNIX_EPOCH).unwrap().as_nanos() as u64;
    let seed = match std::env::var("COPPERHOOK_SEED") {
        Ok(seed) => seed.parse().expect("COPPERHOOK_SEED is to be a number"),
        Err(_) => asked.map_or(SEED, |_| clock()),
    };
    let jobs = asked.unwrap_or(JOBS);
    println!("against exact fractions: seed {seed}");
    let mut draw = Draw(Rng::new(seed));
    let mut found = Found::default();
    let start = Instant::now();
    (0..jobs).for_each(|_| correlations(&mut draw, &mut found));
    found.say("correlations", start);
    let start = Instant::now();
    let [mut stored, mut means, mut drawn] = [Found::default(), Found::default(), Found::default()];
    for job in 0..jobs.div_ceil(6) {
        let (n, least, most) = if job % 50 == 0 { (7, 11, 11) } else { (6, 0, 6) };
        let shape = shape_with_free_edges(&mut draw, n, least, most);
        totals(&mut draw, &shape, [&mut stored, &mut means, &mut drawn]);
    }
    for (width, length, periodic) in EIGHT {
        let shape = Shape::eight(width, length, periodic);
        totals(&mut draw, &shape, [&mut stored, &mut means, &mut drawn]);
    }
    stored.say("stored correlations", start);
    means.say("mean squares of all configurations", start);
    drawn.say("mean squares of drawn configurations", start);
}
