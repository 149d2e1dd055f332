//! The jobs of the list `correlations`, by groups.

use crate::correlation_refusals::refused;
use crate::correlations::{Job, Work};
use crate::strips::{all_strips, odd_cylinder};
use oracle::lattice::Strip;
use oracle::rng::Rng;

/// The most doubles of work memory that a replay lends, with some to spare.
const MOST_ROOM: u64 = 120_000;

type Edges = Vec<(u64, u64, f64)>;
type Pairs = Vec<(u64, u64)>;

struct Draw(Rng);

impl Draw {
    fn below(&mut self, n: u64) -> u64 {
        self.0.next_u64() % n
    }

    fn between(&mut self, low: f64, high: f64) -> f64 {
        low + (high - low) * self.0.uniform()
    }

    fn of<T: Copy>(&mut self, list: &[T]) -> T {
        list[self.below(list.len() as u64) as usize]
    }

    fn shuffle<T>(&mut self, list: &mut [T]) {
        for i in (1..list.len()).rev() {
            list.swap(i, self.below(i as u64 + 1) as usize);
        }
    }
}

pub fn jobs() -> Vec<Job> {
    let mut draw = Draw(Rng::new(1925));
    let groups = [strips(&mut draw), diluted(&mut draw), sparse(&mut draw), extremes(&mut draw), strong(&mut draw), refused()];
    groups.concat()
}

/// A job with one coupling for each kept edge; pairs are left out from the end on until the room is small enough.
pub fn job(n: u64, floor: u64, edges: &[(u64, u64, f64)], pairs: &[(u64, u64)], each: bool, mut coupling: impl FnMut(f64) -> f64) -> Job {
    let couplings: Vec<f64> = edges.iter().filter(|e| e.2 != 0.0).map(|e| coupling(e.2)).collect();
    let mut job = Job {
        n,
        floor,
        a: edges.iter().map(|e| e.0).collect(),
        b: edges.iter().map(|e| e.1).collect(),
        m: edges.iter().map(|e| e.2).collect(),
        us: pairs.iter().map(|p| p.0).collect(),
        vs: pairs.iter().map(|p| p.1).collect(),
        factors: couplings.iter().map(|j| j.exp()).collect(),
        couplings,
        each,
        results: pairs.len(),
        work: Work::Past(pairs.len() as u64 % 8),
    };
    while job.room() > MOST_ROOM {
        job.us.pop();
        job.vs.pop();
        job.results -= 1;
    }
    job
}

/// Every kind, free and periodic, of these sides.
fn strips_of(sides: &[(usize, usize)]) -> Vec<Strip> {
    all_strips(|w, l| sides.contains(&(w, l))).into_iter().filter(|s| !odd_cylinder(s)).collect()
}

fn standard_pairs(s: &Strip) -> Pairs {
    s.pairs().iter().map(|p| (p.1 as u64, p.2 as u64)).collect()
}

/// Strips of every kind with signs drawn, their standard pairs, both manners.
fn strips(draw: &mut Draw) -> Vec<Job> {
    let sides = [(1, 1), (1, 9), (2, 1), (2, 2), (2, 6), (3, 4), (4, 5), (5, 1), (6, 4), (7, 3), (8, 4), (9, 3), (10, 2), (11, 2)];
    let mut list = Vec::new();
    for s in strips_of(&sides) {
        let edges: Edges = s.raw_edges().iter().map(|&(a, b, m)| (a as u64, b as u64, m)).collect();
        for each in [false, true] {
            let beta = draw.of(&[0.2, 0.44, 1.0, 2.5]);
            list.push(job(s.n() as u64, 0, &edges, &standard_pairs(&s), each, |m| beta * m * draw.of(&[1.0, -1.0])));
        }
    }
    list
}

/// The original's diluted strips; an edge that it dropped has the magnitude +0.0 or -0.0.
fn diluted(draw: &mut Draw) -> Vec<Job> {
    let mut list = Vec::new();
    for s in strips_of(&[(1, 8), (2, 5), (3, 5), (4, 4), (6, 3), (8, 3)]) {
        let graph = s.diluted(draw.between(0.3, 1.0), 0.5, 1.5, draw.below(1 << 20));
        let mut magnitude = |a: usize, b: usize| match graph.edges.iter().position(|&e| e == (a.min(b), a.max(b))) {
            Some(e) => graph.mag[e],
            None => draw.of(&[0.0, -0.0]),
        };
        let edges: Edges = s.raw_edges().iter().map(|&(a, b, _)| (a as u64, b as u64, magnitude(a, b))).collect();
        let beta = draw.of(&[0.2, 0.44, 1.0, 2.5]);
        let each = draw.below(2) == 1;
        list.push(job(s.n() as u64, graph.win as u64, &edges, &standard_pairs(&s), each, |m| beta * m * draw.of(&[1.0, -1.0])));
    }
    list
}

/// Kept edges of lengths up to `longest`, at most four shorter than the window at a vertex; shuffled, ends turned, dropped ones among them:
/// longer ones too, and ones that join what a kept one joins.
fn sparse_edges(draw: &mut Draw, n: u64, longest: u64, floor: u64) -> Edges {
    let mut edges = Edges::new();
    for t in 1..n {
        let mut lengths: Vec<u64> = (1..longest.min(t + 1)).collect();
        draw.shuffle(&mut lengths);
        lengths.truncate(draw.below(5) as usize);
        if longest <= t && (floor <= longest || lengths.len() < 4) && draw.below(2) == 0 {
            lengths.push(longest);
        }
        edges.extend(lengths.iter().map(|d| (t - d, t, 0.0)));
    }
    for e in &mut edges {
        e.2 = draw.of(&[1.0, -1.0, 0.3, 1024.0, -1024.0, 5e-324]);
    }
    for _ in 0..if n > 1 { draw.below(4) } else { 0 } {
        let a = draw.below(n - 1);
        let b = a + 1 + draw.below(n - 1 - a);
        edges.push((a, b, draw.of(&[0.0, -0.0])));
    }
    draw.shuffle(&mut edges);
    for e in &mut edges {
        if draw.below(2) == 0 {
            *e = (e.1, e.0, e.2);
        }
    }
    edges
}

/// Pairs nearer than the window, at it and farther, ends in either order, some twice.
fn mixed_pairs(draw: &mut Draw, n: u64, window: u64, count: u64) -> Pairs {
    let mut pairs = Pairs::new();
    for _ in 0..if n > 1 { count } else { 0 } {
        let length = match draw.below(4) {
            0 => 1 + draw.below(window),
            1 => window,
            _ => 1 + draw.below(n - 1),
        };
        let length = length.min(n - 1);
        let u = draw.below(n - length);
        pairs.push(match draw.below(6) {
            0 if !pairs.is_empty() => draw.of(&pairs),
            1 | 2 => (u + length, u),
            _ => (u, u + length),
        });
    }
    pairs
}

/// Random graphs of every window up to 12 with floors at, below and above their longest edge.
fn sparse(draw: &mut Draw) -> Vec<Job> {
    let mut list = Vec::new();
    for i in 0..96 {
        let longest = 1 + i % 12;
        let n = 1 + draw.below(if longest < 9 { 40 } else { 24 });
        let floor = draw.of(&[0, 1, longest, (longest + 1).min(12), (longest + 3).min(12)]);
        let edges = sparse_edges(draw, n, longest, floor);
        let count = draw.below(16);
        let pairs = mixed_pairs(draw, n, floor.max(longest), count);
        list.push(job(n, floor, &edges, &pairs, i % 2 == 1, |_| draw.between(-1.5, 1.5)));
    }
    list
}

fn path(n: u64) -> Edges {
    (1..n).map(|v| (v - 1, v, 1.0)).collect()
}

/// As many edges as there may be, in a window of 5.
pub fn most_edges() -> Edges {
    let lengths = |t: u64| (1..=5).filter(move |&d| d <= t && (d < 5 || t < 15));
    (1..1024).flat_map(|t| lengths(t).map(move |d| (t - d, t, 1.0))).collect()
}

/// As few and as many vertices, edges and pairs as there may be, and the settled examples of document 01 that have a coupling.
fn extremes(draw: &mut Draw) -> Vec<Job> {
    let mut list = Vec::new();
    for each in [false, true] {
        let ln2 = 2f64.ln();
        for (n, floor, j, pair) in
            [(2, 0, ln2, (0, 1)), (2, 2, ln2, (0, 1)), (2, 1, -ln2, (0, 1)), (2, 1, 0.0, (0, 1)), (3, 1, ln2, (0, 2))]
        {
            list.push(job(n, floor, &[(0, 1, 1.0)], &[pair], each, |_| j));
        }
        for floor in [0, 2, 14] {
            list.push(job(1, floor, &[], &[], each, |_| 0.0));
            list.push(job(5, floor, &[], &[(0, 4), (4, 3), (1, 3)], each, |_| 0.0));
            list.push(job(5, floor, &path(5), &[], each, |_| 0.7));
        }
        list.push(job(9, 13, &path(9), &[(8, 0)], each, |_| draw.between(-1.5, 1.5)));
        list.push(job(17, 14, &path(17), &[(2, 16)], each, |_| draw.between(-1.5, 1.5)));
        let pairs = mixed_pairs(draw, 300, 3, 256);
        let edges = sparse_edges(draw, 300, 3, 0);
        list.push(job(300, 0, &edges, &pairs, each, |_| draw.between(-1.0, 1.0)));
        list.push(job(1024, 0, &path(1024), &[(0, 1023), (1023, 0), (511, 512), (1, 1022), (0, 1)], each, |_| draw.between(-3.0, 3.0)));
    }
    let pairs = mixed_pairs(draw, 1024, 5, 40);
    list.push(job(1024, 0, &most_edges(), &pairs, false, |_| draw.between(-1.0, 1.0)));
    list
}

/// Couplings up to the ends of what `exp` gives: sums overflow, underflow, or just do not.
fn strong(draw: &mut Draw) -> Vec<Job> {
    let mut list = Vec::new();
    let at_odds = |x: u64, y: u64| [(0, 1, 1.25), (0, x, -1.0), (1, x, 1.0), (0, y, -1.0), (1, y, 1.0)];
    for each in [false, true] {
        list.push(job(2, 0, &path(2), &[(0, 1)], each, |_| 5e307f64.ln()));
        list.push(job(3, 0, &path(2), &[(0, 2)], each, |_| 3e307f64.ln()));
        for j in [709.78, 709.0, 708.0, 400.0, -400.0, -708.0, -745.0] {
            list.push(job(2, 0, &path(2), &[(1, 0)], each, |_| j));
            list.push(job(9, 2, &path(9), &[(0, 8), (3, 4), (0, 2)], each, |_| j));
            list.push(job(9, 2, &path(9), &[], each, |_| j));
        }
        // what lies before the pair holds 0 and 1 alike, what lies after it holds them apart: forward times backward is 0.0 everywhere
        for j in [380.0, 350.0, 335.0, 300.0, 150.0] {
            list.push(job(6, 0, &at_odds(4, 5), &[(1, 2), (0, 2)], each, |m| m * j));
            list.push(job(6, 0, &at_odds(4, 5), &[(4, 5), (2, 0), (5, 0)], each, |m| m * j));
            list.push(job(13, 0, &at_odds(8, 12), &[(11, 12), (5, 4)], each, |m| m * j));
        }
    }
    for i in 0..80 {
        let longest = 1 + i % 5;
        let n = 2 + draw.below(14);
        let floor = draw.of(&[0, longest + 1]);
        let edges = sparse_edges(draw, n, longest, floor);
        let pairs = mixed_pairs(draw, n, floor.max(longest), 6);
        let most = [30.0, 90.0, 180.0, 350.0][i as usize / 5 % 4];
        let flat = draw.below(2) == 1;
        list.push(job(n, floor, &edges, &pairs, i % 2 == 1, |m| if flat { most * m.signum() } else { draw.between(-most, most) }));
    }
    list
}
