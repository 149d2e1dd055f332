//! Calls of `couplings`, accepted and refused, with what the call returns and leaves in its results.

use crate::spoils::{one_each, Spoil};
use oracle::lattice::Graph;
use oracle::rng::Rng;
use oracle::rules::lists::{Edges, Pairs};
use oracle::rules::refusals::{first, graph_refusal, unless};

/// What the results hold before a call.
const BEFORE: f64 = 9.0;

/// A call as a caller makes it; `results` is the number of results that are lent.
struct Call {
    n: u64,
    a: Vec<u64>,
    b: Vec<u64>,
    m: Vec<f64>,
    betas: Vec<f64>,
    results: usize,
}

impl Call {
    /// With as many results as are wanted.
    fn new(n: u64, edges: &[(u64, u64, f64)], betas: &[f64]) -> Call {
        let kept = edges.iter().filter(|e| e.2 != 0.0).count();
        Call {
            n,
            a: edges.iter().map(|e| e.0).collect(),
            b: edges.iter().map(|e| e.1).collect(),
            m: edges.iter().map(|e| e.2).collect(),
            betas: betas.to_vec(),
            results: betas.len() * kept,
        }
    }

    fn edges(&self) -> Edges {
        Edges::of_words(self.n, 0, [&self.a, &self.b], &self.m)
    }

    /// Checks 1 to 5 and 12.
    fn refusal(&self) -> u64 {
        let kept = self.m.iter().filter(|&&m| m != 0.0).count();
        let fits = || unless(self.results == self.betas.len() * kept, 12);
        first(graph_refusal(&self.edges(), &Pairs::default(), &self.betas), fits) as u64
    }

    /// The refusal's number, and the results after the call: beta times each magnitude of the original's graph, or what they held.
    fn outcome(&self) -> (u64, Vec<f64>) {
        if self.refusal() != 0 {
            return (self.refusal(), vec![BEFORE; self.results]);
        }
        let graph = Graph::new(self.n as usize, &self.edges().raw());
        (0, self.betas.iter().flat_map(|beta| graph.mag.iter().map(move |m| beta * m)).collect())
    }
}

/// The number of calls, and a record for each: n, the lengths of the four lists and of the results, the refusal's number, the lists, and the
/// results after the call.
pub fn couplings() -> Vec<u64> {
    let calls: Vec<Call> = accepted().into_iter().chain(refused()).collect();
    let mut list = vec![calls.len() as u64];
    for call in calls {
        let (number, results) = call.outcome();
        list.push(call.n);
        list.extend([call.a.len(), call.b.len(), call.m.len(), call.betas.len(), call.results].map(|k| k as u64));
        list.push(number);
        list.extend(call.a.iter().chain(&call.b));
        list.extend(call.m.iter().chain(&call.betas).chain(&results).map(|x| x.to_bits()));
    }
    list
}

/// Random graphs with zeros of either sign and subnormals among magnitudes and betas; no edge, no beta, and as many betas as there may be.
fn accepted() -> Vec<Call> {
    let smallest = f64::from_bits(1);
    let sizes = [0.0, -0.0, 1.0, -0.5, 1024.0, -1024.0, smallest, -smallest, f64::MIN_POSITIVE, 1.0 / 3.0];
    let mut source = Rng::new(20261118);
    let mut calls = vec![Call::new(1, &[], &[]), Call::new(1, &[], &[0.5]), Call::new(2, &[(1, 0, -0.0)], &[0.5])];
    for i in 0..80 {
        let n = 2 + source.next_u64() % 30;
        let mut edges: Vec<(u64, u64, f64)> = Vec::new();
        for _ in 0..source.next_u64() % (2 * n).min(24) {
            let (u, v, k) = (source.next_u64() % n, source.next_u64() % n, source.next_u64() % 20);
            let drawn = 2048.0 * source.uniform() - 1024.0;
            if u != v && !edges.iter().any(|e| (e.0, e.1) == (u, v) || (e.0, e.1) == (v, u)) {
                edges.push((u, v, *sizes.get(k as usize).unwrap_or(&drawn)));
            }
        }
        let mut beta = || {
            let (k, drawn) = (source.next_u64() % 20, 2.0 * source.uniform() - 1.0);
            *sizes.get(k as usize).unwrap_or(&drawn)
        };
        let mut betas: Vec<f64> = (0..i % 7).map(|_| beta()).collect();
        betas.sort_by(f64::total_cmp);
        betas.dedup();
        calls.push(Call::new(n, &edges, &betas));
    }
    let ramp: Vec<f64> = (0..64).map(|k| 32.0 * k as f64 - 1024.0).collect();
    calls.push(Call::new(1024, &[(1023, 0, 1024.0), (5, 6, 0.1), (7, 6, -1e-300)], &ramp));
    calls
}

/// Of the edges of the call to spoil, the one that is dropped, which joins what edge 0 joins.
const DROPPED: usize = 2;

const SPOILS: &[Spoil<Call>] = &[
    (1, |c| c.n = 0),
    (1, |c| c.n = 1025),
    (1, |c| c.n = u64::MAX),
    (2, |c| c.betas = vec![0.5; 65]),
    (2, |c| c.a.truncate(3)),
    (2, |c| c.b.truncate(3)),
    (2, |c| c.m.truncate(3)),
    (3, |c| c.a[0] = c.b[0]),
    (3, |c| c.b[1] = c.n),
    (3, |c| c.a[DROPPED] = u64::MAX),
    (4, |c| c.betas[0] = f64::NAN),
    (4, |c| c.betas[1] = f64::INFINITY),
    (4, |c| c.betas[2] = f64::NEG_INFINITY),
    (4, |c| c.betas[2] = f64::from_bits(1024f64.to_bits() + 1)),
    (4, |c| c.betas[0] = -1025.0),
    (4, |c| c.betas[1] = f64::MAX),
    (4, |c| c.m[3] = f64::INFINITY),
    (4, |c| c.m[DROPPED] = f64::NAN),
    (4, |c| c.m[0] = -1025.0),
    (21, |c| c.betas.swap(0, 1)),
    (21, |c| c.betas.swap(1, 2)),
    (21, |c| c.betas[1] = c.betas[0]),
    (21, |c| c.betas[2] = c.betas[1]),
    (21, |c| c.betas[1..].copy_from_slice(&[-0.0, 0.0])),
    (21, |c| c.betas[1..].copy_from_slice(&[0.0, -0.0])),
    (5, |c| c.m[DROPPED] = 1.0),
    (5, |c| (c.a[3], c.b[3]) = (c.b[1], c.a[1])),
    (12, |c| c.results += 1),
    (12, |c| c.results -= 1),
    (12, |c| c.results = 0),
    (12, |c| c.betas.truncate(2)),
    (12, |c| c.m[1] = 0.0),
];

/// A call that nothing refuses, with all of that done to it; the first number in the list's order is the one that is returned.
fn spoilt(spoils: &[Spoil<Call>]) -> Call {
    let mut call = Call::new(6, &[(0, 1, 1.0), (2, 1, -2.0), (1, 0, 0.0), (4, 5, 1024.0)], &[-1024.0, 0.25, 1024.0]);
    spoils.iter().rev().for_each(|spoil| spoil.1(&mut call));
    assert_eq!(call.refusal(), spoils[0].0);
    call
}

/// Nothing spoilt; every way to be refused alone, two numbers at once, and all from one on.
fn refused() -> Vec<Call> {
    let mut list = vec![Call::new(6, &[(0, 1, 1.0)], &[0.25])];
    list.extend(SPOILS.iter().map(|&spoil| spoilt(&[spoil])));
    let one_each = one_each(SPOILS);
    for (i, &first) in one_each.iter().enumerate() {
        list.extend(one_each[i + 1..].iter().map(|&second| spoilt(&[first, second])));
        list.push(spoilt(&one_each[i..]));
    }
    list
}
