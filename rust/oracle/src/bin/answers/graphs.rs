//! Graphs, accepted and refused, with the hash of what every graph entry returns and leaves.

use crate::hash::{mix, OFFSET};
use oracle::lattice::Graph;
use oracle::rng::Rng;
use oracle::rules::lists::{Edges, Pairs};
use oracle::rules::refusals::graph_refusal;

/// A graph as a caller lends it, pairs for its distances, and whether the buffers are one too short.
struct GraphJob {
    n: u64,
    a: Vec<u64>,
    b: Vec<u64>,
    m: Vec<f64>,
    pairs: Vec<(u64, u64)>,
    short: bool,
}

impl GraphJob {
    fn edges(&self) -> Edges {
        Edges::of_words(self.n, 0, [&self.a, &self.b], &self.m)
    }

    /// Checks 1 to 5.
    fn refusal(&self) -> u64 {
        graph_refusal(&self.edges(), &Pairs::default(), &[]) as u64
    }

    /// The original's graph, of a job that passed the checks.
    fn original(&self) -> Graph {
        Graph::new(self.n as usize, &self.edges().raw())
    }
}

/// A refusal's number, told from a value.
const REFUSED: u64 = 1 << 32;
const NOT_JOINED: u64 = 1 << 33;
/// What the buffers hold before the call.
const BEFORE: u64 = 9;

/// The words that a replay mixes: window, components, free edges; then, each with its buffers, the components' names, the bits of the edges, the kept
/// edges with their raw places, and the turned ones with theirs.
fn graph_hash(job: &GraphJob) -> u64 {
    let words = match job.refusal() {
        0 if job.short => short_words(&job.original()),
        0 => answered_words(&job.original(), &job.edges().places()),
        refusal => refused_words(refusal),
    };
    words.into_iter().fold(OFFSET, mix)
}

/// Buffers of three are as they were.
fn refused_words(refusal: u64) -> Vec<u64> {
    let mut words = vec![REFUSED + refusal; 3];
    words.extend([refusal, BEFORE, BEFORE, BEFORE]);
    words.extend([refusal, BEFORE, BEFORE, BEFORE]);
    for _ in 0..2 {
        words.extend([REFUSED + refusal, BEFORE, BEFORE, BEFORE]);
        words.extend([BEFORE; 3]);
        words.extend([(BEFORE as f64).to_bits(); 3]);
        words.extend([BEFORE; 3]);
    }
    words
}

/// Buffers that are one too short are as they were.
fn short_words(g: &Graph) -> Vec<u64> {
    let mut words = numbers(g);
    words.push(12);
    words.extend(vec![BEFORE; g.n - 1]);
    words.push(12);
    words.extend(vec![BEFORE; g.edges.len() - 1]);
    for _ in 0..2 {
        words.push(REFUSED + 12);
        words.extend(vec![BEFORE; 2 * (g.edges.len() - 1)]);
        words.extend(vec![(BEFORE as f64).to_bits(); g.edges.len() - 1]);
        words.extend(vec![BEFORE; g.edges.len() - 1]);
    }
    words
}

/// Buffers for edges are two too long; turning changes no place.
fn answered_words(g: &Graph, places: &[usize]) -> Vec<u64> {
    let mut words = numbers(g);
    words.push(0);
    words.extend(g.components().iter().map(|&c| c as u64));
    words.push(0);
    let mut bit = 0..;
    words.extend(g.spanning_forest().iter().filter_map(|&tree| if tree { Some(u64::MAX) } else { bit.next() }));
    for made in [g, &g.rotated()] {
        words.push(made.win as u64);
        words.extend(made.edges.iter().map(|e| e.0 as u64).chain([BEFORE; 2]));
        words.extend(made.edges.iter().map(|e| e.1 as u64).chain([BEFORE; 2]));
        words.extend(made.mag.iter().map(|m| m.to_bits()).chain([(BEFORE as f64).to_bits(); 2]));
        words.extend(places.iter().map(|&place| place as u64).chain([BEFORE; 2]));
    }
    words
}

/// The window, the components and the free edges.
fn numbers(g: &Graph) -> Vec<u64> {
    [g.win, g.n_components(), g.cyclomatic()].map(|x| x as u64).to_vec()
}

fn distance_word(job: &GraphJob, u: u64, v: u64) -> u64 {
    match job.refusal() {
        0 if u >= job.n || v >= job.n => REFUSED + 8,
        0 => match job.original().distance(u as usize, v as usize) {
            usize::MAX => NOT_JOINED,
            d => d as u64,
        },
        k => REFUSED + k,
    }
}

/// The number of jobs, and a record for each: n, the three lists' lengths, whether the buffers are short, the number of pairs, the lists, the pairs each with the
/// word of its distance, and the hash.
pub fn graphs() -> Vec<u64> {
    let jobs = graph_jobs();
    let mut list = vec![jobs.len() as u64];
    for job in jobs {
        list.extend([job.n, job.a.len() as u64, job.b.len() as u64, job.m.len() as u64, job.short as u64, job.pairs.len() as u64]);
        list.extend(&job.a);
        list.extend(&job.b);
        list.extend(job.m.iter().map(|m| m.to_bits()));
        for &(u, v) in &job.pairs {
            list.extend([u, v, distance_word(&job, u, v)]);
        }
        list.push(graph_hash(&job));
    }
    list
}

fn graph_jobs() -> Vec<GraphJob> {
    let mut jobs = random_graphs();
    jobs.extend(large_graphs());
    jobs.extend(refused_graphs());
    jobs.extend(short_buffers());
    jobs
}

/// Random graphs of 1 to 64 vertices, some magnitudes zero of either sign.
fn random_graphs() -> Vec<GraphJob> {
    let mut source = Rng::new(4242);
    let mut draw = |below: u64| source.next_u64() % below;
    let mut jobs = Vec::new();
    for i in 0..120u64 {
        let n = 1 + (i * 64) / 120 + draw(2).min(i);
        let mut edges = Vec::new();
        for _ in 0..draw(2 * n) {
            let (x, y) = (draw(n), draw(n));
            let magnitude = [0.0, -0.0, 1.0, -0.5, 1024.0, 0.25][draw(6) as usize];
            if x != y && !edges.iter().any(|&(p, q, _)| (p, q) == (x, y) || (p, q) == (y, x)) {
                edges.push((x, y, magnitude));
            }
        }
        let pairs = (0..4).map(|_| (draw(n), draw(n))).chain([(0, n), (n, 0), (u64::MAX, 0)]).collect();
        jobs.push(graph_job(n, &edges, pairs));
    }
    jobs
}

fn star() -> Vec<(u64, u64, f64)> {
    (0..1023).map(|v| (1023, v, 1.0)).collect()
}

/// A strip, a ring, a path and a star of 1,024 vertices.
fn large_graphs() -> Vec<GraphJob> {
    let inside = |&(v, u): &(u64, u64)| u < 1024 && (u != v + 1 || u % 32 != 0);
    let strip: Vec<(u64, u64, f64)> = (0..1024).flat_map(|v| [(v, v + 1), (v, v + 32)]).filter(inside).map(|(v, u)| (v, u, 1.0)).collect();
    let ring: Vec<(u64, u64, f64)> = (0..1024).map(|v| (v, (v + 1) % 1024, 2.0)).collect();
    vec![
        graph_job(1024, &strip, vec![(0, 1023), (5, 700), (1023, 1023)]),
        graph_job(1024, &ring, vec![(0, 512), (1, 1000)]),
        graph_job(1024, &ring[..1023], vec![(0, 1023), (1023, 0)]),
        graph_job(1024, &star(), vec![(0, 1), (0, 1023)]),
    ]
}

/// A triangle that nothing refuses.
const TRIANGLE: [(u64, u64, f64); 3] = [(0, 1, 1.0), (1, 2, 1.0), (0, 2, 0.5)];

fn with(edges: &[(u64, u64, f64)], n: u64) -> GraphJob {
    graph_job(n, edges, vec![(0, 1), (0, 9)])
}

/// Each refusal by itself, and several at once.
fn refused_graphs() -> Vec<GraphJob> {
    let in_place_of_last = |edge| with(&[&TRIANGLE[..2], &[edge]].concat(), 3);
    let besides = |more: &[(u64, u64, f64)]| with(&[&TRIANGLE[..], more].concat(), 3);
    let mut jobs: Vec<GraphJob> = [0, 1025, u64::MAX].map(|n| with(&TRIANGLE, n)).into();
    jobs.extend([(1, 1, 1.0), (0, 3, 1.0), (7, 1, 1.0), (u64::MAX, 0, 0.0), (2, 2, 0.0)].map(in_place_of_last));
    jobs.extend([f64::INFINITY, f64::NEG_INFINITY, 1024.0000000000002, -1025.0, f64::MAX].map(|bad| in_place_of_last((2, 0, bad))));
    jobs.extend([(1, 0, 1.0), (0, 1, -3.0), (2, 1, 0.1), (1, 0, 0.0)].map(|twice| besides(&[twice])));
    jobs.push(besides(&[(3, 0, 5000.0), (1, 0, 1.0)]));
    jobs.push(with(&[(0, 1, 5000.0), (1, 1, 1.0)], 3));
    jobs.push(with(&[(0, 1, 5000.0), (1, 0, 1.0)], 2));
    let cuts: [fn(&mut GraphJob); 3] = [|j| j.a.truncate(2), |j| j.b.truncate(2), |j| j.m.truncate(2)];
    for cut in cuts {
        let mut job = with(&TRIANGLE, 3);
        cut(&mut job);
        jobs.push(job);
    }
    jobs
}

/// Buffers one too short.
fn short_buffers() -> [GraphJob; 3] {
    let jobs = [with(&TRIANGLE, 3), with(&TRIANGLE[..1], 3), graph_job(1024, &star(), vec![])];
    jobs.map(|job| GraphJob { short: true, ..job })
}

fn graph_job(n: u64, edges: &[(u64, u64, f64)], pairs: Vec<(u64, u64)>) -> GraphJob {
    GraphJob {
        n,
        a: edges.iter().map(|e| e.0).collect(),
        b: edges.iter().map(|e| e.1).collect(),
        m: edges.iter().map(|e| e.2).collect(),
        pairs,
        short: false,
    }
}
