//! The calls of the list `totals`, by groups.

use crate::correlation_jobs::job;
use crate::correlations::{Job, Work};
use crate::spoils::{one_each, Spoil};
use crate::totals::{call, Call};
use oracle::lattice::{Kind, Strip};
use oracle::rules::configurations::{Drawn, Entry};

const ENTRIES: [Entry; 3] = [Entry::Enumerated, Entry::Stored, Entry::Sampled];
/// Two chunks above zero.
const SOME: Drawn = Drawn { seed: 11, from: 5, to: 7, samples: 6 };

type Pairs = [(u64, u64)];

pub fn calls() -> Vec<Call> {
    [few_free_edges(), many_configurations(), samplings(), nothing_to_sweep(), refused()].concat()
}

/// A strip whose magnitudes differ, free edges past so many dropped.
fn strip_job(strip: &Strip, free: usize, pairs: &Pairs, each: bool) -> Job {
    let tree = strip.graph().spanning_forest();
    let mut seen = 0;
    let mut edges: Vec<(u64, u64, f64)> = Vec::new();
    for (e, &(a, b, _)) in strip.raw_edges().iter().enumerate() {
        seen += usize::from(!tree[e]);
        let m = if !tree[e] && seen > free { [0.0, -0.0][e % 2] } else { [1.0, -0.75, 1.5][e % 3] };
        edges.push((a as u64, b as u64, m));
    }
    let floor = strip.graph().win as u64;
    job(strip.n() as u64, floor, &edges, pairs, each, |_| 0.0)
}

fn strip(kind: Kind, w: usize, l: usize, periodic: bool) -> Strip {
    Strip { kind, w, l, periodic }
}

const PAIRS: [(u64, u64); 3] = [(0, 1), (8, 0), (3, 5)];
const BETAS: [f64; 3] = [-0.25, 0.44, 1.0];

/// Every entry with 0 to 8 free edges, from none to three betas and pairs, both manners.
fn few_free_edges() -> Vec<Call> {
    let strips = [strip(Kind::Square, 3, 5, false), strip(Kind::Tri, 3, 3, true), strip(Kind::Honey, 4, 5, true)];
    let mut list = Vec::new();
    for free in 0..=8 {
        for (i, entry) in ENTRIES.into_iter().enumerate() {
            for each in [false, true] {
                let turn = free + i + each as usize;
                let most = if entry == Entry::Stored && free > 4 { 1 } else { 3 };
                let (pairs, betas) = (&PAIRS[..(turn % 4).min(most)], &BETAS[..((turn / 2 + 1) % 4).min(most)]);
                list.push(call(entry, strip_job(&strips[turn % 3], free, pairs, each), betas, SOME));
            }
        }
    }
    list
}

/// Several chunks of 1,024 configurations, and as many stored as fit.
fn many_configurations() -> Vec<Call> {
    let job_of = |free, pairs: &Pairs, each| strip_job(&strip(Kind::Tri, 3, 6, false), free, pairs, each);
    let mut list = vec![call(Entry::Stored, job_of(11, &[(0, 9)], false), &[0.6], SOME)];
    for free in 9..=12 {
        list.extend([false, true].map(|each| call(Entry::Enumerated, job_of(free, &PAIRS[..2], each), &[0.3, 0.9], SOME)));
    }
    list.push(call(Entry::Stored, job_of(9, &[(2, 4)], true), &[0.6], SOME));
    list
}

/// Chunks from zero on, above it, at the end of all; no chunk, no sample; over 64 kept edges.
fn samplings() -> Vec<Call> {
    let ranges = [(0, 1), (0, 3), (2, 3), (1 << 40, (1 << 40) + 2), (u64::MAX - 2, u64::MAX), (4, 4), (9, 3), (u64::MAX, 0), (0, u64::MAX)];
    let mut list = Vec::new();
    for (i, (from, to)) in ranges.into_iter().enumerate() {
        let samples = if to == u64::MAX && from == 0 { 0 } else { 1 + 3 * (i % 3) };
        let job = strip_job(&strip(Kind::Square, 2, 6, true), 99, &PAIRS[..2], i % 2 == 1);
        list.push(call(Entry::Sampled, job, &BETAS[..2], Drawn { seed: i as u64, from, to, samples }));
    }
    for each in [false, true] {
        let job = strip_job(&strip(Kind::Tri, 3, 12, true), 99, &[(0, 35), (3, 4)], each);
        list.push(call(Entry::Sampled, job, &[0.7], Drawn { seed: u64::MAX, from: 0, to: 2, samples: 3 }));
    }
    list
}

/// A strip with so many free edges, up to 36.
fn with_free(free: usize, pairs: &Pairs) -> Job {
    strip_job(&strip(Kind::Tri, 4, 7, false), free, pairs, false)
}

/// As many free edges and samples as there may be, and one more, with no pair or no beta; a call with both lacks work memory.
fn nothing_to_sweep() -> Vec<Call> {
    let mut list = Vec::new();
    for (entry, free) in [(Entry::Enumerated, 34), (Entry::Enumerated, 35), (Entry::Stored, 24), (Entry::Stored, 25), (Entry::Sampled, 35)]
    {
        list.push(call(entry, with_free(free, &[]), &[0.5], SOME));
        list.push(call(entry, with_free(free, &PAIRS), &[], SOME));
    }
    let mut swept = call(Entry::Enumerated, with_free(34, &PAIRS), &[0.5], SOME);
    swept.job.work = Work::Lacking(1);
    list.push(swept);
    for (to, samples) in
        [(1 << 32, 1), ((1 << 32) + 1, 1), (1, 1 << 32), (1 << 16, 1 << 16), (u64::MAX, 0), (u64::MAX, usize::MAX), (2, 1 << 63)]
    {
        let drawn = Drawn { seed: 3, from: 0, to, samples };
        list.push(call(Entry::Sampled, strip_job(&strip(Kind::Square, 2, 3, false), 2, &PAIRS[..1], true), &[], drawn));
    }
    for entry in ENTRIES {
        let none = |n: u64, pairs: &Pairs| job(n, 0, &[], pairs, false, |_| 0.0);
        list.extend([call(entry, none(1, &[]), &[0.5], SOME), call(entry, none(9, &PAIRS), &[0.5], SOME)]);
    }
    list
}

/// Of the edges of the job to spoil, the one that is dropped, which joins what edge 0 joins.
const DROPPED: usize = 3;

/// A call of window 4 and one free edge that nothing refuses, to be spoilt.
fn sound_call(entry: Entry, each: bool) -> Call {
    let edges = [(0, 1, 1.0), (2, 1, -1.5), (2, 0, 1.0), (1, 0, 0.0), (3, 0, 0.5), (4, 3, 1.0)];
    call(entry, job(8, 4, &edges, &[(0, 3), (7, 1)], each, |_| 0.0), &[-0.25, 0.5], SOME)
}

/// One more kept edge, and the factors anew.
fn link(c: &mut Call, u: u64, v: u64) {
    c.job.a.push(u);
    c.job.b.push(v);
    c.job.m.push(1.0);
    c.lend_factors();
}

/// Past the job's vertices, more free edges than any entry takes: three of each vertex.
fn many_free_edges(c: &mut Call) {
    let first = c.job.n;
    c.job.n += 18;
    for v in first + 4..c.job.n {
        for d in 1..=4 {
            c.job.a.push(v - d);
            c.job.b.push(v);
            c.job.m.push(1.0);
        }
    }
    c.lend_factors();
}

const SPOILS: &[Spoil<Call>] = &[
    (1, |c| c.job.n = 0),
    (1, |c| c.job.n = 1025),
    (2, |c| c.job.vs.truncate(1)),
    (2, |c| c.job.us.push(0)),
    (2, |c| c.job.a.truncate(5)),
    (2, |c| c.job.b.truncate(5)),
    (2, |c| c.job.m.truncate(5)),
    (2, |c| c.betas = vec![0.5; 65]),
    (2, |c| (c.job.us, c.job.vs) = (vec![0; 257], vec![1; 257])),
    (3, |c| c.job.a[0] = c.job.b[0]),
    (3, |c| c.job.b[1] = c.job.n),
    (3, |c| c.job.a[DROPPED] = u64::MAX),
    (4, |c| c.job.m[1] = f64::INFINITY),
    (4, |c| c.job.m[DROPPED] = f64::NAN),
    (4, |c| c.betas[0] = f64::NAN),
    (4, |c| c.betas[1] = f64::NEG_INFINITY),
    (4, |c| c.betas[1] = f64::from_bits(1024f64.to_bits() + 1)),
    (4, |c| c.betas[0] = -1025.0),
    (21, |c| c.betas.swap(0, 1)),
    (21, |c| c.betas[1] = c.betas[0]),
    (21, |c| c.betas = vec![-0.0, 0.0]),
    (21, |c| c.betas = vec![0.0, -0.0]),
    (5, |c| c.job.m[DROPPED] = -1e-300),
    (5, |c| link(c, c.job.b[1], c.job.a[1])),
    (6, |c| c.job.floor = 25),
    (6, |c| c.job.floor = u64::MAX),
    (7, |c| {
        c.job.floor = 6;
        (1..=5).for_each(|d| link(c, 7, 7 - d))
    }),
    (8, |c| c.job.us[0] = c.job.vs[0]),
    (8, |c| c.job.us[1] = 1 << 40),
    (8, |c| c.job.vs[1] = u64::MAX),
    (9, many_free_edges),
    (10, |c| c.job.factors.truncate(19)),
    (10, |c| c.job.factors.push(1.0)),
    (10, |c| c.job.factors.clear()),
    (10, |c| c.job.factors[0] = 0.0),
    (10, |c| c.job.factors[1] = -0.0),
    (10, |c| c.job.factors[2] = -1.0),
    (10, |c| c.job.factors[3] = f64::INFINITY),
    (10, |c| c.job.factors[19] = f64::NAN),
    (11, |c| (c.drawn.from, c.drawn.to, c.drawn.samples) = (0, u64::MAX, usize::MAX)),
    (11, |c| (c.drawn.from, c.drawn.to, c.drawn.samples) = (9, (1 << 32) + 10, 1)),
    (12, |c| c.lengths[0] += 1),
    (12, |c| c.lengths[0] -= 1),
    (12, |c| c.lengths[0] = 0),
    (13, |c| c.job.work = Work::Lacking(1)),
    (13, |c| c.job.work = Work::Only(0)),
    (14, |c| c.job.factors.iter_mut().skip(1).step_by(2).for_each(|x| *x = 5e-324)),
    (14, |c| {
        c.betas[1] = 700.0;
        c.lend_factors();
        c.job.factors.iter_mut().for_each(|x| *x = x.clamp(1e-300, 1e300))
    }),
];

/// Whether an entry gives this number: samples have no limit of free edges, and nothing else has samples.
fn concerns(entry: Entry, number: u64) -> bool {
    number != if entry == Entry::Sampled { 9 } else { 11 }
}

/// The sound call with all of that done to it; the first number in the list's order is the one that is returned.
fn spoilt(entry: Entry, each: bool, spoils: &[Spoil<Call>]) -> Option<Call> {
    let mut call = sound_call(entry, each);
    spoils.iter().rev().for_each(|spoil| spoil.1(&mut call));
    let all_concern = spoils.iter().all(|spoil| concerns(entry, spoil.0));
    assert!(!all_concern || call.outcome(0.25).refusal == spoils[0].0, "not refused by {}", spoils[0].0);
    all_concern.then_some(call)
}

/// Every way to be refused alone, two numbers at once, all from one on, the entries by turns; and a second list of another length.
fn refused() -> Vec<Call> {
    let mut list: Vec<Call> = ENTRIES.iter().flat_map(|&entry| [false, true].map(|each| sound_call(entry, each))).collect();
    for (i, &spoil) in SPOILS.iter().enumerate() {
        let entries = if [9, 11, 14].contains(&spoil.0) { &ENTRIES[..] } else { &ENTRIES[i % 3..][..1] };
        list.extend(entries.iter().filter_map(|&entry| spoilt(entry, i % 2 == 1, &[spoil])));
    }
    let one_each = one_each(SPOILS);
    for (i, &first) in one_each.iter().enumerate() {
        for (j, &second) in one_each.iter().enumerate().skip(i + 1) {
            list.extend(ENTRIES.iter().cycle().skip(i + j).take(3).find_map(|&entry| spoilt(entry, i % 2 == 1, &[first, second])));
        }
    }
    for entry in [Entry::Enumerated, Entry::Sampled] {
        let mut short = sound_call(entry, false);
        short.lengths[1] -= 1;
        list.push(short);
    }
    list
}
