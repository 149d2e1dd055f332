//! Jobs for `correlations` that are spoilt, so that document 01 refuses them.

use crate::correlation_jobs::{job, most_edges};
use crate::correlations::{Job, Work};
use crate::spoils::{one_each, Spoil};

/// Of the edges of the job to spoil, the one that is dropped, which joins what edge 0 joins, and the last.
const DROPPED: usize = 3;
const LAST: usize = 6;

/// A job of window 6 that nothing refuses, to be spoilt.
fn sound_job(each: bool) -> Job {
    let edges = [(0, 1, 1.0), (2, 1, -2.0), (2, 3, 1024.0), (1, 0, 0.0), (3, 0, 0.5), (4, 3, 1.0), (5, 6, -1024.0)];
    job(8, 6, &edges, &[(0, 3), (7, 1), (6, 5)], each, |m| m.signum() * 0.5)
}

/// One more kept edge, with its factor.
fn link(j: &mut Job, u: u64, v: u64) {
    j.a.push(u);
    j.b.push(v);
    j.m.push(1.0);
    j.couplings.push(0.5);
    j.factors.push(0.5f64.exp());
}

fn links(j: &mut Job, v: u64, lengths: &[u64]) {
    lengths.iter().for_each(|d| link(j, v, v - d));
}

#[rustfmt::skip]
const SPOILS: &[Spoil<Job>] = &[
    (1, |j| j.n = 0),
    (1, |j| j.n = 1025),
    (1, |j| j.n = u64::MAX),
    (2, |j| j.vs.truncate(2)),
    (2, |j| j.us.truncate(2)),
    (2, |j| j.a.truncate(6)),
    (2, |j| j.b.truncate(6)),
    (2, |j| j.m.truncate(6)),
    (2, |j| j.us.push(0)),
    (2, |j| j.vs.push(0)),
    (2, |j| (j.us, j.vs, j.results) = (vec![0; 257], vec![1; 257], 257)),
    (3, |j| j.a[0] = j.b[0]),
    (3, |j| j.a[1] = j.n),
    (3, |j| j.b[LAST] = u64::MAX),
    (3, |j| j.b[DROPPED] = 1 << 63),
    (3, |j| j.a[DROPPED] = j.b[DROPPED]),
    (4, |j| j.m[1] = f64::INFINITY),
    (4, |j| j.m[LAST] = f64::NEG_INFINITY),
    (4, |j| j.m[DROPPED] = f64::NAN),
    (4, |j| j.m[0] = f64::from_bits(1024f64.to_bits() + 1)),
    (4, |j| j.m[0] = -1025.0),
    (4, |j| j.m[0] = f64::MAX),
    (5, |j| link(j, j.b[1], j.a[1])),
    (5, |j| link(j, j.a[2], j.b[2])),
    (5, |j| j.m[DROPPED] = -1e-300),
    (6, |j| j.floor = 25),
    (6, |j| j.floor = u64::MAX),
    (6, |j| { j.n = 40; links(j, 30, &[25]) }),
    (7, |j| links(j, 7, &[1, 2, 3, 4, 5])),
    (7, |j| { j.n = 20; j.floor = 17; links(j, 19, &[16, 2, 8, 1, 4]) }),
    (8, |j| j.us[0] = j.vs[0]),
    (8, |j| j.us[1] = 8),
    (8, |j| j.vs[2] = u64::MAX),
    (8, |j| j.us[1] = 1 << 63),
    (10, |j| j.factors.truncate(5)),
    (10, |j| j.factors.push(1.0)),
    (10, |j| j.factors.clear()),
    (10, |j| j.factors[0] = 0.0),
    (10, |j| j.factors[1] = -0.0),
    (10, |j| j.factors[1] = -1.0),
    (10, |j| j.factors[2] = f64::INFINITY),
    (10, |j| j.factors[2] = f64::NEG_INFINITY),
    (10, |j| j.factors[LAST - 1] = f64::NAN),
    (12, |j| j.results += 1),
    (12, |j| j.results -= 1),
    (12, |j| j.results = 0),
    (13, |j| j.work = Work::Lacking(1)),
    (13, |j| j.work = Work::Only(0)),
    (14, |j| { j.couplings.fill(709.0); j.factors.fill(709f64.exp()) }),
];

/// The sound job with all of that done to it; the first number in the list's order is the one that is returned.
fn spoilt(each: bool, spoils: &[Spoil<Job>]) -> Job {
    let mut job = sound_job(each);
    spoils.iter().rev().for_each(|spoil| spoil.1(&mut job));
    assert_eq!(job.outcome(0.25).0, spoils[0].0);
    job
}

/// Every way to be refused alone, two numbers at once, all from one on; and close calls.
pub fn refused() -> Vec<Job> {
    let mut list: Vec<Job> = SPOILS.iter().enumerate().map(|(i, &spoil)| spoilt(i % 2 == 1, &[spoil])).collect();
    let one_each = one_each(SPOILS);
    for (i, &first) in one_each.iter().enumerate() {
        list.extend(one_each[i + 1..].iter().map(|&second| spoilt(i % 2 == 1, &[first, second])));
        list.push(spoilt(i % 2 == 0, &one_each[i..]));
    }
    list.extend(close_calls());
    list
}

/// Jobs at the edge of a refusal, on either side.
fn close_calls() -> Vec<Job> {
    let alter = |change: fn(&mut Job)| {
        let mut job = sound_job(false);
        change(&mut job);
        job
    };
    #[rustfmt::skip]
    let mut list = vec![
        alter(|j| j.work = Work::Past(0)),
        alter(|j| links(j, 7, &[4, 2, 3, 1])),
        alter(|j| links(j, 7, &[6, 4, 2, 3, 1])),
        alter(|j| { links(j, 7, &[6, 4, 2, 3, 1]); j.floor = 7 }),
        alter(|j| { links(j, 7, &[5, 4, 2, 3, 1]); j.floor = 5 }),
        alter(|j| { j.floor = 24; j.work = Work::Only(1000) }),
        alter(|j| { j.n = 30; links(j, 29, &[24, 1, 2, 3, 4]); j.work = Work::Only(1000) }),
        alter(|j| { j.n = 30; links(j, 29, &[24, 1, 2, 3, 4, 23]); j.work = Work::Only(1000) }),
        alter(|j| { j.factors.fill(5e-324); j.work = Work::Lacking(1) }),
        alter(|j| { j.factors.fill(f64::MAX); j.work = Work::Lacking(1) }),
        alter(|j| { j.m[0] = 0.0; j.m[DROPPED] = 1024.0 }),
        alter(|j| { j.us.clear(); j.vs.clear(); j.results = 0 }),
        alter(|j| { j.us.clear(); j.vs.clear(); j.results = 1 }),
        alter(|j| { j.m.fill(0.0); j.couplings.clear(); j.factors.clear() }),
        alter(|j| { j.m.fill(-0.0); j.couplings.clear(); j.factors.truncate(1) }),
    ];
    // one vertex has neither edge nor pair
    let alone = |edges: &[(u64, u64, f64)], pairs: &[(u64, u64)]| Job { n: 1, ..job(2, 0, edges, pairs, true, |_| 0.0) };
    list.extend([alone(&[], &[]), alone(&[(0, 1, 1.0)], &[]), alone(&[], &[(0, 1)])]);
    // the first edge of the list is among those that are counted
    let five = [(7, 6, 1.0), (5, 7, 1.0), (4, 7, 1.0), (7, 3, 1.0), (2, 7, 1.0)];
    list.extend([5, 6].map(|floor| job(8, floor, &five, &[(0, 7)], true, |_| 0.5)));
    // one edge too many, though it is dropped
    let mut many = job(1024, 0, &most_edges(), &[(0, 1)], true, |_| 0.5);
    many.a.push(0);
    many.b.push(1);
    many.m.push(0.0);
    many.factors.clear();
    list.push(many);
    list
}
