//! What each call is refused by: the number of the first check that fits, in document 01's order; 0 for accepted.

use super::complete::is_complete;
use super::configurations::Drawn;
use super::house::place;
use super::lists::{Edges, Pairs};
use std::collections::HashSet;

/// Returns the first of two numbers that refuses.
pub fn first(one: usize, other: impl FnOnce() -> usize) -> usize {
    if one != 0 {
        one
    } else {
        other()
    }
}

/// Returns 0 for a good call, else `number`.
pub fn unless(good: bool, number: usize) -> usize {
    if good {
        0
    } else {
        number
    }
}

fn sized(x: f64) -> bool {
    x.is_finite() && x.abs() <= 1024.0
}

/// Returns whether each number is less than every later one: document 02's words, not a comparison of neighbours.
pub fn rising(xs: &[f64]) -> bool {
    xs.iter().enumerate().all(|(i, x)| xs[i + 1..].iter().all(|y| x < y))
}

/// Checks 1 to 5, and 21 between 4 and 5, with the pairs and betas that the call has.
pub fn graph_refusal(edges: &Edges, pairs: &Pairs, betas: &[f64]) -> usize {
    let outside = |v: usize| v >= edges.n;
    let lengths = edges.a.len() == edges.b.len() && edges.b.len() == edges.m.len() && pairs.us.len() == pairs.vs.len();
    let few = edges.a.len() <= 4096 && pairs.us.len() <= 256 && betas.len() <= 64;
    let mut joined = HashSet::new();
    if edges.n == 0 || edges.n > 1024 {
        1
    } else if !lengths || !few {
        2
    } else if edges.raw().iter().any(|&(a, b, _)| a == b || outside(a) || outside(b)) {
        3
    } else if !edges.m.iter().chain(betas).all(|&x| sized(x)) {
        4
    } else if !rising(betas) {
        21
    } else if !edges.kept().iter().all(|&(a, b, _)| joined.insert((a, b))) {
        5
    } else {
        0
    }
}

/// The widest window and the most free edges of a call of the tester's.
pub const TESTER: (usize, usize) = (12, 16);

/// Checks 1 to 8 of a job.
pub fn job_refusal(edges: &Edges, pairs: &Pairs, betas: &[f64]) -> usize {
    call_refusal(edges, pairs, betas, false)
}

/// Checks 1 to 8 of a job, and right behind 6 the tester's limit of the window where the call is the tester's.
pub fn call_refusal(edges: &Edges, pairs: &Pairs, betas: &[f64], tester: bool) -> usize {
    first(graph_refusal(edges, pairs, betas), || {
        let window = edges.window();
        let mut near = vec![0; edges.n];
        for (a, b, _) in edges.kept() {
            near[b] += usize::from(b - a < window);
        }
        let bad_pair = |&(u, v): &(usize, usize)| u == v || u >= edges.n || v >= edges.n;
        if window > 24 {
            6
        } else if tester && window > TESTER.0 {
            22
        } else if near.iter().any(|&count| count > 4) {
            7
        } else if pairs.raw().iter().any(bad_pair) {
            8
        } else {
            0
        }
    })
}

/// Check 10, of so many factors.
pub fn factor_refusal(factors: &[f64], count: usize) -> usize {
    unless(factors.len() == count && factors.iter().all(|&x| x.is_finite() && x > 0.0), 10)
}

/// Check 23, in the place of 10 where a call takes house factors: of so many couplings.
pub fn coupling_refusal(couplings: &[f64], count: usize) -> usize {
    unless(couplings.len() == count && couplings.iter().all(|&x| place(x).is_some()), 23)
}

/// Check 11, of samples.
pub fn sampling_refusal(by: &Drawn) -> usize {
    unless(u128::from(by.to.saturating_sub(by.from)) * by.samples as u128 <= 1 << 32, 11)
}

/// Check 14, of one Z: whether it passes.
pub fn is_sound(z: f64) -> bool {
    z.is_finite() && z > 0.0
}

/// A strip as it is lent, and what a call does with it.
pub struct StripCall {
    pub kind: usize,
    pub w: usize,
    pub l: usize,
    pub periodic: bool,
    /// Whether the call makes the edges.
    pub with_edges: bool,
    /// Keep and the bounds of a dilution.
    pub dilution: Option<[f64; 3]>,
}

impl StripCall {
    /// Checks 15 and 16 of a strip, and 17 of a dilution.
    pub fn refusal(&self) -> usize {
        let honeycomb = ![0, 1, 3].contains(&self.kind);
        let odd_cylinder = honeycomb && self.periodic && self.w % 2 == 1;
        if self.w == 0 || self.l == 0 || self.w as u128 * self.l as u128 > 1024 {
            15
        } else if self.with_edges && odd_cylinder {
            16
        } else if self.dilution.is_some_and(|[keep, low, high]| !keep.is_finite() || !sized(low) || !sized(high)) {
            17
        } else {
            0
        }
    }
}

fn countable(count: usize) -> bool {
    (1..=1 << 53).contains(&count)
}

fn in_order(count: usize, squares: f64, fourths: f64) -> bool {
    0.0 <= fourths && fourths <= squares && squares <= count as f64
}

/// Check 18.
pub fn estimate_refusal(count: usize, squares: f64, fourths: f64) -> usize {
    unless(countable(count) && in_order(count, squares, fourths), 18)
}

/// Check 18 of a complete enumeration.
pub fn complete_refusal(count: usize, squares: f64, fourths: f64) -> usize {
    unless(is_complete(count) && in_order(count, squares, fourths), 18)
}

/// Checks 2, 12 and 18 of a sheet's columns.
pub fn column_refusal(count: usize, squares: &[f64], fourths: &[f64], columns: [usize; 2]) -> usize {
    let all_in_order = || squares.iter().zip(fourths).all(|(&s, &f)| in_order(count, s, f));
    first(unless(squares.len() == fourths.len(), 2), || {
        first(unless(columns == [squares.len(); 2], 12), || unless(countable(count) && all_in_order(), 18))
    })
}

/// The same of a complete enumeration's three columns.
pub fn complete_column_refusal(count: usize, squares: &[f64], fourths: &[f64], columns: [usize; 3]) -> usize {
    if squares.len() != fourths.len() {
        2
    } else if columns.iter().any(|&length| length != squares.len()) {
        12
    } else if !is_complete(count) || squares.iter().zip(fourths).any(|(&s, &f)| !in_order(count, s, f)) {
        18
    } else {
        0
    }
}
