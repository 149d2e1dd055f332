//! Error bounds, against the words of their definition: whole numbers, powers of two and the bits of the factors.

use crate::betas::{disorder, risen};
use crate::draw::Draw;
use crate::guarded::{equal, Guarded};
use crate::shapes::{long_edge, short_edges, spoil_graph, swept_graph, Reach};
use copperhook::sys;
use oracle::rules::lists::{Edges, Pairs};
use oracle::rules::refusals::{factor_refusal, first, job_refusal};

/// A call as it is lent. One with betas is for totals, whose factors are of either sign.
struct Call {
    edges: Edges,
    betas: Option<Vec<f64>>,
    factors: Vec<f64>,
}

impl Call {
    fn betas(&self) -> &[f64] {
        self.betas.as_deref().unwrap_or(&[])
    }

    /// How many factors there should be.
    fn wanted(&self) -> usize {
        let kept = self.edges.kept().len();
        self.betas.as_ref().map_or(kept, |betas| 2 * betas.len() * kept)
    }

    fn told(&self) -> String {
        let (n, floor, edges) = (self.edges.n, self.edges.floor, self.edges.a.len());
        let betas = self.betas.as_ref().map_or("no totals".to_string(), |betas| format!("{} betas", betas.len()));
        format!("{n} vertices, floor {floor}, {edges} edges, {betas}, {} factors", self.factors.len())
    }

    fn refusal(&self) -> usize {
        first(job_refusal(&self.edges, &Pairs::default(), self.betas()), || factor_refusal(&self.factors, self.wanted()))
    }
}

/// The most back edges shorter than the window that a vertex has.
fn most_near(edges: &Edges) -> usize {
    let (window, kept) = (edges.window(), edges.kept());
    (0..edges.n).map(|t| kept.iter().filter(|e| e.1 == t && e.1 - e.0 < window).count()).max().unwrap_or(0)
}

/// The most binary digits that factors may have.
fn most_bits(window: usize, near: usize) -> u64 {
    let depth = |k: usize| k * (near + 1) * (2 * window + 8) + window + 57;
    (0..=52).take_while(|&k| depth(k) <= 1022).last().expect("no digits always fit") as u64
}

/// The bits of 2^k, from those of 1.0.
fn power(k: i64) -> u64 {
    ((1023 + k) as u64) << 52
}

/// Positive doubles are in the order of their bits.
fn is_near_one(x: f64, bits: u64) -> bool {
    (power(-(bits as i64))..=power(bits as i64)).contains(&x.to_bits())
}

/// So many units of 2^-53: the number's exponent is 53 less.
fn bound(n: usize, window: usize, near: usize) -> f64 {
    let units = 2 * (near + 5) * n + 2 * (1 << window) + 6;
    f64::from_bits((units as f64).to_bits() - (53 << 52))
}

/// The bound of a call that is not refused, where one is known.
fn expected(call: &Call) -> Option<f64> {
    let (window, near) = (call.edges.window(), most_near(&call.edges));
    let bits = most_bits(window, near);
    call.factors.iter().all(|&x| is_near_one(x, bits)).then(|| bound(call.edges.n, window, near))
}

pub fn try_one(draw: &mut Draw) -> Result<usize, String> {
    let mut call = sound(draw);
    for _ in 0..draw.of(&[0, 0, 0, 0, 1, 2]) {
        spoil(draw, &mut call);
    }
    compare(draw, &call).map_err(|why| format!("{}: {why}", call.told()))
}

fn sound(draw: &mut Draw) -> Call {
    let window = draw.of(&[1, 2, 3, 4, 6, 9, 14, 24]);
    let n = draw.of(&[1, 2, 8, 30, 30, 100, 1024]);
    let edges = swept_graph(draw, Reach { window, n });
    let count = draw.of(&[0, 1, 1, 2, 3, 64]);
    let betas = draw.once_in(2).then(|| risen((0..count).map(|_| draw.between(-2.0, 2.0)).collect()));
    let mut call = Call { edges, betas, factors: Vec::new() };
    call.factors = factors(draw, &call);
    call
}

/// Factors up to both ends of what a bound is known for; now and then one that is a unit past them, or any.
fn factors(draw: &mut Draw, call: &Call) -> Vec<f64> {
    let bits = most_bits(call.edges.window(), most_near(&call.edges)) as i64;
    let (least, most) = (power(-bits), power(bits));
    let style = draw.below(3);
    let mut factors: Vec<f64> = (0..call.wanted())
        .map(|_| match style {
            0 => draw.between(-1.0, 1.0).exp(),
            1 => f64::from_bits(least + draw.word() % (most - least + 1)),
            _ => f64::from_bits(draw.of(&[least, least, most, most, least + 1, most - 1, power(0)])),
        })
        .collect();
    if let Some(last) = factors.len().checked_sub(1) {
        if draw.once_in(2) {
            let (place, any) = (draw.of(&[0, last, odd_place(last)]), draw.factor());
            let past = [most + 1, least - 1, power(bits + 1), power(-bits - 1)].map(f64::from_bits);
            factors[place] = draw.of(&[past[0], past[1], past[0], past[1], past[2], past[3], any]);
        }
    }
    factors
}

/// An odd place, where there is one: a minus factor of totals.
fn odd_place(last: usize) -> usize {
    (last / 2) | usize::from(last > 0)
}

/// One thing that document 01 may refuse. The factors stay, so that there may then be too many or too few.
fn spoil(draw: &mut Draw, call: &mut Call) {
    match draw.below(13) {
        0..=3 => spoil_graph(draw, &mut call.edges),
        4 => call.edges.floor = draw.of(&[24, 25, 1 << 40, usize::MAX]),
        5 => long_edge(draw, &mut call.edges),
        6 => short_edges(draw, &mut call.edges),
        7 => call.factors.push(1.0),
        8 => drop(call.factors.pop()),
        9 | 10 => {
            if let Some(last) = call.factors.len().checked_sub(1) {
                call.factors[draw.within(0, last)] = draw.no_factor();
            }
        }
        11 => {
            if let Some(betas) = &mut call.betas {
                disorder(draw, betas);
            }
        }
        _ => {
            if let Some(betas) = &mut call.betas {
                betas.push(draw.no_magnitude());
                betas.resize(draw.of(&[1, 2, 64, 65]), 0.5);
            }
        }
    }
}

/// Makes the call and compares what it returns, and what it leaves in all that it is lent.
fn compare(draw: &mut Draw, call: &Call) -> Result<usize, String> {
    let [a, b] = [&call.edges.a, &call.edges.b].map(|list| Guarded::new(list));
    let [m, betas, factors] = [&call.edges.m[..], call.betas(), &call.factors].map(Guarded::new);
    let (known_before, bound_before) = (draw.once_in(2), draw.nan());
    let (mut known, mut told) = (Guarded::new(&[known_before]), Guarded::new(&[bound_before]));
    let number = unsafe {
        let (n, floor) = (call.edges.n, call.edges.floor);
        let (a, b, m) = ((a.pointer(), a.len()), (b.pointer(), b.len()), (m.pointer(), m.len()));
        let (s, f) = ((betas.pointer(), betas.len()), (factors.pointer(), factors.len()));
        let (k, e) = (known.pointer_mut(), told.pointer_mut());
        match call.betas {
            Some(_) => sys::copperhook_totals_error_bound(n, floor, a.0, a.1, b.0, b.1, m.0, m.1, s.0, s.1, f.0, f.1, k, e),
            None => sys::copperhook_error_bound(n, floor, a.0, a.1, b.0, b.1, m.0, m.1, f.0, f.1, k, e),
        }
    };
    let refusal = call.refusal();
    equal("answer", number, refusal)?;
    let (known_after, bound_after) = match (refusal, (refusal == 0).then(|| expected(call)).flatten()) {
        (0, Some(bound)) => (true, bound),
        (0, None) => (false, bound_before),
        _ => (known_before, bound_before),
    };
    known.holds("known", &[known_after])?;
    told.holds("bound", &[bound_after])?;
    a.holds("a", &call.edges.a)?;
    b.holds("b", &call.edges.b)?;
    m.holds("m", &call.edges.m)?;
    betas.holds("betas", call.betas())?;
    factors.holds("factors", &call.factors)?;
    Ok(number)
}

#[cfg(test)]
mod tests {
    use super::*;

    /// How many of some drawn calls are accepted and such.
    fn drawn_calls(such: fn(&Call) -> bool) -> usize {
        let calls = (0..2000).map(|job| sound(&mut Draw::new(3, 8, job)));
        calls.filter(|call| call.refusal() == 0 && such(call)).count()
    }

    /// Whether some factor, plus or minus, is one unit past an end, and all others are within.
    fn is_just_past(call: &Call, minus: bool) -> bool {
        let bits = most_bits(call.edges.window(), most_near(&call.edges)) as i64;
        let past: Vec<usize> = (0..call.factors.len()).filter(|&i| !is_near_one(call.factors[i], bits as u64)).collect();
        let unit = |x: f64| [power(bits) + 1, power(-bits) - 1].contains(&x.to_bits());
        past.len() == 1 && unit(call.factors[past[0]]) && (past[0] % 2 == 1) == minus
    }

    #[test]
    fn bounds_known_and_unknown_are_drawn() {
        for totals in [true, false] {
            let known: fn(&Call) -> bool = if totals { |c| c.betas.is_some() } else { |c| c.betas.is_none() };
            assert!(drawn_calls(known) > 500);
        }
        assert!(drawn_calls(|c| expected(c).is_some()) > 300 && drawn_calls(|c| expected(c).is_none()) > 300);
        assert!(drawn_calls(|c| c.betas.is_some() && is_just_past(c, true)) > 50);
        assert!(drawn_calls(|c| c.betas.is_some() && is_just_past(c, false)) > 50);
        assert!(drawn_calls(|c| most_near(&c.edges) == 4 && expected(c).is_some()) > 50);
    }

    #[test]
    fn the_condition_in_numbers() {
        for (window, bits) in [(4, 12), (8, 7), (10, 6), (12, 5), (16, 4), (20, 3), (24, 3)] {
            assert_eq!(most_bits(window, 4), bits);
        }
        assert_eq!((most_bits(1, 0), bound(1024, 10, 4)), (52, 20486.0 / (1u64 << 53) as f64));
    }
}
