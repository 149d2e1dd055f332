//! Drawn calls for totals by house factors: betas and magnitudes whose products have some, and what spoils that.

use super::calls::{Call, MOST_MODELLED};
use super::drawing::{small, vast};
use crate::betas::risen;
use crate::draw::Draw;
use crate::exponentials::are_exponentials;
use oracle::rules::house;

/// Magnitudes that take a multiple of 1/128 to another.
const WHOLE: [f64; 4] = [1.0, -1.0, 2.0, -2.0];

/// Betas and magnitudes whose products are on the grid, or mostly: up to 4; thirds and tenths, which some magnitudes bring onto it by
/// rounding; such that underflow.
const PRODUCTS: [(&[f64], &[f64]); 3] = [
    (&[1.0, -1.0, 0.0078125, -0.0078125, -0.0], &[4.0, -4.0, 1.0, 3.9921875]),
    (&[1.0 / 3.0, -1.0 / 3.0, 2.0 / 3.0, 0.1], &[3.0, -3.0, 6.0, 1.5, 0.75]),
    (&[1e-200, -1e-200, 1e-300, 0.0], &[1e-200, -1e-200, 5e-324, 1e-130]),
];

/// A beta, and a magnitude, of some style: those that are whole, small or up to 4, or of the list.
fn beta(draw: &mut Draw, style: usize) -> f64 {
    match style {
        0 => draw.steps(96),
        1 => draw.steps(256),
        _ => draw.of(PRODUCTS[style - 2].0),
    }
}

fn magnitude(draw: &mut Draw, style: usize) -> f64 {
    draw.of(if style < 2 { &WHOLE } else { PRODUCTS[style - 2].1 })
}

/// A call that is not refused, but where rounding left the grid.
pub fn sound(draw: &mut Draw) -> Call {
    if draw.once_in(25) {
        return Call { house: true, ..vast(draw) };
    }
    let mut call = small(draw);
    // of many configurations the couplings are small, so that the original can be asked
    let style = if call.entries() > MOST_MODELLED { 0 } else { draw.of(&[0, 0, 1, 1, 2, 3, 4]) };
    call.betas = risen(call.betas.iter().map(|_| beta(draw, style)).collect());
    call.edges.m.iter_mut().filter(|m| **m != 0.0).for_each(|m| *m = magnitude(draw, style));
    Call { house: true, ..call }
}

/// A beta or a magnitude that takes couplings off the grid, or past its ends.
pub fn leave_grid(draw: &mut Draw, call: &mut Call) {
    let list = if draw.once_in(2) { &mut call.betas } else { &mut call.edges.m };
    if let Some(last) = list.len().checked_sub(1) {
        let place = draw.within(0, last);
        let beside = [list[place].next_up(), list[place].next_down(), list[place] + 1.0 / 256.0, 9.0 * list[place]];
        list[place] = draw.of(&[beside[0], beside[1], beside[2], beside[3], 0.1, 4.0078125, 1024.0, 5e-324]);
    }
}

/// Whether the original works with the table's factors, of either sign.
pub fn settle(call: &mut Call) {
    let couplings = call.edges.couplings(&call.betas);
    let on_grid = couplings.iter().all(|&x| house::place(x).is_some());
    let same = |minus: bool| {
        let signed: Vec<f64> = couplings.iter().map(|&x| if minus { -x } else { x }).collect();
        let factors: Vec<f64> = couplings.iter().map(|&x| house::factor(x, minus)).collect();
        are_exponentials(&factors, &signed)
    };
    call.exponentials = on_grid && same(false) && same(true);
}

#[cfg(test)]
mod tests {
    use super::*;
    use oracle::rules::configurations::Entry;
    use std::collections::HashSet;

    /// Some drawn calls that are accepted by the checks before the lists, and swept.
    fn swept() -> impl Iterator<Item = Call> {
        let calls = (0..4000).map(|job| sound(&mut Draw::new(3, 10, job)));
        calls.filter(|call| call.by_rules().refusal() == 0 && call.sums() > 0 && call.configurations() > 0)
    }

    /// How many of them are such.
    fn drawn_calls(such: impl Fn(&Call) -> bool) -> usize {
        swept().filter(such).count()
    }

    /// Whether the call has a coupling such.
    fn has(call: &Call, such: impl Fn(f64, f64, f64) -> bool) -> bool {
        let kept = call.edges.kept();
        call.betas.iter().any(|&beta| kept.iter().any(|e| such(beta, e.2, beta * e.2)))
    }

    #[test]
    fn every_kind_of_product_is_drawn() {
        for entry in [Entry::Enumerated, Entry::Stored, Entry::Sampled] {
            let drawn = |such: fn(f64, f64, f64) -> bool| drawn_calls(|call| call.entry == entry && has(call, such));
            assert!(drawn(|_, _, x| x.abs() == 4.0) >= 20, "at the ends");
            assert!(drawn(|beta, m, x| x == 0.0 && beta != 0.0 && m != 0.0) >= 20, "underflow");
            assert!(drawn(|beta, m, x| beta.abs() == 1.0 / 3.0 && m.abs() == 3.0 && x.abs() == 1.0) >= 5, "rounded onto the grid");
            assert!(drawn(|_, _, x| x.to_bits() == (-0.0f64).to_bits()) >= 20, "-0.0");
            assert!(drawn(|beta, m, _| (beta * 128.0).fract() == 0.0 && (m * 128.0).fract() == 0.0) >= 200, "exact");
            assert!(drawn_calls(|call| call.entry == entry && call.tester()) >= 100);
        }
        assert!(drawn_calls(|call| call.configurations() > 1024) >= 20);
        let entries: HashSet<i32> = swept().flat_map(|call| call.edges.couplings(&call.betas)).filter_map(house::place).collect();
        assert!(entries.len() > 700);
    }

    #[test]
    fn some_leave_the_grid() {
        let refused = |job: u64| {
            let mut draw = Draw::new(3, 10, job);
            let mut call = sound(&mut draw);
            leave_grid(&mut draw, &mut call);
            call.by_rules().refusal() == 23
        };
        assert!((0..1000).filter(|&job| refused(job)).count() > 300);
    }
}
