//! How far correlations and means can be from the exact ones, at the factors as they are lent. How far the factors are from the exponentials that they
//! stand for is in none of these bounds.

use crate::call::call_of_graph;
use crate::graph::Graph;
use crate::refusal::Refusal;

impl Graph<'_> {
    /// Returns how far each result of [`Job::correlations`](crate::Job::correlations), for this graph and these factors, can be from the exact
    /// correlation: the ratio of sums over all spin settings, without rounding. For all pairs, in either manner; nothing is swept for it.
    /// `None` where some factor is too far from one for a bound to be known.
    pub fn error_bound(&self, factors: &[f64]) -> Result<Option<f64>, Refusal> {
        let (mut known, mut bound) = (false, 0.0);
        let number = call_of_graph!(copperhook_error_bound(self, floor; read factors; tell known, bound));
        Refusal::told(number).map(|()| known.then_some(bound))
    }

    /// Returns the same of each correlation that [`Job::exhaustive`](crate::Job::exhaustive) and [`Job::sample`](crate::Job::sample) sum and
    /// [`Job::exhaustive_c`](crate::Job::exhaustive_c) stores, from both factors of each beta and kept edge.
    pub fn totals_error_bound(&self, betas: &[f64], factors: &[f64]) -> Result<Option<f64>, Refusal> {
        let (mut known, mut bound) = (false, 0.0);
        let number = call_of_graph!(copperhook_totals_error_bound(self, floor; read betas, factors; tell known, bound));
        Refusal::told(number).map(|()| known.then_some(bound))
    }
}

/// The smallest part that bounds are counted in.
const UNIT: f64 = 1.0 / (1u64 << 53) as f64;

/// From so many roundings on, twice as many units are taken, and not one more.
const MANY: u64 = 94_906_264;

/// Returns how far the mean of [`estimate`](crate::estimate()) can be from the exact mean square, where each correlation is within `bound`, as
/// [`Graph::totals_error_bound`] returns it, and the total has so many chunks of `size` configurations each. All configurations make chunks of
/// 1,024, fewer one. Of the standard error no bound is known.
pub fn mean_error_bound(bound: f64, chunks: u64, size: u64) -> f64 {
    let of_correlation = (bound / UNIT) as u64 - 1;
    let roundings = 2 * of_correlation + 2 + size + chunks;
    let units = if roundings <= MANY { roundings + 1 } else { 2 * roundings };
    units as f64 * UNIT
}
