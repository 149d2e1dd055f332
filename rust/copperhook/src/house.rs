//! House factors: from a table of the library's instead of the host's `exp`, so that every machine gets the same bits.
//!
//! They are for couplings, beta times magnitude times sign, that are multiples of 1/128 from -4 to 4; any other is refused by
//! [`Refusal::Couplings`] and never rounded. [`Job::house_correlations`], [`Job::house_exhaustive`], [`Job::house_exhaustive_c`] and
//! [`Job::house_sample`] take them from the library's own table. [`TABLE`] has the same doubles for what else a host does with factors: error
//! bounds, digests, and calls that are lent them.

use crate::call::call_of_graph;
use crate::graph::Graph;
use crate::job::{Job, Sampling};
use crate::lists::Factors;
use crate::options::Options;
use crate::refusal::Refusal;

/// A coupling of size 1 has so many steps.
pub const STEPS: f64 = 128.0;
/// The largest size of a coupling.
pub const MOST: f64 = 4.0;
/// The steps of the largest coupling.
const MOST_STEPS: i32 = 512;

/// Entry i + 512 is the factor of the coupling i/128: the double nearest to the sum of (i/128)^k / k! for k from 0 to 40.
pub static TABLE: [f64; 1025] = {
    let mut table = [0.0; 1025];
    let mut i = 0;
    while i < table.len() {
        table[i] = nearest_double(series(i as i32 - MOST_STEPS));
        i += 1;
    }
    table
};

/// A whole number stands for itself over 2^112: with the 6 bits of e^4 and the 9 of 512 that fits 128 bits.
const PLACES: u32 = 112;

/// Returns 1 + x/1 (1 + x/2 (1 + .. (1 + x/40))) at x = i/128. Each quotient is cut off, so it is off by e^4 units at most.
const fn series(i: i32) -> u128 {
    let (one, size) = (1 << PLACES, i.unsigned_abs() as u128);
    let (mut sum, mut k) = (one, 40);
    while k > 0 {
        let more = sum * size / (128 * k);
        sum = if i < 0 { one - more } else { one + more };
        k -= 1;
    }
    sum
}

/// Returns the double nearest to what a whole number stands for. It does not build where the units that may be off could change it.
const fn nearest_double(x: u128) -> f64 {
    let shift = 128 - x.leading_zeros() - 53;
    let (digits, rest, half) = ((x >> shift) as u64, x % (1 << shift), 1 << (shift - 1));
    assert!(rest.abs_diff(half) > 55);
    let exponent = (1075 + shift - PLACES) as u64;
    // a sum of 2^53 goes over to the exponent
    f64::from_bits((exponent << 52) + digits - (1 << 52) + (rest > half) as u64)
}

/// Returns the factor of a coupling, `None` where it is not on the grid.
pub fn factor(coupling: f64) -> Option<f64> {
    // times a power of two, so exact, or infinite
    let steps = coupling * STEPS;
    let on_grid = steps.abs() <= f64::from(MOST_STEPS) && steps.trunc() == steps;
    on_grid.then(|| TABLE[(steps as i32 + MOST_STEPS) as usize])
}

/// Returns the coupling on the grid that is nearest to this one; of a NaN a NaN.
///
/// ```
/// assert_eq!([0.44, 1.0, -7.0].map(copperhook::house::nearest), [0.4375, 1.0, -4.0]);
/// ```
pub fn nearest(coupling: f64) -> f64 {
    (coupling.clamp(-MOST, MOST) * STEPS).round() / STEPS
}

impl Graph<'_> {
    /// Returns the house factors of the couplings at these betas, of either sign: what [`Graph::factors`] returns of the host's exponentials.
    /// A coupling off the grid is refused by [`Refusal::Couplings`].
    ///
    /// ```
    /// use copperhook::{house, Graph, Refusal};
    ///
    /// let graph = Graph::new(2, &[0], &[1], &[0.5]);
    /// assert_eq!(graph.house_factors(&[1.0])?.all, [house::TABLE[512 + 64], house::TABLE[512 - 64]]);
    /// assert_eq!(graph.house_factors(&[0.1]), Err(Refusal::Couplings));
    /// # Ok::<(), Refusal>(())
    /// ```
    pub fn house_factors(&self, betas: &[f64]) -> Result<Factors, Refusal> {
        self.factors_by(betas, |coupling| factor(coupling).ok_or(Refusal::Couplings))
    }
}

impl Job<'_> {
    /// As [`Job::correlations`], by house factors: from one coupling for each kept edge, beta times magnitude times sign.
    pub fn house_correlations(
        &self,
        couplings: &[f64],
        options: impl Into<Options>,
        results: &mut [f64],
        work: &mut [f64],
    ) -> Result<(), Refusal> {
        Refusal::told(call_of_graph!(copperhook_house_correlations(&self.graph, floor;
            read self.us, self.vs, couplings; with options.into().number(); write results, work)))
    }

    /// As [`Job::exhaustive`], by house factors: the couplings are beta times magnitude, rounded once, as [`Graph::couplings`] has them.
    pub fn house_exhaustive(
        &self,
        betas: &[f64],
        options: impl Into<Options>,
        squares: &mut [f64],
        fourths: &mut [f64],
        work: &mut [f64],
    ) -> Result<usize, Refusal> {
        let mut count = 0;
        let number = call_of_graph!(copperhook_house_exhaustive(&self.graph, floor;
            read self.us, self.vs, betas; with options.into().number(); write squares, fourths, work; tell count));
        Refusal::told(number).map(|()| count)
    }

    /// As [`Job::exhaustive_c`], by house factors.
    pub fn house_exhaustive_c(
        &self,
        betas: &[f64],
        options: impl Into<Options>,
        stored: &mut [f64],
        work: &mut [f64],
    ) -> Result<usize, Refusal> {
        let mut count = 0;
        let number = call_of_graph!(copperhook_house_exhaustive_c(&self.graph, floor;
            read self.us, self.vs, betas; with options.into().number(); write stored, work; tell count));
        Refusal::told(number).map(|()| count)
    }

    /// As [`Job::sample`], by house factors.
    pub fn house_sample(
        &self,
        betas: &[f64],
        options: impl Into<Options>,
        by: &Sampling,
        squares: &mut [f64],
        fourths: &mut [f64],
        work: &mut [f64],
    ) -> Result<usize, Refusal> {
        let mut count = 0;
        let number = call_of_graph!(copperhook_house_sample(&self.graph, floor;
            read self.us, self.vs, betas; with options.into().number(), by.seed, by.from, by.to, by.samples;
            write squares, fourths, work; tell count));
        Refusal::told(number).map(|()| count)
    }
}
