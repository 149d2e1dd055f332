//! Estimates of a mean square from sums over configurations.

use crate::call::call;
use crate::refusal::Refusal;

/// What a count of configurations and two sums estimate.
#[derive(Clone, Copy, Debug, PartialEq)]
pub enum Estimate {
    /// From two configurations on.
    Estimated {
        /// The mean square.
        mean: f64,
        /// Its standard error.
        error: f64,
    },
    /// One configuration has a mean and no error.
    TooFew {
        /// The mean square.
        mean: f64,
    },
}

/// Returns the estimate from the count of configurations and the sums of their squared correlations and of the fourth powers.
pub fn estimate(count: usize, squares: f64, fourths: f64) -> Result<Estimate, Refusal> {
    let (mut enough, mut mean, mut error) = (false, 0.0, 0.0);
    let number = call!(copperhook_estimate(count, squares, fourths; tell enough, mean, error));
    Refusal::told(number).map(|()| if enough { Estimate::Estimated { mean, error } } else { Estimate::TooFew { mean } })
}

/// Writes what each place of `squares` and `fourths` estimates: the mean square to `means` and its standard error to `errors`, which stays as it
/// was where the count is 1. Both have exactly as many doubles as there are sums of a kind.
pub fn estimates(count: usize, squares: &[f64], fourths: &[f64], means: &mut [f64], errors: &mut [f64]) -> Result<(), Refusal> {
    Refusal::told(call!(copperhook_estimates(count; read squares, fourths; write means, errors)))
}

/// What the totals of a complete enumeration tell. Every configuration is counted, so nothing was sampled.
#[derive(Clone, Copy, Debug, PartialEq)]
pub struct Complete {
    /// The mean square, the same as that of [`estimate`].
    pub mean: f64,
    /// +0.0: there is no sampling error.
    pub error: f64,
    /// How far the squares spread over configurations: the root of their mean square deviation from `mean`.
    pub spread: f64,
}

/// Returns what the totals of a complete enumeration tell, as [`Job::exhaustive`](crate::Job::exhaustive) leaves them; that they are complete is
/// the caller's word. The count is a power of two up to 2^34; 1 will do.
///
/// ```
/// use copperhook::{estimate_complete, Complete, Refusal};
///
/// assert_eq!(estimate_complete(2, 1.0, 1.0), Ok(Complete { mean: 0.5, error: 0.0, spread: 0.5 }));
/// assert_eq!(estimate_complete(3, 1.0, 1.0), Err(Refusal::Sums));
/// ```
pub fn estimate_complete(count: usize, squares: f64, fourths: f64) -> Result<Complete, Refusal> {
    let (mut mean, mut error, mut spread) = (0.0, 0.0, 0.0);
    let number = call!(copperhook_estimate_complete(count, squares, fourths; tell mean, error, spread));
    Refusal::told(number).map(|()| Complete { mean, error, spread })
}

/// Writes what each place of `squares` and `fourths`, the totals of a complete enumeration, tells: the mean square to `means`, +0.0 to `errors`
/// and the spread to `spreads`. Each has exactly as many doubles as there are sums of a kind.
pub fn estimates_complete(
    count: usize,
    squares: &[f64],
    fourths: &[f64],
    means: &mut [f64],
    errors: &mut [f64],
    spreads: &mut [f64],
) -> Result<(), Refusal> {
    Refusal::told(call!(copperhook_estimates_complete(count; read squares, fourths; write means, errors, spreads)))
}

/// Returns the square root of IEEE 754, as the library works it out. It takes every double; where there is no root it is a NaN.
pub fn sqrt(x: f64) -> f64 {
    call!(copperhook_sqrt(x))
}

#[cfg(test)]
mod tests {
    use super::*;

    /// The doubles' bits.
    fn bits(told: Complete) -> [u64; 3] {
        [told.mean, told.error, told.spread].map(f64::to_bits)
    }

    #[test]
    fn one_configuration_has_no_spread() {
        let told = |squares, fourths| bits(estimate_complete(1, squares, fourths).unwrap());
        assert_eq!(told(1.0, 1.0), [1.0, 0.0, 0.0].map(f64::to_bits));
        let square: f64 = 0.36;
        assert_eq!(told(square, square * square), [square, 0.0, 0.0].map(f64::to_bits));
        // a variance of -0.0 is a tie
        assert_eq!(told(0.0, -0.0), [0.0, 0.0, 0.0].map(f64::to_bits));
        assert_eq!(estimate(1, 1.0, 1.0), Ok(Estimate::TooFew { mean: 1.0 }));
    }

    #[test]
    fn counts_are_powers_of_two() {
        let accepted: Vec<usize> = (0..70).chain([1 << 34, (1 << 34) + 1, 1 << 35, 1 << 53, usize::MAX]).collect();
        let accepted: Vec<usize> = accepted.into_iter().filter(|&count| estimate_complete(count, 0.5, 0.25).is_ok()).collect();
        assert_eq!(accepted, [1, 2, 4, 8, 16, 32, 64, 1 << 34]);
    }

    #[test]
    fn columns_are_written_or_kept() {
        let (squares, fourths) = ([1.0, 2.0], [1.0, 2.0]);
        let mut columns = [[7.0; 2]; 3];
        let [means, errors, spreads] = &mut columns;
        assert_eq!(estimates_complete(3, &squares, &fourths, means, errors, spreads), Err(Refusal::Sums));
        assert_eq!(estimates_complete(2, &squares, &fourths[..1], means, errors, spreads), Err(Refusal::ListLengths));
        assert_eq!(estimates_complete(2, &squares, &fourths, means, errors, &mut spreads[..1]), Err(Refusal::Buffer));
        assert_eq!([*means, *errors, *spreads], [[7.0; 2]; 3]);
        assert_eq!(estimates_complete(2, &squares, &fourths, means, errors, spreads), Ok(()));
        assert_eq!(columns, [[0.5, 1.0], [0.0, 0.0], [0.5, 0.0]]);
    }
}
