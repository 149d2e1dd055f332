//! The estimate of a complete enumeration, as document 02 has it (L6).

/// A power of two up to 2^34: by halving.
pub fn is_complete(count: usize) -> bool {
    let mut left = count;
    while left > 1 && left.is_multiple_of(2) {
        left /= 2;
    }
    left == 1 && count <= 17_179_869_184
}

/// The mean, the error and the spread of sums that are accepted; each step is rounded once.
pub fn complete_estimate(count: usize, squares: f64, fourths: f64) -> [f64; 3] {
    let count = count as f64;
    let mean = squares / count;
    let (of_fourths, of_mean) = (fourths / count, mean * mean);
    let difference = of_fourths - of_mean;
    // +0.0 on a tie too
    let larger = if difference <= 0.0 { 0.0 } else { difference };
    [mean, 0.0, larger.sqrt()]
}

#[cfg(test)]
mod tests {
    use super::*;

    #[test]
    fn counts() {
        let complete: Vec<usize> = (0..1000).filter(|&count| is_complete(count)).collect();
        assert_eq!(complete, (0..10).map(|k| 1 << k).collect::<Vec<usize>>());
        assert_eq!([1 << 34, (1 << 34) - 1, 1 << 35, 1 << 63, usize::MAX].map(is_complete), [true, false, false, false, false]);
    }

    #[test]
    fn ties_and_the_order_of_the_steps() {
        let bits = |count, squares, fourths| complete_estimate(count, squares, fourths).map(f64::to_bits);
        assert_eq!(bits(1, 0.0, -0.0), [0.0; 3].map(f64::to_bits));
        assert_eq!(bits(2, -0.0, -0.0), [-0.0, 0.0, 0.0].map(f64::to_bits));
        assert_eq!(bits(2, 1.0, 1.0), [0.5, 0.0, 0.5].map(f64::to_bits));
        // three smallest values over 2 are two, less one is one; the difference before the quotient would be zero
        assert_eq!(complete_estimate(2, 5.3e-162, f64::from_bits(3))[2], 5e-324f64.sqrt());
    }
}
