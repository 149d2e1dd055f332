//! What the records of `correlations` and `totals` share.

/// What results and work memory hold before a call, by turns.
pub const BEFORE: [f64; 5] = [0.25, f64::NAN, f64::NEG_INFINITY, -0.0, 1e300];

/// Returns the bits of a double, with one pattern for every NaN.
pub fn bits(x: f64) -> u64 {
    if x.is_nan() {
        0x7ff8_0000_0000_0000
    } else {
        x.to_bits()
    }
}
