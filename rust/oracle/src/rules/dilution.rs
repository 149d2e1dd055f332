//! Document 01's dilution of an edge list.

use crate::rng::Rng;

/// Returns the edges with drawn magnitudes, 0.0 where one is dropped: of two uniforms for each, the first decides whether it is kept, and the
/// second lies between the bounds.
pub fn drawn(raw: Vec<(usize, usize, f64)>, [keep, low, high]: [f64; 3], seed: u64) -> Vec<(usize, usize, f64)> {
    let mut rng = Rng::new(seed ^ 0xD11);
    let magnitude = |rng: &mut Rng| {
        let kept = rng.uniform() < keep;
        let magnitude = low + (high - low) * rng.uniform();
        if kept {
            magnitude
        } else {
            0.0
        }
    };
    raw.into_iter().map(|(a, b, _)| (a, b, magnitude(&mut rng))).collect()
}
