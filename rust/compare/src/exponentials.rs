//! Whether the original, which takes couplings, works with some factors.

/// Whether the factors are this host's exponentials of the couplings, bit for bit.
pub fn are_exponentials(factors: &[f64], couplings: &[f64]) -> bool {
    factors.iter().zip(couplings).all(|(factor, coupling)| factor.to_bits() == coupling.exp().to_bits())
}
