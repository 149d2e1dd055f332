//! The generator.

use crate::sys;

/// xoshiro256++ seeded by splitmix64.
#[derive(Clone, Debug, PartialEq, Eq)]
pub struct Rng {
    /// Its four words.
    pub state: [u64; 4],
}

impl Rng {
    /// Returns the generator of a seed.
    pub fn new(seed: u64) -> Rng {
        let mut state = [0; 4];
        // SAFETY: four words, as the call writes.
        unsafe { sys::copperhook_rng_new(seed, state.as_mut_ptr()) };
        Rng { state }
    }

    /// Returns the generator of stream `index` of a seed.
    pub fn stream(seed: u64, index: u64) -> Rng {
        let mut state = [0; 4];
        // SAFETY: four words, as the call writes.
        unsafe { sys::copperhook_rng_stream(seed, index, state.as_mut_ptr()) };
        Rng { state }
    }

    /// Returns the next word.
    pub fn next_u64(&mut self) -> u64 {
        // SAFETY: four words, as the call reads and writes.
        unsafe { sys::copperhook_rng_next_u64(self.state.as_mut_ptr()) }
    }

    /// Returns the top 53 bits of the next word times 2^-53: from 0 up to, and without, 1.
    pub fn uniform(&mut self) -> f64 {
        // SAFETY: four words, as the call reads and writes.
        unsafe { sys::copperhook_rng_uniform(self.state.as_mut_ptr()) }
    }
}
