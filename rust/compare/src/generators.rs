//! The generator: seeds, streams, words and uniforms in any order.

use crate::draw::Draw;
use crate::guarded::{equal, Guarded};
use copperhook::sys;
use oracle::rng::Rng;

/// A seed of any size, small ones too.
fn seed(draw: &mut Draw) -> u64 {
    let word = draw.word();
    let shift = draw.below(64);
    draw.of(&[word, word >> shift, 0, u64::MAX])
}

pub fn try_one(draw: &mut Draw) -> Result<usize, String> {
    let (seed, index) = (seed(draw), seed(draw));
    let mut state = Guarded::new(&[7u64; 4]);
    let mut original = if draw.once_in(2) {
        unsafe { sys::copperhook_rng_new(seed, state.pointer_mut()) };
        Rng::new(seed)
    } else {
        unsafe { sys::copperhook_rng_stream(seed, index, state.pointer_mut()) };
        Rng::stream(seed, index)
    };
    for i in 0..draw.within(1, 40) {
        if draw.once_in(2) {
            let word = unsafe { sys::copperhook_rng_next_u64(state.pointer_mut()) };
            equal(&format!("word {i} of seed {seed}, index {index}"), word, original.next_u64())?;
        } else {
            let value = unsafe { sys::copperhook_rng_uniform(state.pointer_mut()) };
            equal(&format!("uniform {i} of seed {seed}, index {index}"), value, original.uniform())?;
        }
    }
    state.untouched_around("state")?;
    Ok(0)
}
