//! Version three of the module, byte for byte as published (NOTICE names its repository and commit): `glass`, `lattice` and `rng`. `rules` is
//! ours: what documents 01 and 02 say of a call, for comparisons.

// The published files are not altered: their warnings and their layout stay.
#[allow(warnings)]
#[rustfmt::skip]
pub mod glass;
#[allow(warnings)]
#[rustfmt::skip]
pub mod lattice;
#[allow(warnings)]
#[rustfmt::skip]
pub mod rng;

pub mod rules;
