//! The two manners of a sweep.

/// How often a sweep is rescaled, as the original's FDK_SLOW and as our manner.
#[derive(Clone, Copy)]
pub struct Manner {
    pub name: &'static str,
    pub slow: &'static str,
    pub ours: copperhook::Manner,
}

pub const BLOCK: Manner = Manner { name: "block", slow: "0", ours: copperhook::Manner::Block };
pub const EACH: Manner = Manner { name: "each", slow: "1", ours: copperhook::Manner::PerElement };
pub const MANNERS: [Manner; 2] = [BLOCK, EACH];
