//! The lattices that a strip can have.

use crate::call::call;
use crate::numbered::numbered;
use crate::sys;

numbered! {
    /// The lattice of a strip.
    pub enum Kind;

    /// Returns the lattice in words.
    pub fn lattice;

    Square = 0, "the square lattice";
    Triangular = 1, "the triangular lattice";
    Honeycomb = 2, "the honeycomb lattice";
    Eight = 3, "the square lattice with both diagonals";
}

impl Kind {
    /// Returns the kind that a name means, if it means one: square or sq, tri or triangular, honey, honeycomb or hex, eight.
    pub fn parse(name: &str) -> Option<Kind> {
        let mut kind = 0;
        let known = call!(copperhook_kind_parse(; read name; tell kind));
        known.then(|| Kind::from_number(kind).unwrap_or_else(|| unreachable!("the library returned {kind}, which is no kind")))
    }

    /// Returns "square", "tri", "honey" or "eight".
    pub fn name(self) -> String {
        // SAFETY: six bytes, as the call writes.
        short_name(|name| unsafe { sys::copperhook_kind_name(self.number(), name) })
    }
}

/// Returns a name of up to six bytes, of which `write` writes the bytes and returns the length.
pub(crate) fn short_name(write: impl FnOnce(*mut u8) -> usize) -> String {
    let mut bytes = [0; 6];
    let length = write(bytes.as_mut_ptr());
    String::from_utf8_lossy(&bytes[..length]).into_owned()
}
