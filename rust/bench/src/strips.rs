//! The strips that are measured.

use oracle::lattice::{Kind, Strip};

pub const KINDS: [Kind; 3] = [Kind::Square, Kind::Tri, Kind::Honey];

/// Returns the strip of this width with as many columns as give so many entries, `least` at least, and 1,024 vertices at most; `None` where there is none.
pub fn strip_of_entries(kind: Kind, w: usize, periodic: bool, entries: usize, least: usize) -> Option<Strip> {
    if kind == Kind::Honey && periodic && w % 2 == 1 {
        return None;
    }
    let window = if kind == Kind::Tri && periodic { w + 1 } else { w };
    if window > 24 {
        return None;
    }
    let l = (entries / (w << window)).clamp(least, 1024 / w);
    Some(Strip { kind, w, l, periodic })
}

/// Returns the cells of a strip in a table: kind, boundary, width, columns, window and vertices.
pub fn cells(strip: &Strip, window: usize) -> String {
    let Strip { kind, w, l, .. } = strip;
    format!("{} | {} | {w} | {l} | {window} | {}", kind.name(), strip.bc(), strip.n())
}
