//! Strips of every kind: edges, windows, pair sets, dilutions, and what document 01 refuses.

use crate::hash::{mix, OFFSET};
use oracle::lattice::{Kind, Strip};
use oracle::rules::dilution::drawn;
use oracle::rules::lists::Edges;
use oracle::rules::refusals::StripCall;

const KINDS: [Kind; 3] = [Kind::Square, Kind::Tri, Kind::Honey];

/// Strips of every kind, free and periodic, whose sides pass `wanted`; width before length.
pub fn all_strips(wanted: impl Fn(usize, usize) -> bool) -> Vec<Strip> {
    let mut list = Vec::new();
    for w in 1..=1024usize {
        for l in (1..=1024 / w).filter(|&l| wanted(w, l)) {
            for kind in KINDS {
                for periodic in [false, true] {
                    list.push(Strip { kind, w, l, periodic });
                }
            }
        }
    }
    list
}

pub fn odd_cylinder(s: &Strip) -> bool {
    s.kind == Kind::Honey && s.periodic && s.w % 2 == 1
}

/// A strip as one word: the kind's place, 256 for a cylinder, the width from bit 16 on and the length from bit 32 on.
fn packed(s: &Strip) -> u64 {
    let kind = KINDS.iter().position(|&k| k == s.kind).unwrap() as u64;
    kind | (s.periodic as u64) << 8 | (s.w as u64) << 16 | (s.l as u64) << 32
}

fn checksum(list: impl IntoIterator<Item = u64>) -> u64 {
    list.into_iter().fold(OFFSET, mix)
}

/// A record for each strip: the strip, the number of its edges and their checksum (ends and magnitude's bits), its window, the number of its
/// pairs, how many bytes their labels take with a zero after each, and their checksum (ends, then those bytes). A honeycomb cylinder of odd width
/// has no edges: three zeros.
pub fn strips() -> Vec<u64> {
    let large = [(1, 1024), (1024, 1), (2, 512), (512, 2), (3, 341), (341, 3), (16, 64), (31, 33), (32, 32)];
    let mut list = Vec::new();
    for s in all_strips(|w, l| w * l <= 64 || large.contains(&(w, l))) {
        list.push(packed(&s));
        if odd_cylinder(&s) {
            list.extend([0, 0, 0]);
        } else {
            let edges = s.raw_edges();
            list.push(edges.len() as u64);
            list.push(checksum(edges.iter().flat_map(|&(a, b, m)| [a as u64, b as u64, m.to_bits()])));
            list.push(s.graph().win as u64);
        }
        let pairs = s.pairs();
        let ends = pairs.iter().flat_map(|&(_, u, v)| [u as u64, v as u64]);
        let labels: Vec<u64> = pairs.iter().flat_map(|(label, _, _)| label.bytes().chain([0])).map(u64::from).collect();
        list.extend([pairs.len() as u64, labels.len() as u64]);
        list.push(checksum(ends.chain(labels)));
    }
    list
}

/// For each strip of at most nine vertices: the strip, the number of its edges, and their ends, whole.
pub fn strip_edges() -> Vec<u64> {
    let mut list = Vec::new();
    for s in all_strips(|w, l| w * l <= 9).iter().filter(|s| !odd_cylinder(s)) {
        let edges = s.raw_edges();
        list.extend([packed(s), edges.len() as u64]);
        list.extend(edges.iter().flat_map(|&(a, b, _)| [a as u64, b as u64]));
    }
    list
}

/// A record for each dilution: the strip, the seed, keep and the bounds; then the number of the kept edges, their checksum and the window; the
/// number of the strip's edges, and the checksum of the kept ones with their places among these for their earlier ends.
pub fn dilutions() -> Vec<u64> {
    #[rustfmt::skip]
    let numbers = [
        (0.5, 0.5, 1.5), (0.0, 0.5, 1.5), (1.0, 0.5, 1.5), (2.0, 0.0, 1.0), (-1.0, 0.0, 1.0), (0.9, 1.5, 0.5), (0.7, 1.0, 1.0), (0.3, -1024.0, 1024.0),
        (0.6, 0.0, 0.0), (1.0, -0.0, -0.0), (f64::MAX, 1e-300, 3e-300), (0.1, 0.1, 0.3),
    ];
    let sides = [(1, 1), (2, 2), (1, 7), (7, 1), (3, 4), (6, 5), (8, 8), (2, 60), (32, 32)];
    let seeds = [0, 1, 0xD11, u64::MAX];
    let mut list = Vec::new();
    for s in all_strips(|w, l| sides.contains(&(w, l))).iter().filter(|s| !odd_cylinder(s)) {
        for (i, &(keep, low, high)) in numbers.iter().enumerate() {
            let seed = seeds[(i + s.w + s.l) % seeds.len()];
            let g = s.diluted(keep, low, high, seed);
            list.extend([packed(s), seed, keep.to_bits(), low.to_bits(), high.to_bits(), g.edges.len() as u64]);
            list.push(checksum(g.edges.iter().zip(&g.mag).flat_map(|(&(a, b), m)| [a as u64, b as u64, m.to_bits()])));
            let raw = Edges::new(s.n(), &drawn(s.raw_edges(), [keep, low, high], seed));
            let placed = raw.places().into_iter().zip(&g.edges).zip(&g.mag);
            list.extend([g.win as u64, raw.m.len() as u64]);
            list.push(checksum(placed.flat_map(|((place, &(_, b)), m)| [place as u64, b as u64, m.to_bits()])));
        }
    }
    list
}

/// A record for each refusal or near miss: the call (0 edge list, 1 dilution, 2 pair set, 3 window), the kind, 1 for a cylinder, the sides, keep, the bounds, and the refusal's number.
pub fn strip_refusals() -> Vec<u64> {
    #[rustfmt::skip]
    let sides = [
        (0, 0), (0, 5), (5, 0), (u64::MAX, 0), (1, 1024), (1, 1025), (1024, 1), (1025, 1), (32, 32), (33, 31), (33, 32), (3, 341), (3, 342),
        (1 << 32, 1 << 32), (1 << 63, 2), (u64::MAX, u64::MAX), (u64::MAX, 1), (2, 1 << 63), (1, 1), (2, 3), (3, 3), (4, 2), (5, 4),
    ];
    let above = f64::from_bits(1024f64.to_bits() + 1);
    #[rustfmt::skip]
    let numbers = [
        [0.5, 0.5, 1.5], [f64::NAN, 0.5, 1.5], [f64::INFINITY, 0.5, 1.5], [f64::NEG_INFINITY, 0.5, 1.5], [f64::MAX, 0.5, 1.5], [0.5, f64::NAN, 1.5],
        [0.5, f64::NEG_INFINITY, 1.5], [0.5, -above, 1.5], [0.5, -1024.0, 1024.0], [0.5, 0.5, above], [0.5, 0.5, f64::NAN], [0.5, 0.5, f64::INFINITY],
    ];
    let mut list = Vec::new();
    for (w, l) in sides {
        for kind in 0..3 {
            for periodic in [false, true] {
                for call in 0..4 {
                    let tried = if call == 1 && w <= 3 && l <= 3 { &numbers[..] } else { &numbers[..1] };
                    for &[keep, low, high] in tried {
                        list.extend([call, kind, periodic as u64, w, l, keep.to_bits(), low.to_bits(), high.to_bits()]);
                        let (with_edges, dilution) = (call != 2, (call == 1).then_some([keep, low, high]));
                        let lent = StripCall { kind: kind as usize, w: w as usize, l: l as usize, periodic, with_edges, dilution };
                        list.push(lent.refusal() as u64);
                    }
                }
            }
        }
    }
    list
}
