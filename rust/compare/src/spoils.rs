//! What spoils a graph with pairs and betas.

use crate::betas::disorder;
use crate::draw::Draw;
use crate::shapes::{long_edge, short_edges, spoil_graph};
use oracle::rules::lists::{Edges, Pairs};

/// Of so many kinds a spoil may be.
pub const KINDS_OF_SPOILS: usize = 15;

/// One thing that the checks 1 to 8, or 21, may refuse, of this kind.
pub fn spoil_lent(draw: &mut Draw, kind: usize, edges: &mut Edges, pairs: &mut Pairs, betas: &mut Vec<f64>) {
    let n = edges.n;
    match kind {
        0..=3 => spoil_graph(draw, edges),
        4 => edges.floor = draw.of(&[12, 13, 24, 25, 1 << 40, usize::MAX]),
        5 => long_edge(draw, edges),
        6 => short_edges(draw, edges),
        7 => drop(if draw.once_in(2) { pairs.us.pop() } else { pairs.vs.pop() }),
        8 => *pairs = Pairs { us: vec![0; 257], vs: vec![n.wrapping_sub(1); 257] },
        9 | 10 => {
            if let Some(last) = pairs.us.len().min(pairs.vs.len()).checked_sub(1) {
                let i = draw.within(0, last);
                pairs.vs[i] = draw.of(&[n, usize::MAX, 1 << 63, pairs.us[i]]);
            }
        }
        11 => betas.resize(65, 0.5),
        12 => betas.push(draw.no_magnitude()),
        _ => disorder(draw, betas),
    }
}
