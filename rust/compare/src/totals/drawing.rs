//! Drawn calls for totals, sound ones, and what spoils them.

use super::calls::Call;
use super::house::leave_grid;
use crate::betas::risen;
use crate::draw::Draw;
use crate::shapes::{pairs, swept_graph, Reach};
use crate::spoils::{spoil_lent, KINDS_OF_SPOILS};
use oracle::rules::configurations::{Drawn, Entry};
use oracle::rules::lists::Edges;

/// A job of few configurations; its factors are lent later.
pub fn small(draw: &mut Draw) -> Call {
    let entry = draw.of(&[Entry::Enumerated, Entry::Stored, Entry::Sampled]);
    let several_chunks = draw.once_in(30);
    let reach = match (entry, draw.below(6)) {
        _ if several_chunks => Reach { window: draw.within(3, 4), n: 16 },
        (Entry::Sampled, 0) => Reach { window: draw.within(1, 3), n: 90 },
        (_, 0) => Reach { window: draw.within(1, 7), n: 24 },
        _ => Reach { window: draw.within(1, 4), n: draw.within(1, 10) },
    };
    let mut edges = swept_graph(draw, reach);
    while several_chunks && edges.free().len() < 11 {
        edges = swept_graph(draw, reach);
    }
    if entry != Entry::Sampled {
        let most = if several_chunks { draw.within(11, 12) } else { draw.below(9) };
        drop_free_edges(draw, &mut edges, most);
    }
    let count = if several_chunks { draw.within(1, 2) } else { draw.of(&[0, 1, 2, 3, 6]) };
    let pairs = pairs(draw, edges.n, edges.window(), count);
    let betas = if several_chunks { (0..count).map(|_| gentle_beta(draw, &edges)).collect() } else { betas(draw, &edges) };
    let betas = risen(betas);
    let by = sampling(draw);
    Call {
        entry,
        edges,
        pairs,
        betas,
        factors: Vec::new(),
        house: false,
        exponentials: true,
        options: draw.options(),
        by,
        misfits: [0; 2],
        spare: draw.below(9) as isize,
    }
}

/// Magnitudes of free edges become zeros, so that no more than `most` are free.
fn drop_free_edges(draw: &mut Draw, edges: &mut Edges, most: usize) {
    for i in (0..edges.m.len()).rev() {
        let free = edges.free().len();
        if free <= most {
            return;
        }
        let magnitude = std::mem::replace(&mut edges.m[i], 0.0);
        if edges.free().len() == free {
            edges.m[i] = magnitude;
        } else {
            edges.m[i] = draw.of(&[0.0, -0.0]);
        }
    }
}

/// One such that couplings are small.
fn gentle_beta(draw: &mut Draw, edges: &Edges) -> f64 {
    let largest = edges.m.iter().fold(1.0, |size: f64, m| size.max(m.abs()));
    draw.between(-1.4, 1.4) / largest
}

/// Up to four betas, mostly such.
fn betas(draw: &mut Draw, edges: &Edges) -> Vec<f64> {
    let style = draw.below(8);
    (0..draw.within(0, 4))
        .map(|_| match style {
            0 => draw.of(&[0.44, 1.0, -1.0, 0.0, -0.0]),
            1 => 500.0 * gentle_beta(draw, edges),
            2 => 150.0 * gentle_beta(draw, edges),
            _ => gentle_beta(draw, edges),
        })
        .collect()
}

/// Few samples of few chunks: from zero on, above it, at the end of all; none where the end is not above the start, or of no sample.
fn sampling(draw: &mut Draw) -> Drawn {
    let any = draw.word();
    let from = draw.of(&[0, 0, 1, 7, 1 << 32, any, u64::MAX - 3]);
    let to = match draw.below(8) {
        0 => draw.of(&[0, from, from.saturating_sub(1), from / 2]),
        _ => from.saturating_add(draw.within(1, 4) as u64),
    };
    let samples = draw.of(&[0, 1, 2, 3, 9, 20]);
    let to = if samples == 0 && draw.once_in(2) { u64::MAX } else { to };
    Drawn { seed: draw.word(), from, to, samples }
}

/// More configurations than could be swept, at the ends of what is allowed, or as many as the tester may have and more; mostly with no pair or no beta, so that there is nothing to sweep.
pub fn vast(draw: &mut Draw) -> Call {
    let entry = draw.of(&[Entry::Enumerated, Entry::Stored, Entry::Sampled]);
    let options = draw.options();
    let free = match entry {
        _ if draw.once_in(3) => draw.within(16, 17),
        Entry::Stored => draw.within(23, 26),
        _ => draw.within(33, 36),
    };
    let mut edges = Edges { n: 2 * (free + 1), ..Edges::default() };
    for x in 0..=free {
        edges.push(2 * x, 2 * x + 1, 0.5);
        if x < free {
            edges.push(2 * x, 2 * x + 2, 0.5);
            edges.push(2 * x + 1, 2 * x + 3, 0.5);
        }
    }
    let (count, most) = draw.of(&[(0, 0), (0, 3), (2, 0), (2, 0), (0, 1), (2, 1)]);
    let pairs = pairs(draw, edges.n, 2, count);
    let betas = [0.5, 0.75, 1.0][..most].to_vec();
    let (to, samples) = draw.of(&[
        (1 << 32, 1),
        ((1 << 32) + 1, 1),
        (1, 1 << 32),
        (1, (1 << 32) + 1),
        (1 << 16, 1 << 16),
        (u64::MAX, 0),
        (u64::MAX, 1),
        (u64::MAX, usize::MAX),
        (2, 1 << 63),
        (0, usize::MAX),
    ]);
    let by = Drawn { seed: draw.word(), from: 0, to, samples };
    Call { entry, edges, pairs, betas, factors: Vec::new(), house: false, exponentials: true, options, by, misfits: [0; 2], spare: 0 }
}

/// One thing of the graph, the pairs, the betas or the samples that document 01 may refuse.
pub fn spoil_job(draw: &mut Draw, call: &mut Call) {
    match draw.below(KINDS_OF_SPOILS + 1) {
        KINDS_OF_SPOILS => {
            (call.by.from, call.by.to, call.by.samples) =
                draw.of(&[(0, u64::MAX, 1), (5, 1 << 33, 1), (u64::MAX - 1, u64::MAX, usize::MAX)])
        }
        kind => spoil_lent(draw, kind, &mut call.edges, &mut call.pairs, &mut call.betas),
    }
}

/// The exponentials of the couplings, of either sign; now and then any doubles that are factors.
pub fn lend_factors(draw: &mut Draw, call: &mut Call) {
    let kept = call.edges.kept();
    call.exponentials = !draw.once_in(12);
    for beta in &call.betas {
        for e in &kept {
            let coupling = beta * e.2;
            let signed = [coupling.exp(), (-coupling).exp()];
            call.factors.extend(if call.exponentials { signed } else { [draw.factor(), draw.factor()] });
        }
    }
}

/// One thing of the factors or couplings, the result lists or the work memory that documents 01 and 02 may refuse.
pub fn spoil_lists(draw: &mut Draw, call: &mut Call) {
    match draw.below(8) {
        0..=2 if call.house => leave_grid(draw, call),
        0 => spoil_factors(draw, call, |draw, factors| {
            if let Some(last) = factors.len().checked_sub(1) {
                factors[draw.within(0, last)] = draw.no_factor();
            }
        }),
        1 => spoil_factors(draw, call, |_, factors| factors.truncate(factors.len().saturating_sub(1))),
        2 => spoil_factors(draw, call, |_, factors| factors.push(1.0)),
        3 => call.misfits[0] = draw.of(&[-1, 1, 5]),
        4 => call.misfits[1] = draw.of(&[-1, 1, 5]),
        5 => call.spare = draw.of(&[-1, -1, -2, -1000]),
        _ => (),
    }
}

/// The factors are then no exponentials any more, also where two spoils give them back their length.
fn spoil_factors(draw: &mut Draw, call: &mut Call, spoil: fn(&mut Draw, &mut Vec<f64>)) {
    spoil(draw, &mut call.factors);
    call.exponentials = false;
}
