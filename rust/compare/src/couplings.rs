//! Couplings: beta times magnitude, rounded once.

use crate::betas::{disorder, risen};
use crate::draw::Draw;
use crate::guarded::{equal, Guarded};
use crate::shapes::{any_graph, spoil_graph};
use copperhook::sys;
use oracle::rules::lists::Pairs;
use oracle::rules::refusals::{first, graph_refusal, unless};

/// Betas of any size, up to 64, mostly in rising order; now and then too many, or a bad one.
pub fn betas(draw: &mut Draw) -> Vec<f64> {
    let count = draw.of(&[0, 1, 2, 5, 5, 64]) + if draw.once_in(40) { 64 } else { 0 };
    let apart = draw.once_in(2);
    let mut betas: Vec<f64> = (0..count)
        .map(|_| {
            let any = draw.between(-1024.0, 1024.0);
            if apart {
                any
            } else {
                draw.of(&[0.44, any, 1024.0, -1024.0, 0.0, -0.0, 5e-324])
            }
        })
        .collect();
    if !draw.once_in(8) {
        betas = risen(betas);
    }
    if draw.once_in(12) {
        disorder(draw, &mut betas);
    }
    if !betas.is_empty() && draw.once_in(12) {
        let i = draw.below(betas.len());
        betas[i] = draw.no_magnitude();
    }
    betas
}

pub fn try_one(draw: &mut Draw) -> Result<usize, String> {
    let mut edges = any_graph(draw);
    for _ in 0..draw.of(&[0, 0, 0, 1, 2]) {
        spoil_graph(draw, &mut edges);
    }
    let betas = betas(draw);
    let all = edges.couplings(&betas);
    let wanted = all.len();
    let length = draw.of(&[wanted, wanted, wanted, wanted, wanted + 1, wanted.saturating_sub(1)]);
    let before = draw.held(length);
    let (a, b, m) = (Guarded::new(&edges.a), Guarded::new(&edges.b), Guarded::new(&edges.m));
    let (lent, mut results) = (Guarded::new(&betas), Guarded::new(&before));
    let number = unsafe {
        sys::copperhook_couplings(
            edges.n,
            a.pointer(),
            a.len(),
            b.pointer(),
            b.len(),
            m.pointer(),
            m.len(),
            lent.pointer(),
            lent.len(),
            results.pointer_mut(),
            length,
        )
    };
    let expected = first(graph_refusal(&edges, &Pairs::default(), &betas), || unless(length == wanted, 12));
    equal("answer", number, expected)?;
    results.holds("results", if expected == 0 { &all } else { &before })?;
    a.holds("a", &edges.a)?;
    b.holds("b", &edges.b)?;
    m.holds("m", &edges.m)?;
    lent.holds("betas", &betas)?;
    Ok(number)
}
