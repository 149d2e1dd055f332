//! The graph of a diluted strip: the original's edges, magnitudes and window, and each edge's place in the strip's edge list.

use super::{dilution, drawn_edges, Numbers, BEFORE};
use crate::draw::Draw;
use crate::graphs::over;
use crate::guarded::{equal, same, Guarded};
use copperhook::sys;
use oracle::rules::lists::Edges;
use oracle::rules::refusals::{first, unless};

/// What the lists and references are to hold at their fronts.
#[derive(Default)]
struct Expected {
    early: Vec<usize>,
    late: Vec<usize>,
    mag: Vec<f64>,
    raw: Vec<usize>,
    window: usize,
}

/// By the original or, of a kind that it has not, by its graph of the drawn edges, whose window is then at least the strip's.
fn expected(s: &Numbers, by: [f64; 3], seed: u64) -> Result<Expected, String> {
    let edges = drawn_edges(s, by, seed)?;
    let graph = s.diluted(by, seed, &edges);
    let (early, late) = graph.edges.iter().copied().unzip();
    let raw = Edges::new(graph.n, &edges).places();
    Ok(Expected { early, late, mag: graph.mag, raw, window: graph.win.max(s.window()) })
}

/// `front` at the front of `before`, where the call was accepted.
fn held<T: Copy>(accepted: bool, front: &[T], before: &[T]) -> Vec<T> {
    if accepted {
        over(front, before)
    } else {
        before.to_vec()
    }
}

pub fn diluted_graph(draw: &mut Draw, s: &Numbers) -> Result<usize, String> {
    let (by, seed) = (dilution(draw), draw.word());
    let refusal = s.refusal(true, Some(by));
    let graph = if refusal == 0 { expected(s, by, seed)? } else { Expected::default() };
    let wanted = graph.raw.len();
    let lengths = [0; 4].map(|_: usize| if draw.once_in(12) { wanted.saturating_sub(1) } else { wanted + draw.below(3) });
    let before = (vec![5; lengths[0]], vec![6; lengths[1]], draw.held(lengths[2]), vec![7; lengths[3]]);
    let (mut early, mut late) = (Guarded::new(&before.0), Guarded::new(&before.1));
    let (mut mag, mut raw) = (Guarded::new(&before.2), Guarded::new(&before.3));
    let (mut window, mut edges) = (BEFORE, BEFORE);
    let [keep, low, high] = by;
    let number = unsafe {
        sys::copperhook_diluted_graph(
            s.kind,
            s.w,
            s.l,
            s.periodic,
            keep,
            low,
            high,
            seed,
            early.pointer_mut(),
            lengths[0],
            late.pointer_mut(),
            lengths[1],
            mag.pointer_mut(),
            lengths[2],
            raw.pointer_mut(),
            lengths[3],
            &mut window,
            &mut edges,
        )
    };
    let what = format!("of the graph of keep {keep:e}, bounds {low:e} and {high:e}, seed {seed}");
    let number_expected = first(refusal, || unless(lengths.iter().all(|&length| wanted <= length), 12));
    equal(&format!("answer {what}"), number, number_expected)?;
    let accepted = number == 0;
    early.holds(&format!("early {what}"), &held(accepted, &graph.early, &before.0))?;
    late.holds(&format!("late {what}"), &held(accepted, &graph.late, &before.1))?;
    mag.holds(&format!("mag {what}"), &held(accepted, &graph.mag, &before.2))?;
    raw.holds(&format!("raw {what}"), &held(accepted, &graph.raw, &before.3))?;
    let told = if accepted { [graph.window, wanted] } else { [BEFORE; 2] };
    same(&format!("window and edges {what}"), &[window, edges], &told)?;
    Ok(number)
}
