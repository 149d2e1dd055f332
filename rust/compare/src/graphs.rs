//! Graphs: the kept edges, as they are and turned, with their raw places, window, components, free edges and their bits, and distances.

use crate::draw::Draw;
use crate::guarded::{equal, same, Guarded};
use crate::shapes::{any_graph, spoil_graph};
use copperhook::sys;
use oracle::lattice::Graph;
use oracle::rules::lists::{Edges, Pairs};
use oracle::rules::refusals::{first, graph_refusal, unless};

/// A graph's three lists, lent.
struct Lent {
    edges: Edges,
    a: Guarded<usize>,
    b: Guarded<usize>,
    m: Guarded<f64>,
}

impl Lent {
    fn new(edges: Edges) -> Lent {
        let (a, b, m) = (Guarded::new(&edges.a), Guarded::new(&edges.b), Guarded::new(&edges.m));
        Lent { edges, a, b, m }
    }

    fn unchanged(&self) -> Result<(), String> {
        self.a.holds("a", &self.edges.a)?;
        self.b.holds("b", &self.edges.b)?;
        self.m.holds("m", &self.edges.m)
    }
}

/// The call of an entry whose arguments are a number of vertices, perhaps a floor, and the three lists.
macro_rules! call {
    ($entry:ident, $lent:expr $(, $floor:expr)?; $($after:expr),*) => {
        unsafe {
            let l: &Lent = $lent;
            sys::$entry(l.edges.n $(, $floor)?, l.a.pointer(), l.a.len(), l.b.pointer(), l.b.len(), l.m.pointer(), l.m.len() $(, $after)*)
        }
    };
}

/// What the references hold before a call.
const BEFORE: usize = 99;

/// A list of that length, or now and then of another.
fn length(draw: &mut Draw, wanted: usize) -> usize {
    match draw.below(12) {
        0 => wanted + 1,
        1 => wanted.saturating_sub(1),
        2 => draw.below(wanted + 1),
        _ => wanted,
    }
}

pub fn try_one(draw: &mut Draw) -> Result<usize, String> {
    let mut edges = any_graph(draw);
    for _ in 0..draw.of(&[0, 0, 1, 1, 2]) {
        spoil_graph(draw, &mut edges);
    }
    let refusal = graph_refusal(&edges, &Pairs::default(), &[]);
    let original = (refusal == 0).then(|| Graph::new(edges.n, &edges.raw()));
    let lent = Lent::new(edges);
    numbers(draw, &lent, refusal, original.as_ref())?;
    let answers = [
        kept(draw, &lent, refusal, original.as_ref(), false)?,
        kept(draw, &lent, refusal, original.as_ref(), true)?,
        forest(draw, &lent, refusal, original.as_ref())?,
        components(draw, &lent, refusal, original.as_ref())?,
        distance(draw, &lent, refusal, original.as_ref())?,
    ];
    lent.unchanged()?;
    Ok(answers.into_iter().find(|&number| number != 0).unwrap_or(0))
}

/// Window, components with the marks of their lowest vertices, and free edges.
fn numbers(draw: &mut Draw, lent: &Lent, refusal: usize, original: Option<&Graph>) -> Result<(), String> {
    let (mut window, mut count, mut free) = (BEFORE, BEFORE, BEFORE);
    let before: [u64; 16] = std::array::from_fn(|_| draw.word());
    let mut marks = Guarded::new(&before);
    let floor = lent.edges.floor;
    let numbers = [
        call!(copperhook_window, lent, floor; &mut window),
        call!(copperhook_n_components, lent; marks.pointer_mut(), &mut count),
        call!(copperhook_cyclomatic, lent; &mut free),
    ];
    same("answers of window, components and free edges", &numbers, &[refusal; 3])?;
    let expected = original.map_or([BEFORE; 3], |g| [g.win.max(floor), g.n_components(), g.cyclomatic()]);
    same("window, components and free edges", &[window, count, free], &expected)?;
    let mut words = if refusal == 0 { [0; 16] } else { before };
    if refusal == 0 {
        lent.edges.lowest().into_iter().for_each(|v| words[v / 64] |= 1 << (v % 64));
    }
    marks.holds("marks of the lowest vertices", &words)
}

/// `front` at the front of `before`.
pub fn over<T: Copy>(front: &[T], before: &[T]) -> Vec<T> {
    [front, &before[front.len()..]].concat()
}

/// The kept edges, or those of the turned graph.
fn kept(draw: &mut Draw, lent: &Lent, refusal: usize, original: Option<&Graph>, turned: bool) -> Result<usize, String> {
    let wanted = original.map_or(lent.edges.a.len().min(20), |g| g.edges.len());
    let lengths = [wanted + draw.below(3), length(draw, wanted), length(draw, wanted), length(draw, wanted)];
    let before = (vec![5; lengths[0]], vec![6; lengths[1]], draw.held(lengths[2]), vec![7; lengths[3]]);
    let (mut early, mut late) = (Guarded::new(&before.0), Guarded::new(&before.1));
    let (mut mag, mut raw) = (Guarded::new(&before.2), Guarded::new(&before.3));
    let (mut window, mut edges) = (BEFORE, BEFORE);
    let (e, l, m, r) = (early.pointer_mut(), late.pointer_mut(), mag.pointer_mut(), raw.pointer_mut());
    let floor = lent.edges.floor;
    let [e_len, l_len, m_len, r_len] = lengths;
    let number = if turned {
        call!(copperhook_rotated, lent, floor; e, e_len, l, l_len, m, m_len, r, r_len, &mut window, &mut edges)
    } else {
        call!(copperhook_graph, lent, floor; e, e_len, l, l_len, m, m_len, r, r_len, &mut window, &mut edges)
    };
    let expected = first(refusal, || unless(lengths.iter().all(|&length| wanted <= length), 12));
    equal("answer of the kept edges", number, expected)?;
    match original.filter(|_| expected == 0) {
        None => {
            early.holds("early", &before.0)?;
            late.holds("late", &before.1)?;
            mag.holds("mag", &before.2)?;
            raw.holds("raw", &before.3)?;
            same("window and edges", &[window, edges], &[BEFORE; 2])?;
        }
        Some(g) => {
            let g = if turned { g.rotated() } else { g.clone() };
            let (a, b): (Vec<usize>, Vec<usize>) = g.edges.iter().copied().unzip();
            early.holds("early", &over(&a, &before.0))?;
            late.holds("late", &over(&b, &before.1))?;
            mag.holds("mag", &over(&g.mag, &before.2))?;
            raw.holds("raw", &over(&lent.edges.places(), &before.3))?;
            same("window and edges", &[window, edges], &[g.win.max(floor), g.edges.len()])?;
        }
    }
    Ok(number)
}

/// The bits by the rules, which hold the original's tree marks.
fn forest(draw: &mut Draw, lent: &Lent, refusal: usize, original: Option<&Graph>) -> Result<usize, String> {
    let wanted = original.map_or(lent.edges.a.len().min(20), |g| g.edges.len());
    let before = vec![BEFORE; length(draw, wanted)];
    let mut bits = Guarded::new(&before);
    let pointer = bits.pointer_mut();
    let number = call!(copperhook_spanning_forest, lent; pointer, before.len());
    let expected = first(refusal, || unless(before.len() == wanted, 12));
    equal("answer of the forest", number, expected)?;
    let Some(g) = original.filter(|_| expected == 0) else {
        return bits.holds("bits", &before).map(|()| number);
    };
    let rule = lent.edges.bits();
    same("tree edges by the rules", &rule.iter().map(Option::is_none).collect::<Vec<bool>>(), &g.spanning_forest())?;
    bits.holds("bits", &rule.iter().map(|bit| bit.unwrap_or(sys::COPPERHOOK_TREE)).collect::<Vec<usize>>())?;
    Ok(number)
}

fn components(draw: &mut Draw, lent: &Lent, refusal: usize, original: Option<&Graph>) -> Result<usize, String> {
    let wanted = lent.edges.n.min(2000);
    let before = vec![BEFORE; length(draw, wanted)];
    let mut names = Guarded::new(&before);
    let pointer = names.pointer_mut();
    let number = call!(copperhook_components, lent; pointer, before.len());
    let expected = first(refusal, || unless(before.len() == wanted, 12));
    equal("answer of the components", number, expected)?;
    names.holds("names", &original.filter(|_| expected == 0).map_or(before, |g| g.components()))?;
    Ok(number)
}

fn distance(draw: &mut Draw, lent: &Lent, refusal: usize, original: Option<&Graph>) -> Result<usize, String> {
    let n = lent.edges.n;
    let vertex = |draw: &mut Draw| if n == 0 || draw.once_in(30) { draw.no_vertex(n) } else { draw.below(n) };
    let (u, v) = (vertex(draw), vertex(draw));
    let (mut joined, mut length) = (draw.once_in(2), BEFORE);
    let before = joined;
    let number = call!(copperhook_distance, lent; u, v, &mut joined, &mut length);
    let expected = first(refusal, || unless(u < n && v < n, 8));
    equal(&format!("answer of the distance {u} to {v}"), number, expected)?;
    let (j, l) = match original.filter(|_| expected == 0).map(|g| g.distance(u, v)) {
        None => (before, BEFORE),
        Some(usize::MAX) => (false, BEFORE),
        Some(far) => (true, far),
    };
    equal(&format!("whether {u} and {v} are joined"), joined, j)?;
    equal(&format!("the distance {u} to {v}"), length, l)?;
    Ok(number)
}
