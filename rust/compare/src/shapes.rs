//! Drawn graphs and pairs, sound ones, and what spoils them.

use crate::draw::Draw;
use oracle::lattice::{Kind, Strip};
use oracle::rules::lists::{Edges, Pairs};
use oracle::rules::strips::eight_edges;
use std::collections::HashSet;

pub const KINDS: [Kind; 3] = [Kind::Square, Kind::Tri, Kind::Honey];

/// A magnitude: zero of either sign, of both ends of what is allowed, or any.
fn magnitude(draw: &mut Draw) -> f64 {
    let any = draw.between(-1024.0, 1024.0);
    draw.of(&[0.0, -0.0, 1.0, 1.0, -0.5, 1024.0, -1024.0, 5e-324, any])
}

/// Any graph that checks 1 to 5 pass: edges of every length, ends in either order.
pub fn any_graph(draw: &mut Draw) -> Edges {
    let most = draw.of(&[4, 16, 64, 1024]);
    let n = if draw.once_in(20) { 1024 } else { draw.within(1, most) };
    let most = if draw.once_in(20) { 4096 } else { draw.below(2 * n) };
    let mut edges = Edges { n, floor: draw.of(&[0, 0, 1, 7, 2000, usize::MAX]), ..Edges::default() };
    let mut joined = HashSet::new();
    for _ in 0..if n > 1 { most } else { 0 } {
        let (u, v, m) = (draw.below(n), draw.below(n), magnitude(draw));
        if u != v && (m == 0.0 || joined.insert((u.min(v), u.max(v)))) {
            edges.push(u, v, m);
        }
    }
    edges
}

/// One thing that checks 1 to 5 may refuse.
pub fn spoil_graph(draw: &mut Draw, edges: &mut Edges) {
    let n = edges.n;
    let any = if edges.a.is_empty() { None } else { Some(draw.below(edges.a.len().min(edges.b.len()).min(edges.m.len()).max(1))) };
    match (draw.below(8), any) {
        (0, _) => edges.n = draw.of(&[0, 1025, 1 << 63, usize::MAX]),
        (1, _) => spoil_length(draw, edges),
        (2, _) => {
            let most = 4096 + draw.below(2);
            edges.a.resize(most, 0);
            edges.b.resize(most, n.saturating_sub(1));
            edges.m.resize(most, 0.0);
        }
        (3, Some(i)) if i < edges.b.len() && i < edges.a.len() => edges.a[i] = edges.b[i],
        (4, Some(i)) if i < edges.b.len() => edges.b[i] = draw.no_vertex(n),
        (5, Some(i)) if i < edges.a.len() => edges.a[i] = draw.no_vertex(n),
        (6, Some(i)) if i < edges.m.len() => edges.m[i] = draw.no_magnitude(),
        (7, Some(i)) if i < edges.a.len() && i < edges.b.len() => {
            let (u, v) = (edges.a[i], edges.b[i]);
            let (u, v) = if draw.once_in(2) { (u, v) } else { (v, u) };
            edges.push(u, v, 0.25);
        }
        _ => edges.m.push(1.0),
    }
}

/// One of the three lists longer or shorter than the others.
fn spoil_length(draw: &mut Draw, edges: &mut Edges) {
    let longer = draw.once_in(2);
    match draw.below(3) {
        0 if longer => edges.a.push(0),
        0 => drop(edges.a.pop()),
        1 if longer => edges.b.push(0),
        1 => drop(edges.b.pop()),
        _ if longer => edges.m.push(0.0),
        _ => drop(edges.m.pop()),
    }
}

/// An edge of length 24 or more, where the graph has room for one.
pub fn long_edge(draw: &mut Draw, edges: &mut Edges) {
    if edges.n > 26 && edges.n <= 1024 {
        let v = draw.within(25, edges.n - 1);
        let length = draw.within(24, 25);
        edges.push(v, v - length, 1.0);
    }
}

/// Four to six short edges back from one vertex; some may be there twice, which is refused by 5.
pub fn short_edges(draw: &mut Draw, edges: &mut Edges) {
    if edges.n > 8 && edges.n <= 1024 {
        let v = draw.within(7, edges.n - 1);
        edges.floor = edges.floor.max(7);
        for d in 1..=draw.within(4, 6) {
            let joined = edges.kept().iter().any(|e| (e.0, e.1) == (v - d, v));
            if !joined || draw.once_in(10) {
                edges.push(v, v - d, 1.0);
            }
        }
    }
}

/// How far a job of correlations may reach: its window at most, and its vertices.
#[derive(Clone, Copy)]
pub struct Reach {
    pub window: usize,
    pub n: usize,
}

/// A graph that checks 1 to 7 pass, of that window at most.
pub fn swept_graph(draw: &mut Draw, reach: Reach) -> Edges {
    let mut edges = match draw.below(10) {
        0..=2 => strip(draw, reach, false),
        3 => strip(draw, reach, true),
        4 => eight(draw, reach),
        5 => path(draw, reach),
        _ => sparse(draw, reach),
    };
    if draw.once_in(3) {
        let (window, four) = (edges.window(), has_four(&edges));
        let top = draw.within(window, reach.window.max(window));
        edges.floor = draw.of(&[0, 1, window, if four { window } else { top }]);
    }
    edges
}

/// Whether some vertex has four edges back and one as long as the window: a wider window would refuse it.
fn has_four(edges: &Edges) -> bool {
    let mut back = vec![0; edges.n];
    edges.kept().iter().for_each(|e| back[e.1] += 1);
    back.iter().any(|&count| count > 4)
}

/// A strip of the original's kinds with its edges, or diluted with its window as the floor.
fn strip(draw: &mut Draw, reach: Reach, diluted: bool) -> Edges {
    let (kind, periodic) = (draw.of(&KINDS), draw.once_in(2));
    let most = if kind == Kind::Tri && periodic { reach.window.saturating_sub(1).max(1) } else { reach.window };
    let w = draw.within(1, most.min(reach.n).max(1));
    let w = if kind == Kind::Honey && periodic && w % 2 == 1 { w.max(2) / 2 * 2 } else { w };
    let l = draw.within(1, (reach.n / w).max(1));
    let strip = Strip { kind, w, l, periodic };
    let mut edges = Edges { n: strip.n(), ..Edges::default() };
    for (a, b, m) in strip.raw_edges() {
        let m = if diluted { draw.of(&[0.0, -0.0, 0.5, 1.5, m]) } else { m };
        edges.push(a, b, m);
    }
    if diluted && draw.once_in(2) && strip.graph().win <= reach.window {
        edges.floor = strip.graph().win;
    }
    edges
}

/// A strip of eight neighbours, whole or diluted; its window, where it is the floor, is that of the whole one.
fn eight(draw: &mut Draw, reach: Reach) -> Edges {
    let (periodic, diluted) = (draw.once_in(2), draw.once_in(3));
    let most = if periodic { reach.window.div_ceil(2) } else { reach.window.saturating_sub(1) };
    let w = draw.within(1, most.min(reach.n).max(1));
    let l = draw.within(1, (reach.n / w).max(1));
    let mut edges = Edges::new(w * l, &eight_edges(w, l, periodic));
    let window = edges.window();
    if diluted {
        edges.m.iter_mut().for_each(|m| *m = draw.of(&[0.0, -0.0, 0.5, 1.5, *m]));
        edges.floor = draw.of(&[0, window]);
    }
    edges
}

/// A path, whole or in pieces, with its edges in any order.
fn path(draw: &mut Draw, reach: Reach) -> Edges {
    let mut edges = Edges { n: draw.within(1, reach.n), ..Edges::default() };
    let mut ends: Vec<usize> = (1..edges.n).collect();
    draw.shuffle(&mut ends);
    let pieces = draw.of(&[1, 5, 50]);
    for v in ends {
        let m = if draw.once_in(pieces) { 1.0 } else { magnitude(draw) };
        edges.push(v, v - 1, m);
    }
    edges
}

/// At most four edges back from a vertex that are shorter than the window, and one as long; dropped ones of any length among them.
fn sparse(draw: &mut Draw, reach: Reach) -> Edges {
    let mut edges = Edges { n: draw.within(1, reach.n), ..Edges::default() };
    let longest = draw.within(1, reach.window);
    let mut list = Vec::new();
    for t in 1..edges.n {
        let mut lengths: Vec<usize> = (1..longest.min(t + 1)).collect();
        draw.shuffle(&mut lengths);
        lengths.truncate(draw.below(5));
        if longest <= t && draw.once_in(2) {
            lengths.push(longest);
        }
        list.extend(lengths.iter().map(|d| (t - d, t, draw.of(&[1.0, -1.0, 0.3, 1024.0, 5e-324]))));
    }
    if edges.n > 1 && list.len() < 4000 {
        for _ in 0..draw.below(4) {
            let a = draw.below(edges.n - 1);
            list.push((a, draw.within(a + 1, edges.n - 1), draw.of(&[0.0, -0.0])));
        }
    }
    list.truncate(4096);
    draw.shuffle(&mut list);
    for (u, v, m) in list {
        let (u, v) = if draw.once_in(2) { (u, v) } else { (v, u) };
        edges.push(u, v, m);
    }
    edges
}

/// Pairs nearer than the window, at it and farther, ends in either order, some twice.
pub fn pairs(draw: &mut Draw, n: usize, window: usize, count: usize) -> Pairs {
    let mut pairs = Pairs::default();
    for i in 0..if n > 1 { count } else { 0 } {
        let length = draw.of(&[draw_length(window, n), window, window + 1, n - 1]);
        let length = if draw.once_in(2) { draw.within(1, n - 1) } else { length.clamp(1, n - 1) };
        let u = draw.below(n - length);
        let (u, v) = if draw.once_in(2) { (u, u + length) } else { (u + length, u) };
        let again = (draw.once_in(8) && i > 0).then(|| draw.below(i));
        pairs.us.push(again.map_or(u, |i| pairs.us[i]));
        pairs.vs.push(again.map_or(v, |i| pairs.vs[i]));
    }
    pairs
}

/// Half the window, within the graph.
fn draw_length(window: usize, n: usize) -> usize {
    (window / 2).clamp(1, n.max(2) - 1)
}
