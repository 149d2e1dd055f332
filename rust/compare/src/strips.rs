//! Strips: vertices, window, edges, dilution and its graph, standard pairs and names.

mod graphs;

use crate::draw::Draw;
use crate::guarded::{equal, same, Guarded};
use crate::shapes::KINDS;
use copperhook::sys;
use oracle::lattice::{Graph, Kind, Strip};
use oracle::rules::dilution::drawn;
use oracle::rules::lists::Edges;
use oracle::rules::refusals::{first, unless, StripCall};
use oracle::rules::strips::eight_edges;

/// The number of the kind that the original does not have.
const EIGHT: usize = 3;

/// A strip as numbers; a kind above 3 is honeycomb too.
struct Numbers {
    kind: usize,
    w: usize,
    l: usize,
    periodic: bool,
}

impl Numbers {
    fn draw(draw: &mut Draw) -> Numbers {
        let most = draw.of(&[3, 6, 12, 32]);
        let (mut w, mut l) = (draw.within(1, most), draw.within(1, most));
        match draw.below(10) {
            0 => (w, l) = draw.of(&[(0, 5), (5, 0), (1025, 1), (1, 1025), (33, 32), (1 << 32, 1 << 32), (1 << 63, 2), (usize::MAX, 3)]),
            1 => (w, l) = draw.of(&[(1, 1024), (1024, 1), (2, 512), (512, 2), (32, 32), (31, 33), (3, 341), (1, 1)]),
            _ => (),
        }
        Numbers { kind: draw.of(&[0, 1, 2, 0, 1, 2, EIGHT, EIGHT, 4, usize::MAX]), w, l, periodic: draw.once_in(2) }
    }

    /// The original's strip; the square one in the place of the one of eight neighbours, whose vertices and pairs are the same.
    fn original(&self) -> Strip {
        let kind = if self.kind == EIGHT { Kind::Square } else { KINDS[self.kind.min(2)] };
        Strip { kind, w: self.w, l: self.l, periodic: self.periodic }
    }

    /// The edges by the original or, where it has none, by document 02.
    fn edges(&self) -> Vec<(usize, usize, f64)> {
        if self.kind == EIGHT {
            eight_edges(self.w, self.l, self.periodic)
        } else {
            self.original().raw_edges()
        }
    }

    fn window(&self) -> usize {
        if self.kind == EIGHT {
            Edges::new(self.w * self.l, &self.edges()).window()
        } else {
            self.original().graph().win
        }
    }

    fn name(&self) -> &'static str {
        if self.kind == EIGHT {
            "eight"
        } else {
            self.original().kind.name()
        }
    }

    /// The diluted graph by the original or, where it has none, its graph of these edges.
    fn diluted(&self, [keep, low, high]: [f64; 3], seed: u64, edges: &[(usize, usize, f64)]) -> Graph {
        if self.kind == EIGHT {
            Graph::new(self.w * self.l, edges)
        } else {
            self.original().diluted(keep, low, high, seed)
        }
    }

    fn refusal(&self, with_edges: bool, dilution: Option<[f64; 3]>) -> usize {
        let &Numbers { kind, w, l, periodic } = self;
        StripCall { kind, w, l, periodic, with_edges, dilution }.refusal()
    }
}

const BEFORE: usize = 99;

pub fn try_one(draw: &mut Draw) -> Result<usize, String> {
    let s = Numbers::draw(draw);
    all_entries(draw, &s).map_err(|why| format!("kind {}, {} by {}, periodic {}: {why}", s.kind, s.w, s.l, s.periodic))
}

fn all_entries(draw: &mut Draw, s: &Numbers) -> Result<usize, String> {
    vertices(draw, s)?;
    names(draw, s)?;
    let answers = [raw_edges(draw, s)?, diluted(draw, s)?, graphs::diluted_graph(draw, s)?, pairs(draw, s)?];
    Ok(answers.into_iter().max().unwrap_or(0))
}

/// The number of vertices, a site's vertex and the window.
fn vertices(draw: &mut Draw, s: &Numbers) -> Result<(), String> {
    let (mut n, mut vertex, mut window) = (BEFORE, BEFORE, BEFORE);
    let mut inside = draw.once_in(2);
    let before = inside;
    let side = |draw: &mut Draw, most: usize| if draw.once_in(10) { draw.no_vertex(most) } else { draw.below(most.clamp(1, 1024)) };
    let (x, y) = (side(draw, s.l), side(draw, s.w));
    let numbers = unsafe {
        [
            sys::copperhook_strip_n(s.kind, s.w, s.l, s.periodic, &mut n),
            sys::copperhook_strip_vid(s.kind, s.w, s.l, s.periodic, x, y, &mut inside, &mut vertex),
            sys::copperhook_strip_window(s.kind, s.w, s.l, s.periodic, &mut window),
        ]
    };
    let (sides, edges) = (s.refusal(false, None), s.refusal(true, None));
    same("answers of vertices and window", &numbers, &[sides, sides, edges])?;
    let lies = sides == 0 && x < s.l && y < s.w;
    equal("n", n, if sides == 0 { s.original().n() } else { BEFORE })?;
    equal("inside", inside, if sides == 0 { lies } else { before })?;
    equal("vertex", vertex, if lies { s.original().vid(x, y) } else { BEFORE })?;
    equal("window", window, if edges == 0 { s.window() } else { BEFORE })
}

/// Bytes that often are a kind's name.
fn some_name(draw: &mut Draw) -> Vec<u8> {
    let known = ["square", "sq", "tri", "triangular", "honey", "honeycomb", "hex", "eight", "eight"];
    let unknown = ["", "Square", "sqr", "honeycom", "triangula", "8", "eigh", "Eight"];
    let mut name = if draw.once_in(3) { draw.of(&unknown) } else { draw.of(&known) }.as_bytes().to_vec();
    if draw.once_in(6) && !name.is_empty() {
        let i = draw.below(name.len());
        name[i] = draw.word() as u8;
    }
    if draw.once_in(8) {
        name.push(draw.of(&[0, b' ', 255]));
    }
    name
}

fn names(draw: &mut Draw, s: &Numbers) -> Result<(), String> {
    let bytes = some_name(draw);
    let (name, mut kind) = (Guarded::new(&bytes), BEFORE);
    let known = unsafe { sys::copperhook_kind_parse(name.pointer(), name.len(), &mut kind) };
    let theirs = std::str::from_utf8(&bytes).ok().and_then(Kind::parse);
    let numbered = theirs.map(|k| KINDS.iter().position(|&l| l == k).unwrap());
    let expected = if bytes == *b"eight" { Some(EIGHT) } else { numbered };
    equal("whether a name is known", known, expected.is_some())?;
    equal("the kind of a name", kind, expected.unwrap_or(BEFORE))?;
    name.holds("name", &bytes)?;
    let mut word = Guarded::new(&[7u8; 6]);
    let length = unsafe { sys::copperhook_kind_name(s.kind, word.pointer_mut()) };
    spelled(&word, length, s.name())?;
    let length = unsafe { sys::copperhook_boundary_name(s.periodic, word.pointer_mut()) };
    spelled(&word, length, s.original().bc())
}

/// Six bytes that begin with a word, the others 0.
fn spelled(word: &Guarded<u8>, length: usize, expected: &str) -> Result<(), String> {
    equal("length of a name", length, expected.len())?;
    let mut bytes = expected.as_bytes().to_vec();
    bytes.resize(6, 0);
    word.holds("name", &bytes)
}

/// Three edge buffers, mostly long enough for so many.
struct Buffers {
    before: (Vec<usize>, Vec<usize>, Vec<f64>),
    early: Guarded<usize>,
    late: Guarded<usize>,
    mag: Guarded<f64>,
    edges: usize,
}

impl Buffers {
    fn draw(draw: &mut Draw, wanted: usize) -> Buffers {
        let lengths = [0; 3].map(|_: usize| if draw.once_in(12) { wanted.saturating_sub(1) } else { wanted + draw.below(3) });
        let before = (vec![5; lengths[0]], vec![6; lengths[1]], draw.held(lengths[2]));
        let (early, late, mag) = (Guarded::new(&before.0), Guarded::new(&before.1), Guarded::new(&before.2));
        Buffers { before, early, late, mag, edges: BEFORE }
    }

    fn hold(&self, wanted: usize) -> bool {
        [self.early.len(), self.late.len(), self.mag.len()].iter().all(|&length| wanted <= length)
    }

    /// That these edges are at their fronts; `None` where the call was refused.
    fn check(&self, edges: Option<&[(usize, usize, f64)]>) -> Result<(), String> {
        let (mut a, mut b, mut m) = self.before.clone();
        for (i, e) in edges.unwrap_or(&[]).iter().enumerate() {
            (a[i], b[i], m[i]) = *e;
        }
        self.early.holds("early", &a)?;
        self.late.holds("late", &b)?;
        self.mag.holds("mag", &m)?;
        equal("edges", self.edges, edges.map_or(BEFORE, |e| e.len()))
    }
}

fn raw_edges(draw: &mut Draw, s: &Numbers) -> Result<usize, String> {
    let refusal = s.refusal(true, None);
    let edges = if refusal == 0 { s.edges() } else { Vec::new() };
    let mut to = Buffers::draw(draw, if refusal == 0 { edges.len() } else { 4 });
    let lengths = (to.early.len(), to.late.len(), to.mag.len());
    let (early, late, mag) = (to.early.pointer_mut(), to.late.pointer_mut(), to.mag.pointer_mut());
    let number = unsafe {
        sys::copperhook_raw_edges(s.kind, s.w, s.l, s.periodic, early, lengths.0, late, lengths.1, mag, lengths.2, &mut to.edges)
    };
    let expected = first(refusal, || unless(to.hold(edges.len()), 12));
    equal("answer of the edges", number, expected)?;
    to.check((expected == 0).then_some(&edges))?;
    Ok(number)
}

/// Keep and the bounds, mostly sound.
fn dilution(draw: &mut Draw) -> [f64; 3] {
    let mut numbers = [draw.between(-0.2, 1.2), draw.between(-2.0, 2.0), draw.between(-2.0, 2.0)];
    if draw.once_in(4) {
        numbers = draw.of(&[
            [1.0, 1.0, 1.0],
            [0.5, 0.0, 0.0],
            [0.5, -0.0, -0.0],
            [f64::MAX, -1024.0, 1024.0],
            [0.0, 1024.0, -1024.0],
            [1.0, 5e-324, 0.0],
        ]);
    }
    if draw.once_in(10) {
        let i = draw.below(3);
        numbers[i] = draw.no_magnitude();
    }
    numbers
}

/// The edges as the original draws them; its graph keeps those whose magnitude is not zero.
fn drawn_edges(s: &Numbers, by: [f64; 3], seed: u64) -> Result<Vec<(usize, usize, f64)>, String> {
    let edges = drawn(s.edges(), by, seed);
    let graph = s.diluted(by, seed, &edges);
    let kept = edges.iter().filter(|e| e.2 != 0.0).map(|&(a, b, m)| ((a.min(b), a.max(b)), m.to_bits()));
    let theirs = graph.edges.iter().copied().zip(graph.mag.iter().map(|m| m.to_bits()));
    if kept.eq(theirs) {
        Ok(edges)
    } else {
        Err("the original's diluted graph is not the one that its rule draws".to_string())
    }
}

fn diluted(draw: &mut Draw, s: &Numbers) -> Result<usize, String> {
    let (by, seed) = (dilution(draw), draw.word());
    let refusal = s.refusal(true, Some(by));
    let edges = if refusal == 0 { drawn_edges(s, by, seed)? } else { Vec::new() };
    let mut to = Buffers::draw(draw, if refusal == 0 { edges.len() } else { 4 });
    let lengths = (to.early.len(), to.late.len(), to.mag.len());
    let (early, late, mag) = (to.early.pointer_mut(), to.late.pointer_mut(), to.mag.pointer_mut());
    let [keep, low, high] = by;
    let number = unsafe {
        sys::copperhook_diluted(
            s.kind,
            s.w,
            s.l,
            s.periodic,
            keep,
            low,
            high,
            seed,
            early,
            lengths.0,
            late,
            lengths.1,
            mag,
            lengths.2,
            &mut to.edges,
        )
    };
    let expected = first(refusal, || unless(to.hold(edges.len()), 12));
    let what = format!("of keep {keep:e}, bounds {low:e} and {high:e}, seed {seed}");
    equal(&format!("answer {what}"), number, expected)?;
    to.check((expected == 0).then_some(&edges)).map_err(|why| format!("{why} {what}"))?;
    Ok(number)
}

fn pairs(draw: &mut Draw, s: &Numbers) -> Result<usize, String> {
    let refusal = s.refusal(false, None);
    let list = if refusal == 0 { s.original().pairs() } else { Vec::new() };
    let bytes: Vec<u8> = list.iter().flat_map(|p| p.0.bytes().chain([0])).collect();
    let mut length = |wanted: usize| if draw.once_in(12) { wanted.saturating_sub(1) } else { wanted + draw.below(3) };
    let lengths = (length(list.len()), length(list.len()), length(bytes.len()));
    let mut before = (vec![5; lengths.0], vec![6; lengths.1], vec![200; lengths.2]);
    let (mut us, mut vs, mut labels) = (Guarded::new(&before.0), Guarded::new(&before.1), Guarded::new(&before.2));
    let mut count = BEFORE;
    let (u, v, l) = (us.pointer_mut(), vs.pointer_mut(), labels.pointer_mut());
    let number = unsafe { sys::copperhook_pairs(s.kind, s.w, s.l, s.periodic, u, lengths.0, v, lengths.1, l, lengths.2, &mut count) };
    let fit = list.len() <= lengths.0 && list.len() <= lengths.1 && bytes.len() <= lengths.2;
    let expected = first(refusal, || unless(fit, 12));
    equal("answer of the pairs", number, expected)?;
    if expected == 0 {
        for (i, p) in list.iter().enumerate() {
            (before.0[i], before.1[i]) = (p.1, p.2);
        }
        before.2[..bytes.len()].copy_from_slice(&bytes);
    }
    us.holds("us", &before.0)?;
    vs.holds("vs", &before.1)?;
    labels.holds("labels", &before.2)?;
    equal("pairs", count, if expected == 0 { list.len() } else { BEFORE })?;
    Ok(number)
}
