//! Graphs: kept edges, window, spanning forest, components and distances.

use crate::call::call_of_graph;
use crate::refusal::Refusal;
use crate::sys::COPPERHOOK_TREE;

/// A graph as it is lent: edge i joins vertices `a[i]` and `b[i]`, in either order, with magnitude `m[i]`; one of magnitude zero is
/// dropped. Any numbers and lengths may stand here: the calls refuse what is bad.
#[derive(Clone, Copy, Debug)]
pub struct Graph<'a> {
    /// The number of vertices.
    pub n: usize,
    /// A lower bound for the window, 0 for none.
    pub floor: usize,
    /// One end of each edge.
    pub a: &'a [usize],
    /// The other end of each edge.
    pub b: &'a [usize],
    /// The magnitude of each edge.
    pub m: &'a [f64],
}

/// What is told of the kept edges that were written.
#[derive(Clone, Copy, Debug, PartialEq, Eq)]
pub struct Kept {
    /// The largest of 1, the floor and the longest kept edge.
    pub window: usize,
    /// How many edges are kept.
    pub edges: usize,
}

/// The components of a graph.
#[derive(Clone, Copy, Debug, PartialEq, Eq)]
pub struct Components {
    /// How many there are.
    pub count: usize,
    /// Vertex v is bit v mod 64 of word v / 64, set exactly where v is the lowest vertex of its component.
    pub marks: [u64; 16],
}

impl Components {
    /// Returns whether `v` is the lowest vertex of its component; no vertex from the graph's `n` on is.
    pub fn is_lowest(&self, v: usize) -> bool {
        self.marks.get(v / 64).is_some_and(|word| word >> (v % 64) & 1 == 1)
    }
}

/// What a kept edge is in the spanning forest, and in an enumeration.
#[derive(Clone, Copy, Debug, PartialEq, Eq)]
pub enum ForestEdge {
    /// A tree edge: no path of earlier kept edges joins its ends. Every configuration gives it plus.
    Tree,
    /// A free edge, with its bit: a configuration gives it minus where this bit of the configuration's number is set.
    Bit(usize),
}

impl ForestEdge {
    /// Returns the edge's bit, `None` for a tree edge.
    pub fn bit(self) -> Option<usize> {
        match self {
            ForestEdge::Tree => None,
            ForestEdge::Bit(bit) => Some(bit),
        }
    }
}

impl<'a> Graph<'a> {
    /// Returns the graph of `n` vertices and these edges, without a floor.
    pub fn new(n: usize, a: &'a [usize], b: &'a [usize], m: &'a [f64]) -> Graph<'a> {
        Graph { n, floor: 0, a, b, m }
    }

    /// Returns the same graph with a window of at least `floor`.
    pub fn with_floor(self, floor: usize) -> Graph<'a> {
        Graph { floor, ..self }
    }

    /// Writes the kept edges to the fronts of three lists, the smaller end first, and to that of `raw` where each stands in the graph's own
    /// lists; what lies behind them stays.
    pub fn kept(&self, early: &mut [usize], late: &mut [usize], mag: &mut [f64], raw: &mut [usize]) -> Result<Kept, Refusal> {
        let (mut window, mut edges) = (0, 0);
        let number = call_of_graph!(copperhook_graph(self, floor; write early, late, mag, raw; tell window, edges));
        Refusal::told(number).map(|()| Kept { window, edges })
    }

    /// As [`Graph::kept`] for the graph turned by 180 degrees, vertex v being n - 1 - v; the edges keep their order and raw places.
    pub fn rotated(&self, early: &mut [usize], late: &mut [usize], mag: &mut [f64], raw: &mut [usize]) -> Result<Kept, Refusal> {
        let (mut window, mut edges) = (0, 0);
        let number = call_of_graph!(copperhook_rotated(self, floor; write early, late, mag, raw; tell window, edges));
        Refusal::told(number).map(|()| Kept { window, edges })
    }

    /// Returns the largest of 1, the floor and the longest kept edge; one above 24 is returned too.
    pub fn window(&self) -> Result<usize, Refusal> {
        let mut window = 0;
        let number = call_of_graph!(copperhook_window(self, floor; tell window));
        Refusal::told(number).map(|()| window)
    }

    /// Returns how many components the graph has, and the lowest vertex of each.
    pub fn n_components(&self) -> Result<Components, Refusal> {
        let (mut count, mut marks) = (0, [0; 16]);
        let number = call_of_graph!(copperhook_n_components(self; with marks.as_mut_ptr(); tell count));
        Refusal::told(number).map(|()| Components { count, marks })
    }

    /// Returns how many edges are free: kept edges and components, less the vertices.
    pub fn cyclomatic(&self) -> Result<usize, Refusal> {
        let mut free = 0;
        let number = call_of_graph!(copperhook_cyclomatic(self; tell free));
        Refusal::told(number).map(|()| free)
    }

    /// Tells of each kept edge whether it is a tree edge, and which bit it has if it is free: bits run from 0 in edge order, as many as
    /// [`Graph::cyclomatic`] counts. `edges` has one entry for each kept edge.
    pub fn spanning_forest(&self, edges: &mut [ForestEdge]) -> Result<(), Refusal> {
        let mut bits = vec![0; edges.len()];
        Refusal::told(call_of_graph!(copperhook_spanning_forest(self; write bits)))?;
        for (edge, bit) in edges.iter_mut().zip(bits) {
            *edge = if bit == COPPERHOOK_TREE { ForestEdge::Tree } else { ForestEdge::Bit(bit) };
        }
        Ok(())
    }

    /// Names each vertex's component by one of its vertices. `names` has one number for each vertex.
    pub fn components(&self, names: &mut [usize]) -> Result<(), Refusal> {
        Refusal::told(call_of_graph!(copperhook_components(self; write names)))
    }

    /// Returns the least number of kept edges on a walk from u to v, `None` where there is none; equal ends are allowed.
    pub fn distance(&self, u: usize, v: usize) -> Result<Option<usize>, Refusal> {
        let (mut joined, mut length) = (false, 0);
        let number = call_of_graph!(copperhook_distance(self; with u, v; tell joined, length));
        Refusal::told(number).map(|()| joined.then_some(length))
    }

    /// Writes the couplings, beta times magnitude, rounded once: that of beta i and kept edge e of k goes to i * k + e of `results`, which has
    /// exactly as many doubles as there are betas times kept edges.
    pub fn couplings(&self, betas: &[f64], results: &mut [f64]) -> Result<(), Refusal> {
        Refusal::told(call_of_graph!(copperhook_couplings(self; read betas; write results)))
    }
}
