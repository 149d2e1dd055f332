//! Lists that are made here, for callers that do not count doubles themselves.

use crate::graph::{Graph, Kept};
use crate::limits;
use crate::refusal::Refusal;
use crate::strip::{Dilution, Strip};

/// The edges of a graph, in lists of its own.
#[derive(Clone, Debug, PartialEq)]
pub struct EdgeList {
    /// One end of each edge.
    pub a: Vec<usize>,
    /// The other end of each edge.
    pub b: Vec<usize>,
    /// The magnitude of each edge.
    pub m: Vec<f64>,
}

/// The kept edges of a graph, in lists of their own, and where they come from.
#[derive(Clone, Debug, PartialEq)]
pub struct KeptList {
    /// The kept edges, smaller end first.
    pub edges: EdgeList,
    /// The place of each among the raw edges, counted from 0 and rising.
    pub raw: Vec<usize>,
    /// The largest of 1, the floor and the longest kept edge.
    pub window: usize,
}

/// Two vertices, and what a strip calls them.
#[derive(Clone, Debug, PartialEq, Eq)]
pub struct LabelledPair {
    /// The strip's name for the pair.
    pub label: String,
    /// One vertex.
    pub u: usize,
    /// The other.
    pub v: usize,
}

/// The signed factors of a graph's kept edges at some betas, both signs of each: at 2 (i k + e) for plus and next to it for minus, with k
/// kept edges, beta i and edge e.
#[derive(Clone, Debug, PartialEq)]
pub struct Factors {
    /// The number of kept edges.
    pub kept: usize,
    /// The factors of all betas, kept edges and signs.
    pub all: Vec<f64>,
}

impl EdgeList {
    /// Returns as many edges as `fill` says that it wrote, of lists with room for all.
    fn filled(fill: impl FnOnce(&mut [usize], &mut [usize], &mut [f64]) -> Result<usize, Refusal>) -> Result<EdgeList, Refusal> {
        let most = limits::EDGES;
        let mut list = EdgeList { a: vec![0; most], b: vec![0; most], m: vec![0.0; most] };
        let edges = fill(&mut list.a, &mut list.b, &mut list.m)?;
        list.a.truncate(edges);
        list.b.truncate(edges);
        list.m.truncate(edges);
        Ok(list)
    }

    /// Returns the graph of `n` vertices and these edges, without a floor.
    pub fn graph(&self, n: usize) -> Graph<'_> {
        Graph::new(n, &self.a, &self.b, &self.m)
    }
}

impl KeptList {
    /// Returns as many edges as `fill` says that it wrote, of lists with room for all.
    fn filled(
        fill: impl FnOnce(&mut [usize], &mut [usize], &mut [f64], &mut [usize]) -> Result<Kept, Refusal>,
    ) -> Result<KeptList, Refusal> {
        let (mut raw, mut window) = (vec![0; limits::EDGES], 0);
        let edges = EdgeList::filled(|early, late, mag| {
            let kept = fill(early, late, mag, &mut raw)?;
            window = kept.window;
            Ok(kept.edges)
        })?;
        raw.truncate(edges.m.len());
        Ok(KeptList { edges, raw, window })
    }
}

impl Strip {
    /// Returns the edges, of magnitude 1.0, in lists of their own.
    pub fn edge_list(&self) -> Result<EdgeList, Refusal> {
        EdgeList::filled(|early, late, mag| self.raw_edges(early, late, mag))
    }

    /// Returns the diluted edges, dropped ones with magnitude +0.0, in lists of their own.
    pub fn diluted_list(&self, by: &Dilution) -> Result<EdgeList, Refusal> {
        EdgeList::filled(|early, late, mag| self.diluted(by, early, late, mag))
    }

    /// Returns the kept ones of the diluted edges, with their places in the strip's edge list, in lists of their own.
    pub fn diluted_kept(&self, by: &Dilution) -> Result<KeptList, Refusal> {
        KeptList::filled(|early, late, mag, raw| self.diluted_graph(by, early, late, mag, raw))
    }

    /// Returns the standard pairs with their labels.
    pub fn labelled_pairs(&self) -> Result<Vec<LabelledPair>, Refusal> {
        let (mut us, mut vs) = ([0; limits::STANDARD_PAIRS], [0; limits::STANDARD_PAIRS]);
        let mut bytes = [0; limits::LABEL_BYTES];
        let count = self.pairs(&mut us, &mut vs, &mut bytes)?;
        let labels = bytes.split(|&b| b == 0).map(|label| String::from_utf8_lossy(label).into_owned());
        let pairs = labels.zip(us.iter().zip(&vs)).take(count);
        Ok(pairs.map(|(label, (&u, &v))| LabelledPair { label, u, v }).collect())
    }
}

impl Graph<'_> {
    /// Returns the kept edges in lists of their own, smaller end first, with their raw places.
    pub fn kept_list(&self) -> Result<KeptList, Refusal> {
        KeptList::filled(|early, late, mag, raw| self.kept(early, late, mag, raw))
    }

    /// As [`Graph::kept_list`] for the graph turned by 180 degrees.
    pub fn rotated_list(&self) -> Result<KeptList, Refusal> {
        KeptList::filled(|early, late, mag, raw| self.rotated(early, late, mag, raw))
    }

    /// Returns the exponentials of the couplings at these betas, of either sign, as the host has them.
    pub fn factors(&self, betas: &[f64]) -> Result<Factors, Refusal> {
        self.factors_by(betas, |coupling| Ok(coupling.exp()))
    }

    /// Returns the factors that a rule has for the couplings at these betas, of either sign.
    pub(crate) fn factors_by(&self, betas: &[f64], factor: impl Fn(f64) -> Result<f64, Refusal>) -> Result<Factors, Refusal> {
        let kept = self.kept_list()?.raw.len();
        let mut couplings = vec![0.0; kept * betas.len()];
        self.couplings(betas, &mut couplings)?;
        let all = couplings.iter().flat_map(|&x| [factor(x), factor(-x)]).collect::<Result<_, _>>()?;
        Ok(Factors { kept, all })
    }
}

impl Factors {
    /// Returns one factor for each kept edge, at beta i, for the signs of a configuration: true is minus.
    pub fn of_signs(&self, i: usize, minus: &[bool]) -> Vec<f64> {
        (0..self.kept).map(|e| self.all[2 * (i * self.kept + e) + minus[e] as usize]).collect()
    }
}
