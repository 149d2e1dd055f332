//! A graph and its pairs as the library takes them.

use copperhook::{Arrangement, Graph, Job, Options, Refusal};
use oracle::rules::lists::{Edges, Pairs};

/// A graph and its pairs, as lists of numbers.
pub struct Lists {
    edges: Edges,
    pairs: Pairs,
}

impl Lists {
    pub fn new(n: usize, raw: &[(usize, usize, f64)], pairs: &[(usize, usize)]) -> Lists {
        Lists { edges: Edges::new(n, raw), pairs: Pairs::new(pairs) }
    }

    /// Returns the same with a lower bound for the window.
    pub fn with_floor(self, floor: usize) -> Lists {
        Lists { edges: Edges { floor, ..self.edges }, ..self }
    }

    pub fn job(&self) -> Job<'_> {
        let Edges { n, floor, a, b, m } = &self.edges;
        Job { graph: Graph::new(*n, a, b, m).with_floor(*floor), us: &self.pairs.us, vs: &self.pairs.vs }
    }

    pub fn correlations(&self, factors: &[f64], options: impl Into<Options>, results: &mut [f64], work: &mut [f64]) -> Result<(), Refusal> {
        self.job().correlations(factors, options, results, work)
    }

    /// Returns the doubles of work memory of a call that keeps all.
    pub fn room(&self) -> Result<usize, Refusal> {
        self.job().room()
    }

    /// Returns those of a call of this arrangement.
    pub fn room_in(&self, arrangement: Arrangement) -> Result<usize, Refusal> {
        self.job().room_in(arrangement)
    }
}
