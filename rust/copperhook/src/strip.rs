//! Strips: their vertices, edges, dilution and standard pairs.

use crate::call::call_of_strip;
use crate::graph::Kept;
use crate::kind::{short_name, Kind};
use crate::refusal::Refusal;
use crate::sys;

/// A strip, `width` vertices across and `length` along. Vertex (x, y), x along and y across, is x * width + y.
#[derive(Clone, Copy, Debug, PartialEq, Eq)]
pub struct Strip {
    /// The lattice.
    pub kind: Kind,
    /// The number of vertices across.
    pub width: usize,
    /// The number of vertices along.
    pub length: usize,
    /// Whether it closes across, as a cylinder does.
    pub periodic: bool,
}

/// Each edge is kept with probability `keep`, its magnitude drawn uniformly from `low` to `high`.
#[derive(Clone, Copy, Debug, PartialEq)]
pub struct Dilution {
    /// The probability that an edge is kept.
    pub keep: f64,
    /// The lower bound of a kept edge's magnitude.
    pub low: f64,
    /// The upper bound of a kept edge's magnitude.
    pub high: f64,
    /// The generator's seed.
    pub seed: u64,
}

impl Strip {
    /// Returns the number of vertices.
    pub fn n(&self) -> Result<usize, Refusal> {
        let mut n = 0;
        let number = call_of_strip!(copperhook_strip_n(self; tell n));
        Refusal::told(number).map(|()| n)
    }

    /// Returns the vertex at x along and y across, `None` where the strip has none.
    pub fn vertex(&self, x: usize, y: usize) -> Result<Option<usize>, Refusal> {
        let (mut inside, mut vertex) = (false, 0);
        let number = call_of_strip!(copperhook_strip_vid(self; with x, y; tell inside, vertex));
        Refusal::told(number).map(|()| inside.then_some(vertex))
    }

    /// Returns the window of the whole strip, which is the floor of a diluted one's.
    pub fn window(&self) -> Result<usize, Refusal> {
        let mut window = 0;
        let number = call_of_strip!(copperhook_strip_window(self; tell window));
        Refusal::told(number).map(|()| window)
    }

    /// Returns "cyl" where the strip is periodic across, else "free".
    pub fn boundary(&self) -> String {
        // SAFETY: six bytes, as the call writes.
        short_name(|name| unsafe { sys::copperhook_boundary_name(self.periodic, name) })
    }

    /// Writes the edges, of magnitude 1.0, to the fronts of three lists, and returns how many there are.
    pub fn raw_edges(&self, early: &mut [usize], late: &mut [usize], mag: &mut [f64]) -> Result<usize, Refusal> {
        let mut edges = 0;
        let number = call_of_strip!(copperhook_raw_edges(self; write early, late, mag; tell edges));
        Refusal::told(number).map(|()| edges)
    }

    /// As [`Strip::raw_edges`] with drawn magnitudes; a dropped edge is listed too, with magnitude +0.0.
    pub fn diluted(&self, by: &Dilution, early: &mut [usize], late: &mut [usize], mag: &mut [f64]) -> Result<usize, Refusal> {
        let mut edges = 0;
        let number = call_of_strip!(copperhook_diluted(self; with by.keep, by.low, by.high, by.seed; write early, late, mag; tell edges));
        Refusal::told(number).map(|()| edges)
    }

    /// Writes the kept ones of the diluted edges to the fronts of three lists, and to that of `raw` where each stands in the strip's edge
    /// list; the window is the whole strip's.
    pub fn diluted_graph(
        &self,
        by: &Dilution,
        early: &mut [usize],
        late: &mut [usize],
        mag: &mut [f64],
        raw: &mut [usize],
    ) -> Result<Kept, Refusal> {
        let (mut window, mut edges) = (0, 0);
        let number = call_of_strip!(copperhook_diluted_graph(
            self; with by.keep, by.low, by.high, by.seed; write early, late, mag, raw; tell window, edges
        ));
        Refusal::told(number).map(|()| Kept { window, edges })
    }

    /// Writes the standard pairs to the fronts of `us` and `vs`, and their labels to that of `labels`, each closed by a zero byte; returns how
    /// many pairs there are.
    pub fn pairs(&self, us: &mut [usize], vs: &mut [usize], labels: &mut [u8]) -> Result<usize, Refusal> {
        let mut pairs = 0;
        let number = call_of_strip!(copperhook_pairs(self; write us, vs, labels; tell pairs));
        Refusal::told(number).map(|()| pairs)
    }
}
