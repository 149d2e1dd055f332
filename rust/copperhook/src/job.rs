//! The pair correlations of a graph, and their totals over configurations.

use crate::call::call_of_graph;
use crate::graph::Graph;
use crate::options::{Arrangement, Options};
use crate::refusal::Refusal;

/// Two vertices whose correlation is asked for, in either order.
#[repr(C)]
#[derive(Clone, Copy, Debug, PartialEq, Eq)]
pub struct Pair {
    /// One vertex.
    pub u: usize,
    /// The other.
    pub v: usize,
}

/// A graph with the pairs whose correlations are asked for: pair i is `us[i]` and `vs[i]`, in either order. Pairs may repeat.
#[derive(Clone, Copy, Debug)]
pub struct Job<'a> {
    /// The graph.
    pub graph: Graph<'a>,
    /// One vertex of each pair.
    pub us: &'a [usize],
    /// The other vertex of each pair.
    pub vs: &'a [usize],
}

/// What a job comes to.
#[derive(Clone, Copy, Debug, PartialEq, Eq)]
pub struct Figures {
    /// The largest of 1, the floor and the longest kept edge.
    pub window: usize,
    /// How many edges are free.
    pub free_edges: usize,
    /// How many doubles of work memory the pairs need.
    pub room: usize,
}

/// Which configurations are drawn: `samples` of each chunk from `from` up to, and without, `to`, chunk c by stream c of the seed. Each chunk
/// is summed from zero and the chunks are added in order, so chunks that were asked for one by one and added in order have the same bits.
#[derive(Clone, Copy, Debug, PartialEq, Eq)]
pub struct Sampling {
    /// The generator's seed.
    pub seed: u64,
    /// The first chunk.
    pub from: u64,
    /// The end of the chunks; there is none where it is not above `from`.
    pub to: u64,
    /// How many configurations are drawn in each chunk.
    pub samples: usize,
}

impl Job<'_> {
    /// Returns how many doubles of work memory the pairs need in a call that keeps all.
    pub fn room(&self) -> Result<usize, Refusal> {
        self.room_in(Arrangement::KeepAll)
    }

    /// Returns how many doubles of work memory the pairs need in a call of this arrangement.
    pub fn room_in(&self, arrangement: Arrangement) -> Result<usize, Refusal> {
        let mut room = 0;
        let number = call_of_graph!(copperhook_room(&self.graph, floor; read self.us, self.vs; with arrangement as usize; tell room));
        Refusal::told(number).map(|()| room)
    }

    /// Returns what the job, with these betas, would come to if the edge at `place` were dropped. Places count all edges of the graph, from
    /// 0, dropped ones too; of an edge that is dropped already it returns what the job comes to now.
    ///
    /// The answer, refusals too, is that of a copy of the job with that magnitude zero, but that nothing is copied: what is wrong with the
    /// job by that edge alone is cured, except for its ends, which are checked still. Any number of free edges is told.
    ///
    /// ```
    /// use copperhook::{Arrangement, Figures, Job, Kind, Refusal, Strip};
    ///
    /// let strip = Strip { kind: Kind::Square, width: 2, length: 2, periodic: false };
    /// let edges = strip.edge_list()?;
    /// let job = Job { graph: edges.graph(strip.n()?), us: &[0], vs: &[1] };
    /// let dropped = job.preview(&[0.44], 3, Arrangement::KeepAll)?;
    /// assert_eq!(dropped, Figures { window: 2, free_edges: 0, room: job.room()? - 1 });
    /// assert_eq!(job.preview(&[0.44], 4, Arrangement::KeepAll), Err(Refusal::EdgePlace));
    /// # Ok::<(), Refusal>(())
    /// ```
    pub fn preview(&self, betas: &[f64], place: usize, arrangement: Arrangement) -> Result<Figures, Refusal> {
        let (mut window, mut free_edges, mut room) = (0, 0, 0);
        let number = call_of_graph!(copperhook_preview(&self.graph, floor;
            read self.us, self.vs, betas; with place, arrangement as usize; tell window, free_edges, room));
        Refusal::told(number).map(|()| Figures { window, free_edges, room })
    }

    /// Writes the correlation of each pair to `results`, from one factor for each kept edge, the exponential of its signed coupling. `work`
    /// has at least the doubles of the room in the options' arrangement; the room is +0.0 afterwards, and what lies behind it is not touched.
    /// `options` may be a [`Manner`](crate::Manner) alone, which takes [`Job::room`].
    pub fn correlations(&self, factors: &[f64], options: impl Into<Options>, results: &mut [f64], work: &mut [f64]) -> Result<(), Refusal> {
        Refusal::told(call_of_graph!(copperhook_correlations(&self.graph, floor;
            read self.us, self.vs, factors; with options.into().number(); write results, work)))
    }

    /// Writes, for each beta and pair, the sums over all configurations of the correlation's square and of its fourth power, and returns how
    /// many configurations there are: 2 to the number of free edges. Those of beta i and pair p of k are at i * k + p of `squares` and
    /// `fourths`. `factors` are those of [`Graph::factors`]: both signs of each beta and kept edge. `work` is as [`Job::correlations`] takes it.
    pub fn exhaustive(
        &self,
        betas: &[f64],
        factors: &[f64],
        options: impl Into<Options>,
        squares: &mut [f64],
        fourths: &mut [f64],
        work: &mut [f64],
    ) -> Result<usize, Refusal> {
        let mut count = 0;
        let number = call_of_graph!(copperhook_exhaustive(&self.graph, floor;
            read self.us, self.vs, betas, factors; with options.into().number(); write squares, fourths, work; tell count));
        Refusal::told(number).map(|()| count)
    }

    /// Writes the correlations of all configurations: that of beta i, pair p of k and configuration x of c goes to (i * k + p) * c + x of
    /// `stored`, which has exactly as many doubles. Returns c. The rest is as for [`Job::exhaustive`].
    pub fn exhaustive_c(
        &self,
        betas: &[f64],
        factors: &[f64],
        options: impl Into<Options>,
        stored: &mut [f64],
        work: &mut [f64],
    ) -> Result<usize, Refusal> {
        let mut count = 0;
        let number = call_of_graph!(copperhook_exhaustive_c(&self.graph, floor;
            read self.us, self.vs, betas, factors; with options.into().number(); write stored, work; tell count));
        Refusal::told(number).map(|()| count)
    }

    /// Writes the sums of [`Job::exhaustive`] over drawn configurations instead, and returns how many there are: chunks times samples.
    #[expect(clippy::too_many_arguments, reason = "the arguments of `exhaustive`, and which configurations are drawn")]
    pub fn sample(
        &self,
        betas: &[f64],
        factors: &[f64],
        options: impl Into<Options>,
        by: &Sampling,
        squares: &mut [f64],
        fourths: &mut [f64],
        work: &mut [f64],
    ) -> Result<usize, Refusal> {
        let mut count = 0;
        let number = call_of_graph!(copperhook_sample(&self.graph, floor;
            read self.us, self.vs, betas, factors; with options.into().number(), by.seed, by.from, by.to, by.samples;
            write squares, fourths, work; tell count));
        Refusal::told(number).map(|()| count)
    }
}

impl Graph<'_> {
    /// As [`Job::correlations`], with the pairs in one list.
    pub fn correlations_of(
        &self,
        pairs: &[Pair],
        factors: &[f64],
        options: impl Into<Options>,
        results: &mut [f64],
        work: &mut [f64],
    ) -> Result<(), Refusal> {
        Refusal::told(
            call_of_graph!(copperhook_correlations_of(self, floor; read pairs, factors; with options.into().number(); write results, work)),
        )
    }
}
