//! Calls for totals, and what follows from what they lend.

use oracle::rules::configurations::{Drawn, Entry};
use oracle::rules::lists::{room, Edges, Pairs};
use oracle::rules::totals::{Factors, Totals};

/// A call as it is lent.
#[derive(Clone)]
pub struct Call {
    pub entry: Entry,
    pub edges: Edges,
    pub pairs: Pairs,
    pub betas: Vec<f64>,
    pub factors: Vec<f64>,
    /// Whether the call is one for house factors, and is lent none.
    pub house: bool,
    /// Whether the factors are the exponentials of the couplings, as the original takes them.
    pub exponentials: bool,
    /// As the call takes them; [`Call::each`], [`Call::less`] and [`Call::tester`] are what they say.
    pub options: usize,
    /// Which samples, of a sampled call.
    pub by: Drawn,
    /// What the result lists have past their exact lengths, or lack.
    pub misfits: [isize; 2],
    /// Work memory past the room, or short of it.
    pub spare: isize,
}

/// The most doubles that are lent as work memory; a job whose room is larger is lent too few.
const MOST_LENT: usize = 1 << 22;
/// The most entries of all vectors of all configurations that the original is asked for, and for which the rules are followed one by one.
const MOST_SWEPT: f64 = (1 << 26) as f64;
pub const MOST_MODELLED: f64 = (1 << 17) as f64;

impl Call {
    /// Whether the manner is per element: the options are not odd.
    pub fn each(&self) -> bool {
        self.options & 1 == 0
    }

    /// Whether the arrangement is that with less room.
    pub fn less(&self) -> bool {
        self.options & 2 != 0
    }

    /// The same call in the other arrangement.
    pub fn rearranged(&self) -> Call {
        Call { options: self.options ^ 2, ..self.clone() }
    }

    /// The room, of a call that passed checks 1 to 8.
    pub fn room(&self) -> usize {
        room(&self.edges, &self.pairs, self.less())
    }

    /// Whether the call is the tester's.
    pub fn tester(&self) -> bool {
        self.options & 4 != 0
    }

    pub fn told(&self) -> String {
        let options = self.options;
        let (n, floor, edges) = (self.edges.n, self.edges.floor, self.edges.a.len());
        let (pairs, betas) = (self.pairs.us.len(), self.betas.len());
        format!(
            "{:?}, {n} vertices, floor {floor}, {edges} edges, {pairs} pairs, {betas} betas, options {options}, house {}, {:?}",
            self.entry, self.house, self.by
        )
    }

    /// The call as the rules take it.
    pub fn by_rules(&self) -> Totals<'_> {
        let Call { entry, edges, pairs, betas, by, .. } = self;
        let factors = if self.house { Factors::House } else { Factors::Lent(&self.factors) };
        Totals { entry: *entry, edges, pairs, betas, factors, each: self.each(), by: *by, tester: self.tester() }
    }

    /// How many configurations a call has that is not refused by then.
    pub fn configurations(&self) -> usize {
        self.entry.count(&self.edges, &self.by)
    }

    /// How many sums there are of a kind.
    pub fn sums(&self) -> usize {
        self.betas.len() * self.pairs.us.len()
    }

    /// Entries of all vectors of all configurations.
    pub fn entries(&self) -> f64 {
        let swept = (self.configurations() * usize::from(self.sums() > 0)) as f64 * self.betas.len() as f64;
        swept * (self.edges.n << self.edges.window()) as f64
    }

    /// Whether couplings are so small that no Z can fail.
    pub fn is_gentle(&self) -> bool {
        let kept = self.edges.kept();
        self.exponentials && self.betas.iter().all(|beta| kept.iter().all(|e| (beta * e.2).abs() <= 1.5))
    }

    /// Whether it is known here what the call should return.
    pub fn is_followed(&self) -> bool {
        self.entries() <= if self.is_gentle() { MOST_SWEPT } else { MOST_MODELLED }
    }

    /// The exact lengths of the result lists, of a call that is not refused by then.
    pub fn wanted(&self) -> Vec<usize> {
        match self.entry {
            Entry::Stored => vec![self.sums() * self.configurations()],
            _ => vec![self.sums(); 2],
        }
    }

    /// The lengths that are lent: of the result lists, and of the work memory. What cannot be followed is lent too little.
    pub fn lent(&self) -> (Vec<usize>, usize) {
        if self.by_rules().refusal() != 0 {
            let lists = if self.entry == Entry::Stored { 1 } else { 2 };
            return (vec![7; lists], self.spare.unsigned_abs());
        }
        let misfit = |(length, &more): (usize, &isize)| length.saturating_add_signed(more).min(MOST_LENT);
        let lists = self.wanted().into_iter().zip(&self.misfits).map(misfit).collect();
        let room = self.room();
        let work = if room > MOST_LENT || !self.is_followed() { 1000.min(room - 1) } else { room.saturating_add_signed(self.spare) };
        (lists, work)
    }
}
