//! Jobs for correlations, and what follows from what they lend.

use crate::exponentials::are_exponentials;
use oracle::rules::house;
use oracle::rules::lists::{room, Edges, Pairs};
use oracle::rules::refusals::{call_refusal, coupling_refusal, factor_refusal};

/// The most doubles that are lent as work memory, but to wide jobs; a job whose room is larger is lent too few.
const MOST_LENT: usize = 1 << 23;
/// The most entries of all vectors of a job for which the sweep rules are followed one by one, vector after vector.
const MOST_MODELLED: usize = 1 << 20;

/// A job as it is lent. The original takes the couplings, whose exponentials the factors are; where there are none it is not asked.
#[derive(Clone)]
pub struct Job {
    pub edges: Edges,
    pub pairs: Pairs,
    pub couplings: Option<Vec<f64>>,
    pub factors: Vec<f64>,
    /// The couplings that a call for house factors is lent; `None` for one that is lent factors.
    pub house: Option<Vec<f64>>,
    /// As the call takes them; [`Job::each`], [`Job::less`] and [`Job::tester`] are what they say.
    pub options: usize,
    pub results: usize,
    /// Work memory past the room, or short of it.
    pub spare: isize,
    /// Whether the couplings are small ones, so that no Z can fail.
    pub gentle: bool,
    /// Whether the room is lent, however large.
    pub wide: bool,
}

impl Job {
    /// Whether the manner is per element: the options are not odd.
    pub fn each(&self) -> bool {
        self.options & 1 == 0
    }

    /// Whether the arrangement is that with less room.
    pub fn less(&self) -> bool {
        self.options & 2 != 0
    }

    /// The same job in the other arrangement.
    pub fn rearranged(&self) -> Job {
        Job { options: self.options ^ 2, ..self.clone() }
    }

    /// The room, of a job that passed checks 1 to 8.
    pub fn room(&self) -> usize {
        room(&self.edges, &self.pairs, self.less())
    }

    /// The list of doubles for the kept edges that the call is lent: factors, or couplings for house factors.
    pub fn lent(&self) -> &[f64] {
        self.house.as_ref().unwrap_or(&self.factors)
    }

    pub fn lent_mut(&mut self) -> &mut Vec<f64> {
        self.house.as_mut().unwrap_or(&mut self.factors)
    }

    /// Check 10 of that list, or 23 in its place.
    pub fn lent_refusal(&self) -> usize {
        let kept = self.edges.kept().len();
        match &self.house {
            None => factor_refusal(&self.factors, kept),
            Some(couplings) => coupling_refusal(couplings, kept),
        }
    }

    /// The factors of a call for house factors, where its couplings have some. The original takes the couplings where it has the same.
    pub fn settle_house(&mut self) {
        let couplings = self.house.clone().unwrap_or_default();
        if couplings.iter().all(|&x| house::place(x).is_some()) {
            self.factors = couplings.iter().map(|&x| house::factor(x, false)).collect();
            self.gentle = couplings.iter().all(|x| x.abs() <= 1.5);
            self.couplings = are_exponentials(&self.factors, &couplings).then_some(couplings);
        }
    }

    /// Whether the call is the tester's.
    pub fn tester(&self) -> bool {
        self.options & 4 != 0
    }

    pub fn told(&self) -> String {
        let options = self.options;
        let (n, floor, edges) = (self.edges.n, self.edges.floor, self.edges.a.len());
        format!("{n} vertices, floor {floor}, {edges} edges, {} pairs, options {options}", self.pairs.us.len())
    }
}

/// Whether there are too many entries to follow the sweep rules one by one.
pub fn is_large(edges: &Edges) -> bool {
    edges.n << edges.window() > MOST_MODELLED
}

/// How much work memory is lent.
pub fn work_length(job: &Job) -> usize {
    if call_refusal(&job.edges, &job.pairs, &[], job.tester()) != 0 {
        return job.spare.unsigned_abs();
    }
    let room = job.room();
    // what can be neither lent nor followed is lent too few
    if room > MOST_LENT && !job.wide || is_large(&job.edges) && (!job.gentle || job.couplings.is_none()) {
        return 1000;
    }
    room.saturating_add_signed(job.spare)
}
