//! Calls for totals: what they are refused by, and the correlations that they add up or store.

use super::configurations::{Drawn, Entry};
use super::house;
use super::lists::{Edges, Pairs};
use super::refusals::{call_refusal, coupling_refusal, factor_refusal, first, is_sound, sampling_refusal, unless, TESTER};
use super::sweeps::Model;

/// Where the factors of a call come from.
#[derive(Clone, Copy)]
pub enum Factors<'a> {
    /// They are lent: for each beta and kept edge that for plus, and next to it that for minus.
    Lent(&'a [f64]),
    /// From the house table, by the couplings.
    House,
}

/// What a call for totals takes, but for its result lists and its work memory. `each` rescales after every step.
#[derive(Clone, Copy)]
pub struct Totals<'a> {
    pub entry: Entry,
    pub edges: &'a Edges,
    pub pairs: &'a Pairs,
    pub betas: &'a [f64],
    pub factors: Factors<'a>,
    pub each: bool,
    pub by: Drawn,
    pub tester: bool,
}

impl Totals<'_> {
    /// Checks 1 to 11, with 23 for 10 where the factors are the house's, and 22 where the call is the tester's.
    pub fn refusal(&self) -> usize {
        first(call_refusal(self.edges, self.pairs, self.betas, self.tester), || first(self.free_refusal(), || self.lent_refusal()))
    }

    /// Check 9, and right behind it 22; a sampling has neither.
    fn free_refusal(&self) -> usize {
        let (free, limited) = (self.edges.free().len(), self.tester && self.entry != Entry::Sampled);
        first(unless(free <= self.entry.most_free(), 9), || unless(!limited || free <= TESTER.1, 22))
    }

    /// Checks 10 or 23, and 11. The couplings of house factors are not lent, so there are as many as there should be.
    fn lent_refusal(&self) -> usize {
        let couplings = self.edges.couplings(self.betas);
        let factors = match self.factors {
            Factors::Lent(list) => factor_refusal(list, 2 * couplings.len()),
            Factors::House => coupling_refusal(&couplings, couplings.len()),
        };
        first(factors, || if self.entry == Entry::Sampled { sampling_refusal(&self.by) } else { 0 })
    }

    /// Returns the factor of beta i and kept edge e, for plus or for minus.
    fn factor(&self, kept: &[(usize, usize, f64)], i: usize, e: usize, minus: bool) -> f64 {
        match self.factors {
            Factors::Lent(list) => list[2 * (i * kept.len() + e) + usize::from(minus)],
            Factors::House => house::factor(self.betas[i] * kept[e].2, minus),
        }
    }

    /// Returns the configurations of a call that passed those checks, chunk by chunk.
    pub fn chunks(&self) -> Vec<Vec<Vec<bool>>> {
        self.entry.chunks(self.edges, &self.by)
    }

    /// Returns the correlations of one configuration, beta after beta; `None` where some Z fails check 14.
    pub fn correlations(&self, minus: &[bool]) -> Option<Vec<f64>> {
        let (kept, pairs) = (self.edges.kept(), self.pairs.raw());
        let mut all = Vec::new();
        for i in 0..self.betas.len() {
            let factor = |e: usize| self.factor(&kept, i, e, minus[e]);
            let edges: Vec<(usize, usize, f64)> = kept.iter().enumerate().map(|(e, &(a, b, _))| (a, b, factor(e))).collect();
            let model = Model { n: self.edges.n, window: self.edges.window(), edges: &edges, each: self.each };
            for (z, correlation) in model.answers(&pairs) {
                if !is_sound(z) {
                    return None;
                }
                all.push(correlation);
            }
        }
        Some(all)
    }
}
