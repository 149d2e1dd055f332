//! Calls for totals, accepted and refused, with what the call returns and leaves in the lent lists.

use crate::correlations::{Job, Work};
use crate::total_calls::calls;
use crate::words::{bits, BEFORE};
use oracle::glass::{exhaustive, exhaustive_c, sample, Plan};
use oracle::rules::configurations::{Drawn, Entry};
use oracle::rules::refusals::{first, unless};
use oracle::rules::totals::{Factors, Totals};

/// A call as a caller makes it. The job has the graph, the pairs, the manner and the work memory; its couplings are not used, and its factors
/// are two for each beta and kept edge.
#[derive(Clone)]
pub struct Call {
    pub entry: Entry,
    pub job: Job,
    pub betas: Vec<f64>,
    pub drawn: Drawn,
    /// The lengths of the result lists; the second has 0 where there is one.
    pub lengths: [usize; 2],
}

/// What a call returns, the refusal's number where it is one, and its result lists after it.
pub struct Outcome {
    pub refusal: u64,
    pub count: u64,
    pub lists: [Vec<f64>; 2],
}

impl Call {
    fn sums(&self) -> usize {
        self.betas.len() * self.job.us.len()
    }

    /// How many configurations there are; of a call that is not refused for their number.
    fn count(&self) -> u64 {
        self.entry.count(&self.job.edges(), &self.drawn) as u64
    }

    /// The exact lengths of the result lists.
    fn wanted(&self) -> [usize; 2] {
        match self.entry {
            Entry::Stored => [self.sums() << self.job.edges().free().len(), 0],
            _ => [self.sums(); 2],
        }
    }

    /// What `of` makes of the call's lists, as the rules take them.
    fn by_rules<T>(&self, of: impl FnOnce(Totals) -> T) -> T {
        let Call { entry, job, betas, drawn, .. } = self;
        let (edges, pairs) = (&job.edges(), &job.pairs());
        of(Totals { entry: *entry, edges, pairs, betas, factors: Factors::Lent(&job.factors), each: job.each, by: *drawn, tester: false })
    }

    /// Checks 1 to 13.
    fn refusal(&self) -> u64 {
        let number = first(self.by_rules(|totals| totals.refusal()), || {
            first(unless(self.lengths == self.wanted(), 12), || unless(self.job.lent() >= self.job.room(), 13))
        });
        number as u64
    }

    /// The original's result lists, with one thread.
    fn original_lists(&self) -> [Vec<f64>; 2] {
        std::env::set_var("FDK_SLOW", if self.job.each { "1" } else { "0" });
        let (graph, betas, d) = (self.job.original_graph(), &self.betas[..], self.drawn);
        let plan = Plan::new(&graph, &self.job.pairs().raw());
        let total = match self.entry {
            Entry::Enumerated => exhaustive(&graph, &plan, betas, 1),
            Entry::Sampled => sample(&graph, &plan, betas, d.seed, d.from, d.to, d.samples, 1),
            Entry::Stored => return [exhaustive_c(&graph, &plan, betas, 1).into_iter().flatten().flatten().collect(), Vec::new()],
        };
        assert_eq!(total.count as u64, self.count());
        [total.s1, total.s2]
    }

    /// Whether every Z of every configuration is finite and above zero.
    fn is_sound(&self) -> bool {
        self.by_rules(|totals| totals.chunks().concat().iter().all(|minus| totals.correlations(minus).is_some()))
    }

    /// `before` is what the result lists held.
    pub fn outcome(&self, before: f64) -> Outcome {
        let filled = |x: f64| self.lengths.map(|length| vec![x; length]);
        let refusal = self.refusal();
        if refusal != 0 {
            return Outcome { refusal, count: 0, lists: filled(before) };
        }
        // nothing to sweep
        if self.sums() == 0 || self.count() == 0 {
            return Outcome { refusal: 0, count: self.count(), lists: filled(0.0) };
        }
        if !self.is_sound() {
            return Outcome { refusal: 14, count: 0, lists: filled(0.0) };
        }
        Outcome { refusal: 0, count: self.count(), lists: self.original_lists() }
    }
}

/// A refusal's number, told from a count.
const REFUSED: u64 = 1 << 40;

/// The number of calls, and a record for each. It begins with 21 words: n, floor, 1 for per element, the entry, the seed, the start and the end
/// of the chunks, the samples, what results and work memory hold before the call, the count or the refusal, how much of the memory is +0.0
/// after it, the lengths of the three edge lists, the two pair lists, the betas, the factors and the two result lists, and how much work memory
/// is lent. The lists follow in that order, the results as they are after the call.
pub fn totals() -> Vec<u64> {
    let calls = calls();
    let mut list = vec![calls.len() as u64];
    for (i, call) in calls.iter().enumerate() {
        let (job, d, before) = (&call.job, call.drawn, BEFORE[i % BEFORE.len()]);
        let Outcome { refusal, count, lists } = call.outcome(before);
        let cleared = if refusal == 0 || refusal == 14 { job.room() } else { 0 };
        list.extend([job.n, job.floor, job.each as u64, call.entry as u64, d.seed, d.from, d.to, d.samples as u64, bits(before)]);
        list.extend([if refusal == 0 { count } else { REFUSED + refusal }, cleared]);
        list.extend([job.a.len(), job.b.len(), job.m.len(), job.us.len(), job.vs.len()].map(|length| length as u64));
        list.extend([call.betas.len(), job.factors.len(), call.lengths[0], call.lengths[1]].map(|length| length as u64));
        list.push(job.lent());
        list.extend([&job.a[..], &job.b].concat());
        list.extend(job.m.iter().map(|&x| bits(x)));
        list.extend([&job.us[..], &job.vs].concat());
        list.extend(call.betas.iter().chain(&job.factors).chain(&lists[0]).chain(&lists[1]).map(|&x| bits(x)));
    }
    list
}

/// A call whose factors are the exponentials of its couplings, of either sign, and whose lists have their exact lengths.
pub fn call(entry: Entry, job: Job, betas: &[f64], drawn: Drawn) -> Call {
    let mut call = Call { entry, job, betas: betas.to_vec(), drawn, lengths: [0; 2] };
    call.job.work = Work::Past(call.betas.len() as u64);
    call.lend_factors();
    call.lengths = call.wanted();
    call
}

impl Call {
    pub fn lend_factors(&mut self) {
        let kept: Vec<f64> = self.job.m.iter().copied().filter(|&m| m != 0.0).collect();
        let couplings = self.betas.iter().flat_map(|beta| kept.iter().map(move |m| beta * m));
        self.job.factors = couplings.flat_map(|x| [x.exp(), (-x).exp()]).collect();
    }
}
