//! Jobs for `correlations`, accepted and refused, with what the call returns and leaves in the lent lists.

use crate::correlation_jobs::jobs;
use crate::words::{bits, BEFORE};
use oracle::glass::{correlations as original, Plan};
use oracle::lattice::Graph;
use oracle::rules::lists::{self, Edges, Pairs};
use oracle::rules::refusals::{self, factor_refusal, first, is_sound, unless};
use oracle::rules::sweeps::Model;

/// How much work memory is lent: so much past the room, so much less than it, or so much where the room is none or too large.
#[derive(Clone, Copy)]
pub enum Work {
    Past(u64),
    Lacking(u64),
    Only(u64),
}

/// A job as a caller lends it. The original takes the couplings; the factors are their exponentials, unless a job is to be refused for them.
#[derive(Clone)]
pub struct Job {
    pub n: u64,
    pub floor: u64,
    pub a: Vec<u64>,
    pub b: Vec<u64>,
    pub m: Vec<f64>,
    pub us: Vec<u64>,
    pub vs: Vec<u64>,
    pub couplings: Vec<f64>,
    pub factors: Vec<f64>,
    pub each: bool,
    pub results: usize,
    pub work: Work,
}

impl Job {
    pub fn edges(&self) -> Edges {
        Edges::of_words(self.n, self.floor, [&self.a, &self.b], &self.m)
    }

    pub fn pairs(&self) -> Pairs {
        Pairs { us: lists::numbers(&self.us), vs: lists::numbers(&self.vs) }
    }

    pub fn room(&self) -> u64 {
        lists::room(&self.edges(), &self.pairs(), false) as u64
    }

    /// Checks 1 to 8.
    pub fn job_refusal(&self) -> u64 {
        refusals::job_refusal(&self.edges(), &self.pairs(), &[]) as u64
    }

    pub fn lent(&self) -> u64 {
        match self.work {
            Work::Only(doubles) => doubles,
            Work::Past(spare) if self.job_refusal() == 0 => self.room() + spare,
            Work::Lacking(few) if self.job_refusal() == 0 => self.room() - few,
            Work::Past(few) | Work::Lacking(few) => 24 + few,
        }
    }

    /// Checks 1 to 13.
    fn refusal(&self) -> u64 {
        let kept = self.edges().kept().len();
        let number = first(self.job_refusal() as usize, || {
            let fits = unless(self.results == self.us.len(), 12);
            first(factor_refusal(&self.factors, kept), || first(fits, || unless(self.lent() >= self.room(), 13)))
        });
        number as u64
    }

    /// The original's graph, with its window at the floor at least.
    pub fn original_graph(&self) -> Graph {
        let mut graph = Graph::new(self.n as usize, &self.edges().raw());
        graph.win = graph.win.max(self.floor as usize);
        graph
    }

    /// The original's answers, of a job that passed the checks.
    fn original_answers(&self) -> Vec<f64> {
        std::env::set_var("FDK_SLOW", if self.each { "1" } else { "0" });
        let plan = Plan::new(&self.original_graph(), &self.pairs().raw());
        let mut answers = vec![f64::INFINITY; self.results];
        original(&plan, &self.couplings, &mut plan.work(), &mut answers);
        answers
    }

    /// The call's number and the results after it, `before` being what they held. Where a pair's Z is finite and above zero, the two
    /// implementations agree bit for bit.
    pub fn outcome(&self, before: f64) -> (u64, Vec<f64>) {
        if self.refusal() != 0 {
            return (self.refusal(), vec![before; self.results]);
        }
        let bits = |list: &[f64]| list.iter().map(|x| x.to_bits()).collect::<Vec<u64>>();
        assert_eq!(
            bits(&self.factors),
            bits(&self.couplings.iter().map(|j| j.exp()).collect::<Vec<f64>>()),
            "factors are not the couplings'"
        );
        let edges = self.edges();
        let kept: Vec<(usize, usize, f64)> = edges.kept().iter().zip(&self.factors).map(|(e, &x)| (e.0, e.1, x)).collect();
        let model = Model { n: edges.n, window: edges.window(), edges: &kept, each: self.each };
        let modelled = model.answers(&self.pairs().raw());
        let answers = self.original_answers();
        for (&(z, modelled), answer) in modelled.iter().zip(&answers) {
            assert!(!is_sound(z) || modelled.to_bits() == answer.to_bits(), "the original answers {answer}, the model {modelled}");
        }
        if modelled.iter().all(|&(z, _)| is_sound(z)) {
            (0, answers)
        } else {
            (14, vec![0.0; self.results])
        }
    }
}

/// A refusal's number, told from a room.
const REFUSED: u64 = 1 << 32;

/// The number of jobs, and a record for each. It begins with 15 words: n, floor, the lengths of the three edge lists, the two pair lists and
/// the factors, 1 for per element, the length of the results, what results and work memory hold before the call, how much work memory is
/// lent, the call's number, how much of the memory is +0.0 after it, and the room. The lists follow in that order, and the results after the
/// call.
pub fn correlations() -> Vec<u64> {
    let jobs = jobs();
    let mut list = vec![jobs.len() as u64];
    for (i, job) in jobs.iter().enumerate() {
        let before = BEFORE[i % BEFORE.len()];
        let (number, results) = job.outcome(before);
        let room = if job.job_refusal() == 0 { job.room() } else { REFUSED + job.job_refusal() };
        list.extend([job.n, job.floor]);
        list.extend([job.a.len(), job.b.len(), job.m.len(), job.us.len(), job.vs.len(), job.factors.len()].map(|length| length as u64));
        list.extend([job.each as u64, job.results as u64, bits(before), job.lent(), number]);
        list.extend([if number == 0 || number == 14 { room } else { 0 }, room]);
        list.extend([&job.a[..], &job.b].concat());
        list.extend(job.m.iter().map(|&x| bits(x)));
        list.extend([&job.us[..], &job.vs].concat());
        list.extend(job.factors.iter().chain(&results).map(|&x| bits(x)));
    }
    list
}
