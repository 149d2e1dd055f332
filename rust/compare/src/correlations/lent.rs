//! The lists of a job for correlations, with guards around them.

use super::jobs::Job;
use crate::guarded::Guarded;
use copperhook::sys;

/// A job's lists, lent: a, b, us and vs, the pairs as records, the magnitudes, and the factors or couplings.
pub struct Lent<'a> {
    job: &'a Job,
    numbers: [Guarded<usize>; 4],
    records: Guarded<usize>,
    m: Guarded<f64>,
    factors: Guarded<f64>,
}

impl Lent<'_> {
    pub fn new(job: &Job) -> Lent<'_> {
        let (e, p) = (&job.edges, &job.pairs);
        let numbers = [&e.a, &e.b, &p.us, &p.vs].map(|list| Guarded::new(list));
        let (records, m, factors) = (Guarded::new(&p.records()), Guarded::new(&e.m), Guarded::new(job.lent()));
        Lent { job, numbers, records, m, factors }
    }

    pub fn room(&self, room: &mut usize) -> usize {
        let [a, b, us, vs] = self.numbers.each_ref().map(|list| (list.pointer(), list.len()));
        let (e, m) = (&self.job.edges, (self.m.pointer(), self.m.len()));
        unsafe { sys::copperhook_room(e.n, e.floor, a.0, a.1, b.0, b.1, m.0, m.1, us.0, us.1, vs.0, vs.1, self.job.options, room) }
    }

    /// The call with two lists of ends, with lent factors or for house factors: both take the same arguments.
    #[rustfmt::skip]
    pub fn correlations(&self, results: &mut Guarded<f64>, work: &mut Guarded<f64>) -> usize {
        let [a, b, us, vs] = self.numbers.each_ref().map(|list| (list.pointer(), list.len()));
        let (e, m, f) = (&self.job.edges, (self.m.pointer(), self.m.len()), (self.factors.pointer(), self.factors.len()));
        let (results, work) = ((results.pointer_mut(), results.len()), (work.pointer_mut(), work.len()));
        let entry = if self.job.house.is_some() { sys::copperhook_house_correlations } else { sys::copperhook_correlations };
        unsafe {
            entry(
                e.n, e.floor, a.0, a.1, b.0, b.1, m.0, m.1, us.0, us.1, vs.0, vs.1, f.0, f.1, self.job.options,
                results.0, results.1, work.0, work.1,
            )
        }
    }

    #[rustfmt::skip]
    pub fn correlations_of(&self, results: &mut Guarded<f64>, work: &mut Guarded<f64>) -> usize {
        let [a, b, _, _] = self.numbers.each_ref().map(|list| (list.pointer(), list.len()));
        let (e, m, f) = (&self.job.edges, (self.m.pointer(), self.m.len()), (self.factors.pointer(), self.factors.len()));
        let pairs = (self.records.pointer().cast(), self.records.len() / 2);
        let (results, work) = ((results.pointer_mut(), results.len()), (work.pointer_mut(), work.len()));
        unsafe {
            sys::copperhook_correlations_of(
                e.n, e.floor, a.0, a.1, b.0, b.1, m.0, m.1, pairs.0, pairs.1, f.0, f.1, self.job.options,
                results.0, results.1, work.0, work.1,
            )
        }
    }

    pub fn unchanged(&self) -> Result<(), String> {
        let (e, p) = (&self.job.edges, &self.job.pairs);
        let named = [("a", &e.a), ("b", &e.b), ("us", &p.us), ("vs", &p.vs)];
        self.numbers.iter().zip(named).try_for_each(|(list, (name, lent))| list.holds(name, lent))?;
        self.records.holds("records", &p.records())?;
        self.m.holds("m", &e.m)?;
        self.factors.holds("factors or couplings", self.job.lent())
    }
}
