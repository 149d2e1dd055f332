//! Ways to spoil a job, so that document 01 refuses it.

/// A number of document 01's list, and something that earns it.
pub type Spoil<Job> = (u64, fn(&mut Job));

/// Returns the first of each number, of spoils that are in checking order.
pub fn one_each<Job>(spoils: &[Spoil<Job>]) -> Vec<Spoil<Job>> {
    let is_first = |i: &usize| *i == 0 || spoils[i - 1].0 != spoils[*i].0;
    (0..spoils.len()).filter(is_first).map(|i| spoils[i]).collect()
}
