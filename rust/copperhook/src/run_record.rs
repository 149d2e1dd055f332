//! Run records: what a sampling summed in each chunk, as bytes, little-endian, so that runs of neighbouring chunks are joined to the bytes of
//! one long run.
//!
//! A head of 32 bytes: kind 17, seed, start, end, samples per chunk, betas and pairs. Then for each chunk, beta and pair, in that nesting, a row
//! of 28: kind 18, chunk, beta, pair, and the chunk's sums of squares and of fourth powers. The job, its factors and the manner are not in it:
//! that two records are of one job is the caller's word.
//!
//! ```
//! use copperhook::{record_join, record_totals, run_record, Graph, Job, Manner, Refusal, Sampling};
//!
//! let job = Job { graph: Graph::new(3, &[0, 1, 0], &[1, 2, 2], &[1.0, 0.5, 2.0]), us: &[0], vs: &[2] };
//! let (betas, mut work) = ([0.25, 1.0], vec![0.0; job.room()?]);
//! let factors = job.graph.factors(&betas)?.all;
//! let mut run = |from, to| job.sample_record(&betas, &factors, Manner::Block, &Sampling { seed: 7, from, to, samples: 9 }, &mut work);
//! let (early, late, whole) = (run(2, 5)?, run(5, 6)?, run(2, 6)?);
//! assert_eq!((whole.len(), record_join(&late, &early)?), (32 + 28 * 4 * 2, whole.clone()));
//! assert_eq!(record_join(&early, &whole), Err(Refusal::Join));
//!
//! let totals = record_totals(&whole)?;
//! let (mut squares, mut fourths) = ([0.0; 2], [0.0; 2]);
//! let by = Sampling { seed: 7, from: 2, to: 6, samples: 9 };
//! let count = job.sample(&betas, &factors, Manner::Block, &by, &mut squares, &mut fourths, &mut work)?;
//! assert_eq!((totals.count, &totals.squares[..], &totals.fourths[..]), (count, &squares[..], &fourths[..]));
//!
//! let head = run_record::Head::read(&whole)?;
//! assert_eq!((head.by, head.betas, head.pairs, head.bytes()), (by, 2, 1, Some(whole.len())));
//! # Ok::<(), Refusal>(())
//! ```

use crate::call::{call, call_of_graph};
use crate::job::{Job, Sampling};
use crate::limits;
use crate::options::Options;
use crate::refusal::Refusal;

/// The bytes of a head.
pub const HEAD_BYTES: usize = 32;
/// The bytes of a row: one chunk, beta and pair.
pub const ROW_BYTES: usize = 28;

/// What the head of a run record says.
#[derive(Clone, Copy, Debug, PartialEq, Eq)]
pub struct Head {
    /// The seed, the chunks, and the samples of each.
    pub by: Sampling,
    /// How many betas there are.
    pub betas: usize,
    /// How many pairs there are.
    pub pairs: usize,
}

impl Head {
    /// Reads the first 32 bytes, of kind 17. Nothing else is asked for: [`check`] asks all.
    pub fn read(record: &[u8]) -> Result<Head, Refusal> {
        if record.len() < HEAD_BYTES || record[0] != 17 {
            return Err(Refusal::Record);
        }
        let [seed, from, to] = [1, 9, 17].map(|at| word(record, at, 8));
        let by = Sampling { seed, from, to, samples: word(record, 25, 4) as usize };
        Ok(Head { by, betas: word(record, 29, 1) as usize, pairs: word(record, 30, 2) as usize })
    }

    /// Returns how many rows a chunk has.
    pub fn rows_of_a_chunk(&self) -> usize {
        self.betas * self.pairs
    }

    /// Returns how many bytes such a record has; `None` where its end is below its start, or no list has so many.
    pub fn bytes(&self) -> Option<usize> {
        let chunks = u128::from(self.by.to.checked_sub(self.by.from)?);
        let bytes =
            (ROW_BYTES as u128).checked_mul(chunks)?.checked_mul(self.rows_of_a_chunk() as u128)?.checked_add(HEAD_BYTES as u128)?;
        usize::try_from(bytes).ok().filter(|&bytes| bytes <= isize::MAX as usize)
    }
}

/// Reads a number of so many bytes at a place, the lowest first.
fn word(bytes: &[u8], at: usize, width: usize) -> u64 {
    bytes[at..at + width].iter().rev().fold(0, |word, &byte| word << 8 | u64::from(byte))
}

/// What a row says.
#[derive(Clone, Copy, Debug, PartialEq)]
pub struct Row {
    /// 18, in a record.
    pub kind: u8,
    /// The chunk.
    pub chunk: u64,
    /// The place of its beta.
    pub beta: usize,
    /// The place of its pair.
    pub pair: usize,
    /// The chunk's sum of squared correlations.
    pub squares: f64,
    /// The chunk's sum of their fourth powers.
    pub fourths: f64,
}

/// Returns the rows behind the head as they stand, as far as they are whole. Nothing is asked of them: [`check`] asks all.
pub fn rows(record: &[u8]) -> impl Iterator<Item = Row> + '_ {
    record.get(HEAD_BYTES..).unwrap_or_default().chunks_exact(ROW_BYTES).map(|row| {
        let [squares, fourths] = [12, 20].map(|at| f64::from_bits(word(row, at, 8)));
        let [beta, pair] = [(9, 1), (10, 2)].map(|(at, width)| word(row, at, width) as usize);
        Row { kind: row[0], chunk: word(row, 1, 8), beta, pair, squares, fourths }
    })
}

/// The totals of a record.
#[derive(Clone, Debug, PartialEq)]
pub struct Totals {
    /// Chunks times samples.
    pub count: usize,
    /// The sums of the squared correlations: that of beta i and pair p of k at i * k + p.
    pub squares: Vec<f64>,
    /// The sums of their fourth powers.
    pub fourths: Vec<f64>,
}

/// Returns the head of what is a record from its first byte to its last, else [`Refusal::Record`].
pub fn check(record: &[u8]) -> Result<Head, Refusal> {
    match totals_to(record, &mut [], &mut []) {
        // a record whose totals have another length
        Ok(_) | Err(Refusal::Buffer) => Head::read(record),
        Err(refusal) => Err(refusal),
    }
}

/// Writes the totals to lists of their exact length, and returns the count.
fn totals_to(record: &[u8], squares: &mut [f64], fourths: &mut [f64]) -> Result<usize, Refusal> {
    let mut count = 0;
    let number = call!(copperhook_record_totals(; read record; write squares, fourths; tell count));
    Refusal::told(number).map(|()| count)
}

/// Returns the sums of all chunks of a record, added in order from +0.0: what [`Job::sample`] tells of the same job over the same chunks, bit for
/// bit.
pub fn record_totals(record: &[u8]) -> Result<Totals, Refusal> {
    // what has more is no record, and the call says so
    let is_large = |head: &Head| head.betas > limits::BETAS || head.pairs > limits::PAIRS;
    let sums = Head::read(record).ok().filter(|head| !is_large(head)).map_or(0, |head| head.rows_of_a_chunk());
    let (mut squares, mut fourths) = (vec![0.0; sums], vec![0.0; sums]);
    let count = totals_to(record, &mut squares, &mut fourths)?;
    Ok(Totals { count, squares, fourths })
}

/// Returns two records, the end of one of which is the start of the other, as one; in either order the same bytes.
pub fn record_join(one: &[u8], two: &[u8]) -> Result<Vec<u8>, Refusal> {
    let mut joined = zeros((one.len() + two.len()).saturating_sub(HEAD_BYTES))?;
    Refusal::told(call!(copperhook_record_join(; read one, two; write joined))).map(|()| joined)
}

/// So many bytes, or refusal 12 where there is no memory for them.
fn zeros(bytes: usize) -> Result<Vec<u8>, Refusal> {
    let mut list = Vec::new();
    list.try_reserve_exact(bytes).map_err(|_| Refusal::Buffer)?;
    list.resize(bytes, 0);
    Ok(list)
}

/// Returns the record that `write` writes. A call with no byte is asked first: it refuses what is wrong with the job before memory is taken.
fn written(head: Head, mut write: impl FnMut(&mut [u8]) -> usize) -> Result<Vec<u8>, Refusal> {
    match Refusal::told(write(&mut [])) {
        Err(Refusal::Buffer) => (),
        told => return told.map(|()| Vec::new()),
    }
    let mut record = zeros(head.bytes().ok_or(Refusal::Buffer)?)?;
    Refusal::told(write(&mut record)).map(|()| record)
}

impl Job<'_> {
    fn head(&self, betas: &[f64], by: &Sampling) -> Head {
        Head { by: *by, betas: betas.len(), pairs: self.us.len() }
    }

    /// Returns the samples of [`Job::sample`] as a run record. A run whose end is below its start, or with over 2^32 - 1 samples per chunk, is
    /// refused by [`Refusal::Record`]; one that has more bytes than there is memory for by [`Refusal::Buffer`].
    pub fn sample_record(
        &self,
        betas: &[f64],
        factors: &[f64],
        options: impl Into<Options>,
        by: &Sampling,
        work: &mut [f64],
    ) -> Result<Vec<u8>, Refusal> {
        let options = options.into().number();
        written(self.head(betas, by), |record| {
            call_of_graph!(copperhook_sample_record(&self.graph, floor;
                read self.us, self.vs, betas, factors; with options, by.seed, by.from, by.to, by.samples; write record, work))
        })
    }

    /// As [`Job::sample_record`], by house factors.
    pub fn house_sample_record(
        &self,
        betas: &[f64],
        options: impl Into<Options>,
        by: &Sampling,
        work: &mut [f64],
    ) -> Result<Vec<u8>, Refusal> {
        let options = options.into().number();
        written(self.head(betas, by), |record| {
            call_of_graph!(copperhook_house_sample_record(&self.graph, floor;
                read self.us, self.vs, betas; with options, by.seed, by.from, by.to, by.samples; write record, work))
        })
    }
}

#[cfg(test)]
mod tests {
    use super::{check, record_join, record_totals, rows, Head, Totals};
    use crate::{Graph, Job, Manner, Refusal, Sampling};

    const BETAS: [f64; 2] = [0.25, 1.0];

    fn job() -> Job<'static> {
        Job { graph: Graph::new(3, &[0, 1, 0], &[1, 2, 2], &[1.0, 0.5, 2.0]), us: &[0, 0, 2], vs: &[1, 2, 1] }
    }

    fn run(seed: u64, from: u64, to: u64, samples: usize) -> Result<Vec<u8>, Refusal> {
        let by = Sampling { seed, from, to, samples };
        job().house_sample_record(&BETAS, Manner::Block, &by, &mut vec![0.0; job().room()?])
    }

    /// A head of any numbers.
    fn head(seed: u64, from: u64, to: u64, samples: u32, betas: u8, pairs: u16) -> Vec<u8> {
        let words = [seed, from, to].map(u64::to_le_bytes).concat();
        [&[17][..], &words, &samples.to_le_bytes(), &[betas], &pairs.to_le_bytes()].concat()
    }

    fn row(chunk: u64, beta: u8, pair: u16, squares: f64, fourths: f64) -> Vec<u8> {
        [&[18][..], &chunk.to_le_bytes(), &[beta], &pair.to_le_bytes(), &squares.to_le_bytes(), &fourths.to_le_bytes()].concat()
    }

    #[test]
    fn the_bytes_are_document_02s() {
        let record = run(0x0102, 5, 7, 4).unwrap();
        assert_eq!(record[..32], head(0x0102, 5, 7, 4, 2, 3));
        let (mut at, mut work) = (32, vec![0.0; job().room().unwrap()]);
        for chunk in 5..7 {
            let (mut squares, mut fourths) = ([0.0; 6], [0.0; 6]);
            let by = Sampling { seed: 0x0102, from: chunk, to: chunk + 1, samples: 4 };
            job().house_sample(&BETAS, Manner::Block, &by, &mut squares, &mut fourths, &mut work).unwrap();
            for (k, (squares, fourths)) in squares.into_iter().zip(fourths).enumerate() {
                assert_eq!(record[at..at + 28], row(chunk, k as u8 / 3, k as u16 % 3, squares, fourths));
                at += 28;
            }
        }
        assert_eq!((at, Head::read(&record).unwrap().bytes()), (record.len(), Some(record.len())));
        let last = rows(&record).last().unwrap();
        assert_eq!((rows(&record).count(), last.kind, last.chunk, last.beta, last.pair), (12, 18, 6, 1, 2));
        assert_eq!([last.squares, last.fourths].map(f64::to_le_bytes).concat(), record[record.len() - 16..]);
    }

    #[test]
    fn either_order_gives_the_bytes_of_one_run() {
        let [early, late, whole] = [(2, 5), (5, 9), (2, 9)].map(|(from, to)| run(7, from, to, 9).unwrap());
        assert_eq!((record_join(&early, &late), record_join(&late, &early)), (Ok(whole.clone()), Ok(whole.clone())));
        let empty = run(7, 5, 5, 9).unwrap();
        assert_eq!(
            (record_join(&empty, &early), record_join(&empty, &late), record_join(&empty, &empty)),
            (Ok(early), Ok(late), Ok(empty.clone()))
        );
        assert_eq!(record_join(&empty, &whole), Err(Refusal::Join));
    }

    #[test]
    fn what_does_not_join_is_refused() {
        let one = run(7, 2, 5, 9).unwrap();
        for (seed, from, to, samples) in [(8, 5, 6, 9), (7, 5, 6, 8), (7, 6, 7, 9), (7, 4, 6, 9), (7, 2, 5, 9)] {
            assert_eq!(record_join(&one, &run(seed, from, to, samples).unwrap()), Err(Refusal::Join));
        }
        // 26 of either comes first
        let other = run(8, 5, 6, 9).unwrap();
        assert_eq!((record_join(&one[1..], &other), record_join(&one, &other[..31])), (Err(Refusal::Record), Err(Refusal::Record)));
        // 2^32 passes, and 11 is of both together
        let half = |from: u64| head(1, from, from + (1 << 31), 1, 0, 5);
        assert_eq!(record_join(&half(0), &half(1 << 31)), Ok(head(1, 0, 1 << 32, 1, 0, 5)));
        assert_eq!(record_join(&head(1, 0, 1 << 32, 1, 0, 5), &half(1 << 32)), Err(Refusal::Samples));
    }

    #[test]
    fn totals_are_those_of_the_whole_run() {
        let (record, mut work) = (run(7, 2, 9, 9).unwrap(), vec![0.0; job().room().unwrap()]);
        let (mut squares, mut fourths) = (vec![0.0; 6], vec![0.0; 6]);
        let by = Sampling { seed: 7, from: 2, to: 9, samples: 9 };
        let count = job().house_sample(&BETAS, Manner::Block, &by, &mut squares, &mut fourths, &mut work).unwrap();
        assert_eq!(record_totals(&record), Ok(Totals { count, squares, fourths }));
        let none = Totals { count: 0, squares: vec![], fourths: vec![] };
        assert_eq!(record_totals(&head(1, 0, u64::MAX, 0, 0, 256)), Ok(none));
    }

    #[test]
    fn every_cut_and_every_tail_is_refused() {
        let record = run(7, 2, 4, 9).unwrap();
        assert_eq!(check(&record).map(|head| head.by), Ok(Sampling { seed: 7, from: 2, to: 4, samples: 9 }));
        for cut in 0..record.len() {
            assert_eq!(check(&record[..cut]), Err(Refusal::Record), "{cut}");
        }
        assert_eq!(check(&[&record[..], &[0]].concat()), Err(Refusal::Record));
    }

    #[test]
    fn products_are_whole_numbers() {
        for (bad, rows) in [
            (head(1, 0, 1 << 62, 0, 1, 1), vec![]),
            (head(1, 0, 1 << 33, 1 << 31, 1, 0), vec![]),
            (head(1, 0, 0, 1, 65, 1), vec![]),
            (head(1, 0, 0, 1, 1, 257), vec![]),
            (head(1, 1, 0, 1, 1, 1), vec![]),
            (head(1, 0, 1, 1, 1, 1), row(0, 0, 0, -0.0, 0.0)),
            (head(1, 0, 1, 1, 1, 1), row(0, 0, 0, 0.5, -0.0)),
            (head(1, 0, 1, 1, 1, 1), row(0, 0, 0, 1.5, 0.0)),
            (head(1, 0, 1, 1, 1, 1), row(0, 0, 0, 0.25, 0.5)),
            (head(1, 0, 1, 1, 1, 1), row(0, 0, 0, f64::NAN, 0.0)),
            (head(1, 0, 1, 0, 1, 1), row(0, 0, 0, 5e-324, 0.0)),
            (head(1, 0, 1, 1, 1, 1), row(1, 0, 0, 0.5, 0.5)),
        ] {
            assert_eq!(record_totals(&[bad, rows].concat()), Err(Refusal::Record));
        }
        assert_eq!(check(&[head(1, 0, 1, 0, 1, 1), row(0, 0, 0, 0.0, 0.0)].concat()).map(|head| head.pairs), Ok(1));
    }

    #[test]
    fn runs_that_cannot_be_written_are_refused() {
        assert_eq!(run(7, 5, 4, 9), Err(Refusal::Record));
        assert_eq!((run(7, 5, 6, 1 << 32), run(7, 5, 6, (1 << 32) + 1)), (Err(Refusal::Record), Err(Refusal::Samples)));
        assert_eq!((run(7, 5, 5, 1 << 32), run(7, 5, 5, 9).map(|record| record.len())), (Err(Refusal::Record), Ok(32)));
        // more bytes than a list can have, and than there is memory for
        assert_eq!((run(7, 0, u64::MAX, 0), run(7, 0, 1 << 50, 0)), (Err(Refusal::Buffer), Err(Refusal::Buffer)));
        let bad = Job { us: &[0], vs: &[3], ..job() };
        let by = Sampling { seed: 1, from: 0, to: u64::MAX, samples: 0 };
        assert_eq!(bad.house_sample_record(&BETAS, Manner::Block, &by, &mut []), Err(Refusal::PairEnds));
        let unswept = Job { us: &[], vs: &[], ..job() };
        let all = unswept.house_sample_record(&BETAS, Manner::Block, &by, &mut vec![0.0; unswept.room().unwrap()]);
        assert_eq!(all, Ok(head(1, 0, u64::MAX, 0, 2, 0)));
    }
}
