//! Run records as document 02 has them, read and written plainly, field after field: what 26 and 27 refuse, two records as one, and the totals.

use super::configurations::Drawn;
use super::refusals::{estimate_refusal, first, unless};

/// A record: the numbers of its head, and for each chunk the bits of both sums, beta after beta and pair after pair. Where a chunk has no rows
/// there may be any number of chunks, and none is listed.
#[derive(Clone, Debug, PartialEq)]
pub struct Record {
    pub seed: u64,
    pub start: u64,
    pub end: u64,
    pub samples: u64,
    pub betas: usize,
    pub pairs: usize,
    pub chunks: Vec<Vec<[u64; 2]>>,
}

/// The most samples of all chunks together.
const MOST_SAMPLES: u128 = 1 << 32;

/// Takes a number of so many bytes, the lowest first, from the front; 26 where there are too few.
fn taken(rest: &mut &[u8], width: usize) -> Result<u64, usize> {
    let (field, behind) = rest.split_at_checked(width).ok_or(26_usize)?;
    *rest = behind;
    Ok(field.iter().enumerate().map(|(i, &byte)| u64::from(byte) << (8 * i)).sum())
}

/// Takes a number that must be this one.
fn expected(rest: &mut &[u8], width: usize, number: u64) -> Result<(), usize> {
    match taken(rest, width)? == number {
        true => Ok(()),
        false => Err(26),
    }
}

/// Returns whether a chunk of so many samples can have these sums: what 18 takes, or of no sample +0.0 twice; and no -0.0.
fn are_sums(samples: u64, bits: [u64; 2]) -> bool {
    let minus_zero = (-0.0_f64).to_bits();
    match samples {
        0 => bits == [0, 0],
        _ => !bits.contains(&minus_zero) && estimate_refusal(samples as usize, f64::from_bits(bits[0]), f64::from_bits(bits[1])) == 0,
    }
}

/// Reads a record from its first byte to its last, or returns 26.
pub fn read(bytes: &[u8]) -> Result<Record, usize> {
    let mut rest = bytes;
    expected(&mut rest, 1, 17)?;
    let [seed, start, end] = [taken(&mut rest, 8)?, taken(&mut rest, 8)?, taken(&mut rest, 8)?];
    let (samples, betas, pairs) = (taken(&mut rest, 4)?, taken(&mut rest, 1)?, taken(&mut rest, 2)?);
    if betas > 64 || pairs > 256 || end < start || u128::from(end - start) * u128::from(samples) > MOST_SAMPLES {
        return Err(26);
    }
    let mut chunks = Vec::new();
    if betas * pairs > 0 {
        for chunk in start..end {
            let mut rows = Vec::new();
            for (beta, pair) in (0..betas).flat_map(|beta| (0..pairs).map(move |pair| (beta, pair))) {
                expected(&mut rest, 1, 18)?;
                expected(&mut rest, 8, chunk)?;
                expected(&mut rest, 1, beta)?;
                expected(&mut rest, 2, pair)?;
                let sums = [taken(&mut rest, 8)?, taken(&mut rest, 8)?];
                if !are_sums(samples, sums) {
                    return Err(26);
                }
                rows.push(sums);
            }
            chunks.push(rows);
        }
    }
    match rest {
        [] => Ok(Record { seed, start, end, samples, betas: betas as usize, pairs: pairs as usize, chunks }),
        _ => Err(26),
    }
}

impl Record {
    /// Returns its bytes.
    pub fn written(&self) -> Vec<u8> {
        let mut bytes = vec![17];
        bytes.extend([self.seed, self.start, self.end].map(u64::to_le_bytes).concat());
        bytes.extend((self.samples as u32).to_le_bytes());
        bytes.push(self.betas as u8);
        bytes.extend((self.pairs as u16).to_le_bytes());
        for (chunk, rows) in (self.start..).zip(&self.chunks) {
            for (place, sums) in rows.iter().enumerate() {
                bytes.push(18);
                bytes.extend(chunk.to_le_bytes());
                bytes.push((place / self.pairs) as u8);
                bytes.extend(((place % self.pairs) as u16).to_le_bytes());
                bytes.extend(sums.map(u64::to_le_bytes).concat());
            }
        }
        bytes
    }

    /// Returns whether both are of one run: the same but for the chunks.
    fn is_like(&self, other: &Record) -> bool {
        [self.seed, self.samples] == [other.seed, other.samples] && [self.betas, self.pairs] == [other.betas, other.pairs]
    }
}

/// Returns how many bytes the record of so many chunks, betas and pairs has.
pub fn length(chunks: u64, betas: usize, pairs: usize) -> u128 {
    32 + 28 * u128::from(chunks) * (betas * pairs) as u128
}

/// Check 26 of a run that is written, right behind 11: its end is below its start, or a chunk has more samples than four bytes can say.
pub fn writing_refusal(by: &Drawn) -> usize {
    unless(by.from <= by.to && by.samples as u128 <= u128::from(u32::MAX), 26)
}

/// Two records as one in a buffer of so many bytes, or 26, 27, 11 or 12.
pub fn joined(one: &[u8], two: &[u8], room: usize) -> Result<Vec<u8>, usize> {
    let (one, two) = (read(one)?, read(two)?);
    if !one.is_like(&two) || one.end != two.start && two.end != one.start {
        return Err(27);
    }
    let (early, late) = if one.end == two.start { (one, two) } else { (two, one) };
    let chunks = late.end - early.start;
    let samples = u128::from(chunks) * u128::from(early.samples);
    let number = first(unless(samples <= MOST_SAMPLES, 11), || unless(length(chunks, early.betas, early.pairs) == room as u128, 12));
    match number {
        0 => Ok(Record { end: late.end, chunks: [early.chunks.clone(), late.chunks].concat(), ..early }.written()),
        refusal => Err(refusal),
    }
}

/// The totals of a record.
#[derive(Clone, Debug, PartialEq)]
pub struct Totals {
    pub count: usize,
    pub squares: Vec<f64>,
    pub fourths: Vec<f64>,
}

/// The totals in lists of these lengths, or 26 or 12.
pub fn totals(bytes: &[u8], lengths: [usize; 2]) -> Result<Totals, usize> {
    let record = read(bytes)?;
    let sums = record.betas * record.pairs;
    if lengths != [sums; 2] {
        return Err(12);
    }
    let added = |which: usize, place: usize| record.chunks.iter().fold(0.0, |sum, rows| sum + f64::from_bits(rows[place][which]));
    let [squares, fourths] = [0, 1].map(|which| (0..sums).map(|place| added(which, place)).collect());
    Ok(Totals { count: ((record.end - record.start) * record.samples) as usize, squares, fourths })
}

#[cfg(test)]
mod tests {
    use super::*;

    fn record(start: u64, end: u64) -> Record {
        let chunks = (start..end).map(|chunk| vec![[2.0 / (chunk + 1) as f64, 0.5 / (chunk + 1) as f64].map(f64::to_bits); 6]).collect();
        Record { seed: 9, start, end, samples: 3, betas: 2, pairs: 3, chunks }
    }

    #[test]
    fn a_record_by_hand() {
        let one = Record {
            seed: 1,
            start: 258,
            end: 259,
            samples: 2,
            betas: 1,
            pairs: 1,
            chunks: vec![vec![[1.0_f64.to_bits(), 0.5_f64.to_bits()]]],
        };
        let head = [
            [17].as_slice(),
            &[1, 0, 0, 0, 0, 0, 0, 0],
            &[2, 1, 0, 0, 0, 0, 0, 0],
            &[3, 1, 0, 0, 0, 0, 0, 0],
            &[2, 0, 0, 0],
            &[1],
            &[1, 0],
        ];
        let row =
            [[18].as_slice(), &[2, 1, 0, 0, 0, 0, 0, 0], &[0], &[0, 0], &[0, 0, 0, 0, 0, 0, 0xf0, 0x3f], &[0, 0, 0, 0, 0, 0, 0xe0, 0x3f]];
        assert_eq!(one.written(), [head.concat(), row.concat()].concat());
        assert_eq!(read(&one.written()), Ok(one));
    }

    #[test]
    fn records_are_joined_by_hand() {
        let (early, late, whole) = (record(3, 5).written(), record(5, 9).written(), record(3, 9).written());
        assert_eq!((joined(&early, &late, whole.len()), joined(&late, &early, whole.len())), (Ok(whole.clone()), Ok(whole.clone())));
        assert_eq!((joined(&early, &late, whole.len() - 1), joined(&early, &whole, 0)), (Err(12), Err(27)));
        let empty = record(5, 5).written();
        assert_eq!((joined(&empty, &late, late.len()), joined(&empty, &whole, whole.len())), (Ok(late.clone()), Err(27)));
        assert_eq!(joined(&early[1..], &Record { seed: 8, ..record(5, 9) }.written(), 0), Err(26));
        let many = |start: u64, end: u64| Record { start, end, samples: 1, pairs: 0, chunks: vec![], ..record(0, 0) }.written();
        assert_eq!(joined(&many(0, 1 << 31), &many(1 << 31, 1 << 32), 32), Ok(many(0, 1 << 32)));
        assert_eq!(joined(&many(0, 1 << 32), &many(1 << 32, (1 << 32) + 1), 32), Err(11));
    }

    #[test]
    fn totals_are_added_in_order() {
        let half = 2f64.powi(-53);
        let chunks = [1.0, half, half].map(|x| vec![[x.to_bits(); 2]]).to_vec();
        let three = Record { samples: 9, betas: 1, pairs: 1, chunks, ..record(0, 3) };
        let sum = (1.0 + half) + half;
        assert_eq!(totals(&three.written(), [1, 1]), Ok(Totals { count: 27, squares: vec![sum], fourths: vec![sum] }));
        assert_eq!(totals(&three.written(), [1, 2]), Err(12));
    }

    #[test]
    fn what_is_no_record_by_hand() {
        let good = record(0, 2);
        for bad in [
            Record { betas: 65, ..good.clone() },
            Record { start: 2, end: 0, ..good.clone() },
            Record { end: 3, ..good.clone() },
            Record { samples: 1, ..good.clone() },
            Record { samples: 0, ..good.clone() },
            Record { start: 0, end: 1 << 62, samples: 0, betas: 1, pairs: 1, chunks: vec![], ..good },
            Record { start: 0, end: 1 << 33, samples: 1 << 31, betas: 1, pairs: 0, chunks: vec![], ..good },
        ] {
            assert_eq!(read(&bad.written()), Err(26), "{bad:?}");
        }
        assert!(
            [[0, 0], [1, 0]].map(|bits| are_sums(0, bits)) == [true, false]
                && !are_sums(0, [1 << 63, 0])
                && !are_sums(3, [1 << 63, 1 << 63])
        );
        let all = Record { start: 0, end: u64::MAX, samples: 0, betas: 64, pairs: 0, chunks: vec![], ..good };
        assert_eq!(totals(&all.written(), [0, 0]).map(|totals| totals.count), Ok(0));
    }
}
