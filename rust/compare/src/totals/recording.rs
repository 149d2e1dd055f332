//! Samplings written as run records: against the same calls chunk by chunk, by the original and the rules.

use super::calls::Call;
use super::drawing::{lend_factors, small, spoil_job, spoil_lists, vast};
use super::expected::{outcome, Before, COUNT_BEFORE};
use super::house;
use super::lent::Lent;
use crate::draw::Draw;
use crate::guarded::{equal, Guarded};
use oracle::rules::configurations::{Drawn, Entry};
use oracle::rules::records::{self, Record};
use oracle::rules::refusals::{first, unless};

/// What a call that writes a record returns and leaves.
struct Written {
    number: usize,
    record: Vec<u8>,
    /// How much of the work memory is +0.0 afterwards.
    cleared: usize,
}

/// The longest buffer that is lent; a record that is longer is lent too few bytes.
const MOST_BYTES: u128 = 1 << 20;

/// A sampling, by lent factors or the house's, sound or with what spoils it. The option of the tester is not read, and is drawn apart.
fn drawn(draw: &mut Draw) -> Call {
    let by_house = draw.once_in(2);
    let mut call = match (by_house, draw.once_in(12)) {
        (true, _) => house::sound(draw),
        (_, true) => vast(draw),
        _ => small(draw),
    };
    (call.entry, call.options) = (Entry::Sampled, call.options & !4);
    let spoils = draw.of(&[0, 0, 0, 0, 1, 1, 2]);
    for _ in 0..spoils {
        spoil_job(draw, &mut call);
    }
    if !by_house {
        lend_factors(draw, &mut call);
    }
    for _ in 0..spoils {
        spoil_lists(draw, &mut call);
    }
    if by_house {
        house::settle(&mut call);
    }
    call
}

/// How many bytes the record has, of a call that is not refused by then.
fn wanted(call: &Call) -> u128 {
    records::length(call.by.to - call.by.from, call.betas.len(), call.pairs.us.len())
}

/// Checks 1 to 11, and 26 behind them.
fn refusal(call: &Call) -> usize {
    first(call.by_rules().refusal(), || records::writing_refusal(&call.by))
}

/// How many bytes are lent for the record, and how many doubles of work memory.
fn lent_lengths(call: &Call) -> (usize, usize) {
    if refusal(call) != 0 {
        return (40, call.spare.unsigned_abs());
    }
    let (bytes, (_, work)) = (wanted(call), call.lent());
    let misfit = call.misfits[0] + 28 * call.misfits[1];
    let bytes = if bytes > MOST_BYTES { 32 } else { (bytes as usize).saturating_add_signed(misfit) };
    (bytes, work)
}

/// The same call of these chunks.
fn of_chunks(call: &Call, from: u64, to: u64) -> Call {
    Call { by: Drawn { from, to, ..call.by }, misfits: [0; 2], spare: 0, ..call.clone() }
}

/// The sums of one chunk of a call that passed its checks, as both result lists have them; none where some Z fails 14.
fn chunk_sums(call: &Call, chunk: u64) -> Result<Option<Vec<[u64; 2]>>, String> {
    let one = of_chunks(call, chunk, chunk + 1);
    let before = Before { lists: vec![vec![0.25; one.sums()]; 2], work: vec![0.25; one.room()] };
    let outcome = outcome(&one, &before)?;
    let sums = || outcome.lists[0].iter().zip(&outcome.lists[1]).map(|(squares, fourths)| [squares.to_bits(), fourths.to_bits()]).collect();
    Ok((outcome.number == 0).then(sums))
}

/// By the checks, and where they pass chunk by chunk.
fn expected(call: &Call, before: &[u8], work: usize) -> Result<Written, String> {
    let number = first(refusal(call), || first(unless(wanted(call) == before.len() as u128, 12), || unless(work >= call.room(), 13)));
    if number != 0 {
        return Ok(Written { number, record: before.to_vec(), cleared: 0 });
    }
    let (cleared, Drawn { seed, from, to, samples }) = (call.room(), call.by);
    let mut record =
        Record { seed, start: from, end: to, samples: samples as u64, betas: call.betas.len(), pairs: call.pairs.us.len(), chunks: vec![] };
    if call.sums() > 0 {
        for chunk in from..to {
            match chunk_sums(call, chunk)? {
                Some(sums) => record.chunks.push(sums),
                None => return Ok(Written { number: 14, record: vec![0; before.len()], cleared }),
            }
        }
    }
    Ok(Written { number, record: record.written(), cleared })
}

/// Makes the call, and compares what it returns and leaves.
fn compare_call(draw: &mut Draw, call: &Call, expected: &Written, before: &[u8], work: usize) -> Result<usize, String> {
    let lent = Lent::new(call);
    let held = draw.held(work);
    let (mut record, mut memory) = (Guarded::new(before), Guarded::new(&held));
    let number = lent.recorded(draw.of(&[0, 0, 4]), &mut record, &mut memory);
    equal("answer", number, expected.number)?;
    record.holds("record", &expected.record)?;
    memory.is_cleared("work", expected.cleared, &held)?;
    lent.unchanged()?;
    Ok(number)
}

/// Draws a call, compares it, and where it was swept that in the other arrangement.
fn compare(draw: &mut Draw, call: &Call) -> Result<(usize, Vec<u8>), String> {
    let (bytes, work) = lent_lengths(call);
    let before: Vec<u8> = (0..bytes).map(|_| draw.word() as u8).collect();
    let expected = expected(call, &before, work)?;
    let number = compare_call(draw, call, &expected, &before, work)?;
    if number == 0 || number == 14 {
        let other = call.rearranged();
        let expected = Written { number, record: expected.record.clone(), cleared: other.room() };
        let work = other.room() + draw.below(3);
        compare_call(draw, &other, &expected, &before, work).map_err(|why| format!("in the other arrangement: {why}"))?;
    }
    Ok((number, expected.record))
}

/// That the totals of the record are what the entry for totals leaves over all its chunks.
fn compare_totals(call: &Call, record: &[u8]) -> Result<(), String> {
    let sums = call.sums();
    let (lists, work) = (vec![vec![0.25; sums]; 2], vec![0.25; call.room()]);
    let lent = Lent::new(call);
    let mut results: Vec<Guarded<f64>> = lists.iter().map(|list| Guarded::new(list)).collect();
    let (mut memory, mut count) = (Guarded::new(&work), COUNT_BEFORE);
    equal("sample: answer", lent.called(&mut results, &mut memory, &mut count), 0)?;
    let totals = records::totals(record, [sums; 2]).map_err(|number| format!("the record is refused by {number}"))?;
    equal("sample: count", count, totals.count)?;
    results[0].holds("sample: squares beside the record's", &totals.squares)?;
    results[1].holds("sample: fourths beside the record's", &totals.fourths)
}

/// A drawn call that writes a record: what it returns, what it was, and the record of an accepted one.
pub fn try_recording(draw: &mut Draw) -> Result<(usize, Option<Vec<u8>>), String> {
    let call = drawn(draw);
    let told = |why| format!("record of {}: {why}", call.told());
    let (number, record) = compare(draw, &call).map_err(told)?;
    if number != 0 {
        return Ok((number, None));
    }
    compare_totals(&call, &record).map_err(told)?;
    // cut at a chunk, the parts are written apart, and joined they are the whole
    let cut = call.by.from + draw.word() % (call.by.to - call.by.from).saturating_add(1);
    let early = compare(draw, &of_chunks(&call, call.by.from, cut)).map_err(told)?.1;
    let late = compare(draw, &of_chunks(&call, cut, call.by.to)).map_err(told)?.1;
    crate::records::joins_to(&early, &late, &record).map_err(told)?;
    Ok((number, Some(record)))
}

#[cfg(test)]
mod tests {
    use super::*;

    /// How many of some drawn calls pass the checks before the lists, and are such.
    fn drawn_calls(such: fn(&Call) -> bool) -> usize {
        let calls = (0..4000).map(|job| drawn(&mut Draw::new(3, 15, job)));
        calls.filter(|call| refusal(call) == 0 && such(call)).count()
    }

    #[test]
    fn every_kind_of_run_is_drawn() {
        for such in [
            |c: &Call| c.house && c.sums() > 0 && c.by.to > c.by.from + 1 && c.by.samples > 0,
            |c: &Call| !c.house && c.sums() > 0 && c.by.to > c.by.from + 1 && c.by.samples > 0,
            |c: &Call| c.by.from == c.by.to && c.sums() > 0,
            |c: &Call| c.by.samples == 0 && c.by.to > c.by.from && c.sums() > 0 && wanted(c) <= MOST_BYTES,
            |c: &Call| c.sums() == 0 && c.by.to == u64::MAX,
            |c: &Call| c.sums() > 0 && wanted(c) > 1 << 64,
        ] {
            assert!(drawn_calls(such) >= 10);
        }
    }
}
