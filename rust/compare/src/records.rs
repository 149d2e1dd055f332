//! Run records: written by drawn samplings, then whole, cut, changed, or made of any numbers; joined in either order, and their totals.

use crate::draw::Draw;
use crate::guarded::{equal, Guarded};
use crate::totals::try_recording;
use copperhook::sys;
use oracle::rules::records::{self, read, Record};

/// One call for two records as one, with a buffer of so many bytes.
fn compare_join(draw: &mut Draw, one: &[u8], two: &[u8], room: usize) -> Result<usize, String> {
    let before: Vec<u8> = (0..room).map(|_| draw.word() as u8).collect();
    let (first, second, mut joined) = (Guarded::new(one), Guarded::new(two), Guarded::new(&before));
    // SAFETY: the pointers and lengths are those of guarded lists.
    let number = unsafe {
        let (out, room) = (joined.pointer_mut(), joined.len());
        sys::copperhook_record_join(first.pointer(), first.len(), second.pointer(), second.len(), out, room)
    };
    let expected = records::joined(one, two, room);
    equal("join: answer", number, expected.as_ref().err().copied().unwrap_or(0))?;
    joined.holds("join: record", expected.as_ref().unwrap_or(&before))?;
    first.holds("join: one", one)?;
    second.holds("join: two", two)?;
    Ok(number)
}

/// One call for the totals of a record, with lists of these lengths.
fn compare_totals(draw: &mut Draw, record: &[u8], lengths: [usize; 2]) -> Result<usize, String> {
    const COUNT_BEFORE: usize = 99;
    let held = lengths.map(|length| draw.held(length));
    let ([mut squares, mut fourths], mut count) = (held.each_ref().map(|list| Guarded::new(list)), COUNT_BEFORE);
    let bytes = Guarded::new(record);
    // SAFETY: the pointers and lengths are those of guarded lists, and the count is a variable of its own.
    let number = unsafe {
        let lists = [(squares.pointer_mut(), squares.len()), (fourths.pointer_mut(), fourths.len())];
        let [(s, s_len), (f, f_len)] = lists;
        sys::copperhook_record_totals(bytes.pointer(), bytes.len(), s, s_len, f, f_len, &mut count)
    };
    let expected = records::totals(record, lengths);
    equal("totals: answer", number, expected.as_ref().err().copied().unwrap_or(0))?;
    equal("totals: count", count, expected.as_ref().map_or(COUNT_BEFORE, |totals| totals.count))?;
    squares.holds("totals: squares", expected.as_ref().map_or(&held[0], |totals| &totals.squares))?;
    fourths.holds("totals: fourths", expected.as_ref().map_or(&held[1], |totals| &totals.fourths))?;
    bytes.holds("totals: record", record)?;
    Ok(number)
}

/// That two records, handed in in either order, are joined to this one.
pub fn joins_to(one: &[u8], two: &[u8], whole: &[u8]) -> Result<(), String> {
    let mut draw = Draw::new(0, 0, whole.len() as u64);
    for (one, two) in [(one, two), (two, one)] {
        equal("join of the parts: answer", compare_join(&mut draw, one, two, whole.len())?, 0)?;
        Guarded::new(&records::joined(one, two, whole.len()).unwrap_or_default()).holds("join of the parts", whole)?;
    }
    Ok(())
}

/// Sums of a chunk: such that 18 takes for so many samples, at its ends, or now and then none such.
fn sums(draw: &mut Draw, samples: u64) -> [u64; 2] {
    let most = samples as f64;
    let squares = draw.of(&[0.0, 5e-324, most / 3.0, most.next_down().max(0.0), most]);
    let fourths = draw.of(&[0.0, squares / 7.0, squares]);
    let bad = draw.of(&[-0.0, -1.0, most.next_up(), f64::NAN, f64::INFINITY, 2.0 * most + 1.0]);
    let (nan, place) = (draw.nan(), draw.below(2));
    let mut sums = [squares, fourths];
    if draw.once_in(400) {
        sums[place] = draw.of(&[bad, nan]);
    }
    sums.map(f64::to_bits)
}

/// A record of any numbers: few chunks and rows; or as many chunks as a head can name, and no rows.
fn any_record(draw: &mut Draw) -> Record {
    let word = draw.word();
    let start = draw.of(&[0, 1, 255, 1 << 31, 1 << 62, word, u64::MAX - 4]);
    let (chunks, samples) = match draw.below(8) {
        0 => draw.of(&[
            (1 << 31, 1),
            (1 << 31, 2),
            (1 << 32, 1),
            ((1 << 32) + 1, 1),
            (1 << 33, 1 << 31),
            (1 << 62, 0),
            (1 << 62, 4),
            (u64::MAX, 0),
        ]),
        _ => (draw.below(4) as u64, draw.of(&[0, 1, 2, 9, 1000, (1 << 32) - 1])),
    };
    let end = if draw.once_in(20) { start.saturating_sub(1) } else { start.saturating_add(chunks) };
    let (betas, pairs) =
        draw.of(&[(1, 1), (1, 1), (2, 3), (3, 2), (0, 5), (64, 0), (1, 256), (64, 1), (0, 256), (65, 0), (0, 257), (0, 0)]);
    let listed = if betas * pairs > 0 && chunks < 10 { chunks } else { 0 };
    let chunks = (0..listed).map(|_| (0..betas * pairs).map(|_| sums(draw, samples)).collect()).collect();
    Record { seed: draw.of(&[0, 7, u64::MAX]), start, end, samples, betas, pairs, chunks }
}

/// A record's neighbour, which mostly joins: the chunks behind it or before it, some of them its own or left out, or of another run.
fn neighbour(draw: &mut Draw, of: &Record) -> Record {
    let (length, shift) = (draw.below(3) as u64, draw.of(&[0, 0, 0, 0, 0, 1, 2]));
    let far = if draw.once_in(8) { of.end.wrapping_sub(of.start) } else { length };
    let (start, end) = match draw.below(6) {
        0 | 1 => (of.end.saturating_add(shift), of.end.saturating_add(shift).saturating_add(far)),
        2 | 3 => (of.start.saturating_sub(shift).saturating_sub(far), of.start.saturating_sub(shift)),
        4 => (of.end.saturating_sub(1), of.end.saturating_add(length)),
        _ => (of.start, of.end),
    };
    let rows = of.betas * of.pairs;
    let listed = if rows > 0 && end >= start && end - start < 10 { end - start } else { 0 };
    let chunks = (0..listed).map(|_| (0..rows).map(|_| sums(draw, of.samples)).collect()).collect();
    let mut other = Record { start, end, chunks, ..of.clone() };
    match draw.below(40) {
        0 => other.seed ^= 1 << draw.below(64),
        1 => other.samples += 1,
        // as many rows, otherwise named
        2 => (other.betas, other.pairs) = (of.pairs % 65, of.betas),
        _ => (),
    }
    other
}

/// One thing that may make a record none.
fn change(draw: &mut Draw, record: &mut Vec<u8>) {
    let place = draw.below(record.len().max(1));
    let in_head = draw.below(record.len().clamp(1, 32));
    match draw.below(8) {
        0 => record.truncate(place),
        1 | 2 if place < record.len() => record[place] ^= 1 << draw.below(8),
        3 if in_head < record.len() => record[in_head] ^= 1 << draw.below(8),
        4 if place < record.len() => record[place] = draw.of(&[0, 1, 17, 18, 0x80, 255]),
        5 => record.extend((0..draw.of(&[1, 27, 28, 29])).map(|_| draw.word() as u8)),
        6 => record.truncate(record.len().saturating_sub(28)),
        _ => (),
    }
}

/// A length that is mostly this one.
fn near(draw: &mut Draw, length: u128) -> usize {
    let length = length.min(1 << 16) as usize;
    draw.of(&[length, length, length, length, length, length + 1, length.saturating_sub(1), length + 28, 0])
}

/// Joins two records in either order, and compares the totals of both. Returns what the join answered.
fn compare_both(draw: &mut Draw, one: &[u8], two: &[u8]) -> Result<usize, String> {
    let room = near(draw, (one.len() + two.len()).saturating_sub(32) as u128);
    let number = compare_join(draw, one, two, room)?;
    equal("join in the other order: answer", compare_join(draw, two, one, room)?, number)?;
    let mut answers = vec![number];
    for record in [one, two] {
        let sums = read(record).map_or(3, |record| record.betas * record.pairs);
        let lengths = [near(draw, sums as u128), near(draw, sums as u128)];
        answers.push(compare_totals(draw, record, lengths)?);
    }
    Ok(draw.of(&answers))
}

pub fn try_one(draw: &mut Draw) -> Result<usize, String> {
    let (number, written) = match draw.once_in(3) {
        true => try_recording(draw)?,
        false => (0, None),
    };
    if number != 0 {
        return Ok(number);
    }
    let one = match written.as_deref().map(read) {
        None => any_record(draw),
        Some(record) => record.map_err(|refusal| format!("a written record is refused by {refusal}"))?,
    };
    let two = neighbour(draw, &one);
    let mut pair = [one.written(), two.written()];
    for record in &mut pair {
        for _ in 0..draw.of(&[0, 0, 0, 0, 0, 1, 2]) {
            change(draw, record);
        }
    }
    let [one, two] = &pair;
    compare_both(draw, one, two).map_err(|why| format!("records {one:02x?} and {two:02x?}: {why}"))
}
