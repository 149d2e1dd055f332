//! Shares of stored correlations.

use crate::draw::Draw;
use crate::guarded::{equal, Guarded};
use copperhook::sys;
use oracle::rules::shares::{shares, ENTRIES, LISTS};

/// A call as it is lent.
struct Call {
    stored: Vec<f64>,
    lengths: Vec<usize>,
}

/// An entry that belongs: any from -1 to 1, zeros, and what stands at the ends of a kind and beside them.
fn entry(draw: &mut Draw, style: usize) -> f64 {
    let any = draw.between(-1.0, 1.0);
    let edge = draw.of(&[0.0, 5e-324, f64::MIN_POSITIVE, 0.5f64.next_down(), 0.5, 0.5f64.next_up(), 1f64.next_down(), 1.0]);
    match style {
        0 => any,
        1 => draw.of(&[edge, -edge]),
        2 => draw.of(&[0.0, -0.0]),
        _ => draw.of(&[any, edge, -edge, 0.0, -0.0]),
    }
}

/// An entry that does not: NaN of any payload, infinite, or past an end.
fn no_entry(draw: &mut Draw) -> f64 {
    let (nan, past) = (draw.nan(), draw.of(&[1f64.next_up(), 2.0, f64::MAX, f64::INFINITY]));
    draw.of(&[nan, past, -past])
}

/// Lists that are sound: few and short mostly, now and then as many as there may be, and rarely as long.
fn sound(draw: &mut Draw) -> Call {
    if draw.once_in(4000) {
        let longest = draw.of(&[ENTRIES, ENTRIES + 1]);
        let mut stored = vec![entry(draw, 3); longest];
        let place = draw.below(longest);
        stored[place] = entry(draw, 1);
        return Call { stored, lengths: vec![longest] };
    }
    let (lists, longest) =
        if draw.once_in(30) { (draw.within(LISTS - 2, LISTS + 1), 3) } else { (draw.within(1, 6), draw.of(&[1, 2, 8, 60])) };
    let lengths: Vec<usize> = (0..lists).map(|_| draw.within(1, longest)).collect();
    let style = draw.below(4);
    let stored = (0..lengths.iter().sum()).map(|_| entry(draw, style)).collect();
    Call { stored, lengths }
}

/// Something that 25 is for.
fn spoil(draw: &mut Draw, call: &mut Call) {
    let (lists, entries) = (call.lengths.len(), call.stored.len());
    let (list, place) = (draw.below(lists.max(1)), draw.below(entries.max(1)));
    let length = draw.of(&[0, 1, ENTRIES, ENTRIES + 1, 1 << 32, 1 << 63, usize::MAX]);
    match draw.below(9) {
        0 => call.lengths.clear(),
        1 => call.lengths.push(length),
        2 if lists > 0 => call.lengths[list] = length,
        // two lengths that wrap to the sum of the others, which then are all that is lent
        3 => call.lengths.extend([1 << 63, 1 << 63]),
        // an empty list leaves the sum as it is
        4 => call.lengths.insert(list, 0),
        5 => drop(call.stored.pop()),
        6 => call.stored.push(0.25),
        _ if entries > 0 => call.stored[place] = no_entry(draw),
        _ => (),
    }
}

pub fn try_one(draw: &mut Draw) -> Result<usize, String> {
    let mut call = sound(draw);
    for _ in 0..draw.of(&[0, 0, 0, 1, 1, 2]) {
        spoil(draw, &mut call);
    }
    let before: Vec<u64> = (0..8).map(|_| draw.word()).collect();
    let told = format!("{} entries, lengths {:?}", call.stored.len(), &call.lengths[..call.lengths.len().min(8)]);
    compare(&call, &before).map_err(|why| format!("{told}: {why}"))
}

fn compare(call: &Call, before: &[u64]) -> Result<usize, String> {
    let (stored, lengths, mut words) = (Guarded::new(&call.stored), Guarded::new(&call.lengths), Guarded::new(before));
    // SAFETY: the pointers and lengths are those of guarded lists, and there are eight words.
    let number = unsafe { sys::copperhook_shares(stored.pointer(), stored.len(), lengths.pointer(), lengths.len(), words.pointer_mut()) };
    let expected = shares(&call.stored, &call.lengths);
    equal("answer", number, expected.err().unwrap_or(0))?;
    words.holds("shares", expected.as_ref().map_or(before, |words| words))?;
    stored.holds("stored", &call.stored)?;
    lengths.holds("lengths", &call.lengths)?;
    Ok(number)
}
