//! The estimates of complete enumerations: one, and a sheet's three columns.

use crate::draw::Draw;
use crate::estimates;
use crate::guarded::{equal, Guarded};
use copperhook::sys;
use oracle::rules::complete::complete_estimate;
use oracle::rules::refusals::{complete_column_refusal, complete_refusal};

/// A power of two up to 2^34 mostly, else one that is larger, or any count.
fn count(draw: &mut Draw) -> usize {
    let power = 1usize << draw.below(35);
    let beyond = 1usize << draw.within(35, 63);
    let any = estimates::count(draw);
    draw.of(&[power, power, power, power, power, power, 1, 2, power + 1, power - 1, 3, beyond, any])
}

/// Sums in order mostly, else whatever may come; also tiny ones, where quotients are rounded.
fn sums(draw: &mut Draw, count: usize) -> (f64, f64) {
    if draw.once_in(8) {
        let tiny = |draw: &mut Draw, most: f64| f64::from_bits(draw.word() >> draw.within(40, 63)).min(most);
        let squares = tiny(draw, count as f64).sqrt();
        return (squares, tiny(draw, squares));
    }
    if draw.once_in(8) {
        // every configuration alike
        let square = draw.between(0.0, 1.0);
        return (square * count as f64, square * square * count as f64);
    }
    estimates::sums(draw, count)
}

pub fn try_one(draw: &mut Draw) -> Result<usize, String> {
    if draw.once_in(4) {
        columns(draw)
    } else {
        alone(draw)
    }
}

fn alone(draw: &mut Draw) -> Result<usize, String> {
    let count = count(draw);
    let (squares, fourths) = sums(draw, count);
    let before = [draw.nan(), draw.nan(), draw.nan()];
    let [mut mean, mut error, mut spread] = before;
    let number = unsafe { sys::copperhook_estimate_complete(count, squares, fourths, &mut mean, &mut error, &mut spread) };
    let expected = complete_refusal(count, squares, fourths);
    let of = format!("of count {count}, sums {squares:e} and {fourths:e}");
    equal(&format!("answer {of}"), number, expected)?;
    let told = if expected == 0 { complete_estimate(count, squares, fourths) } else { before };
    for (name, was, is) in [("mean", mean, told[0]), ("error", error, told[1]), ("spread", spread, told[2])] {
        equal(&format!("{name} {of}"), was, is)?;
    }
    Ok(number)
}

/// A call for columns as it is lent: the sums, and how long the columns are.
struct Call {
    count: usize,
    squares: Vec<f64>,
    fourths: Vec<f64>,
    columns: [usize; 3],
}

/// Sums that are in order, or at one place whatever may come.
fn sound(draw: &mut Draw) -> Call {
    let count = count(draw);
    let ordered = |draw: &mut Draw| {
        let squares = count as f64 * draw.between(0.0, 1.0);
        (squares, squares * draw.between(0.0, 1.0))
    };
    let places = draw.of(&[0, 1, 2, 5, 18, 100]);
    let (mut squares, mut fourths): (Vec<f64>, Vec<f64>) = (0..places).map(|_| ordered(draw)).unzip();
    if places > 0 && draw.once_in(3) {
        let i = draw.of(&[0, places - 1, places / 2]);
        (squares[i], fourths[i]) = sums(draw, count);
    }
    Call { count, squares, fourths, columns: [places; 3] }
}

/// A list of another length.
fn spoil(draw: &mut Draw, call: &mut Call) {
    let (sums, column) = (call.squares.len(), draw.below(3));
    match draw.below(6) {
        0 => drop(call.squares.pop()),
        1 => drop(call.fourths.pop()),
        2 => call.fourths.push(draw.nan()),
        _ => call.columns[column] = draw.of(&[sums + 1, sums.saturating_sub(1), 0, 2 * sums + 3]),
    }
}

fn columns(draw: &mut Draw) -> Result<usize, String> {
    let mut call = sound(draw);
    for _ in 0..draw.of(&[0, 0, 0, 0, 1, 2]) {
        spoil(draw, &mut call);
    }
    let before = call.columns.map(|length| draw.held(length));
    let told = format!("count {}, sums {} and {}, columns {:?}", call.count, call.squares.len(), call.fourths.len(), call.columns);
    compare(&call, before).map_err(|why| format!("{told}: {why}"))
}

fn compare(call: &Call, before: [Vec<f64>; 3]) -> Result<usize, String> {
    let (squares, fourths) = (Guarded::new(&call.squares), Guarded::new(&call.fourths));
    let [mut means, mut errors, mut spreads] = before.each_ref().map(|held| Guarded::new(held));
    let number = unsafe {
        let (s, f) = (squares.pointer(), fourths.pointer());
        let (m, e, w) = (means.pointer_mut(), errors.pointer_mut(), spreads.pointer_mut());
        let (columns, sums) = ((means.len(), errors.len(), spreads.len()), (squares.len(), fourths.len()));
        sys::copperhook_estimates_complete(call.count, s, sums.0, f, sums.1, m, columns.0, e, columns.1, w, columns.2)
    };
    let expected = complete_column_refusal(call.count, &call.squares, &call.fourths, call.columns);
    equal("answer", number, expected)?;
    let rows = || call.squares.iter().zip(&call.fourths).map(|(&s, &f)| complete_estimate(call.count, s, f));
    let after = if expected == 0 { [0, 1, 2].map(|c| rows().map(|row| row[c]).collect()) } else { before };
    means.holds("means", &after[0])?;
    errors.holds("errors", &after[1])?;
    spreads.holds("spreads", &after[2])?;
    squares.holds("squares", &call.squares)?;
    fourths.holds("fourths", &call.fourths)?;
    Ok(number)
}
