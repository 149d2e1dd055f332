//! A sheet's columns of means and errors, from the sums of every beta and pair.

use crate::draw::Draw;
use crate::estimates::{count, sums};
use crate::guarded::{equal, Guarded};
use copperhook::sys;
use oracle::glass::Acc;
use oracle::rules::refusals::column_refusal;

/// A call as it is lent: the sums, and how long the columns are.
struct Call {
    count: usize,
    squares: Vec<f64>,
    fourths: Vec<f64>,
    columns: [usize; 2],
}

/// Sums that are in order, or at one place whatever may come.
fn sound(draw: &mut Draw) -> Call {
    let count = if draw.once_in(4) { 1 } else { count(draw) };
    let ordered = |draw: &mut Draw| {
        let squares = count as f64 * draw.between(0.0, 1.0);
        (squares, squares * draw.between(0.0, 1.0))
    };
    let places = draw.of(&[0, 1, 2, 5, 18, 100, 1000]);
    let (mut squares, mut fourths): (Vec<f64>, Vec<f64>) = (0..places).map(|_| ordered(draw)).unzip();
    if places > 0 && draw.once_in(3) {
        let i = draw.of(&[0, places - 1, places / 2]);
        (squares[i], fourths[i]) = sums(draw, count);
    }
    Call { count, squares, fourths, columns: [places; 2] }
}

/// A list of another length.
fn spoil(draw: &mut Draw, call: &mut Call) {
    let (sums, column) = (call.squares.len(), draw.below(2));
    match draw.below(6) {
        0 => drop(call.squares.pop()),
        1 => drop(call.fourths.pop()),
        2 => call.fourths.push(draw.nan()),
        _ => call.columns[column] = draw.of(&[sums + 1, sums.saturating_sub(1), 0, 2 * sums + 3]),
    }
}

pub fn try_one(draw: &mut Draw) -> Result<usize, String> {
    let mut call = sound(draw);
    for _ in 0..draw.of(&[0, 0, 0, 0, 1, 2]) {
        spoil(draw, &mut call);
    }
    let before = call.columns.map(|length| draw.held(length));
    let told = format!("count {}, sums {} and {}, columns {:?}", call.count, call.squares.len(), call.fourths.len(), call.columns);
    compare(&call, before).map_err(|why| format!("{told}: {why}"))
}

fn compare(call: &Call, before: [Vec<f64>; 2]) -> Result<usize, String> {
    let (squares, fourths) = (Guarded::new(&call.squares), Guarded::new(&call.fourths));
    let [mut means, mut errors] = before.each_ref().map(|held| Guarded::new(held));
    let number = unsafe {
        let (s, f) = (squares.pointer(), fourths.pointer());
        let (m, e) = (means.pointer_mut(), errors.pointer_mut());
        sys::copperhook_estimates(call.count, s, squares.len(), f, fourths.len(), m, means.len(), e, errors.len())
    };
    let expected = column_refusal(call.count, &call.squares, &call.fourths, call.columns);
    equal("answer", number, expected)?;
    let [held_means, held_errors] = before;
    let (new_means, new_errors) = if expected == 0 { original(call) } else { (held_means, held_errors.clone()) };
    means.holds("means", &new_means)?;
    errors.holds("errors", if call.count == 1 { &held_errors } else { &new_errors })?;
    squares.holds("squares", &call.squares)?;
    fourths.holds("fourths", &call.fourths)?;
    Ok(number)
}

/// The original's means and errors. Where a variance is a zero it leaves its sign open; document 01 takes +0.0.
fn original(call: &Call) -> (Vec<f64>, Vec<f64>) {
    let places = call.squares.len();
    let total = Acc { nb: 1, np: places, s1: call.squares.clone(), s2: call.fourths.clone(), count: call.count as f64 };
    ((0..places).map(|i| total.mean(0, i)).collect(), (0..places).map(|i| total.se(0, i) + 0.0).collect())
}
