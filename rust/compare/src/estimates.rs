//! Estimates from counts and sums.

use crate::draw::Draw;
use crate::guarded::equal;
use copperhook::sys;
use oracle::glass::Acc;
use oracle::rules::refusals::estimate_refusal;

/// A count of any size, with the ends of what is allowed among them.
pub fn count(draw: &mut Draw) -> usize {
    let shift = 11 + draw.below(53);
    let any = (draw.word() >> shift) as usize;
    draw.of(&[any, any, any, any, 0, 1, 2, 3, 1 << 53, (1 << 53) + 1, usize::MAX])
}

/// Sums in order mostly, else whatever may come.
pub fn sums(draw: &mut Draw, count: usize) -> (f64, f64) {
    let n = count as f64;
    let squares = n * draw.between(0.0, 1.0);
    let equal_ones = squares / n * squares;
    let some = squares * draw.between(0.0, 1.0);
    let fourths = draw.of(&[some, squares, equal_ones, 0.0, -0.0]);
    if draw.once_in(6) {
        let bits = f64::from_bits(draw.word());
        let odd = [0.0, -0.0, 5e-324, n, f64::from_bits(n.to_bits() + 1), -1.0, f64::INFINITY, f64::NEG_INFINITY, draw.nan(), bits];
        return (draw.of(&odd), draw.of(&odd));
    }
    (squares, fourths)
}

pub fn try_one(draw: &mut Draw) -> Result<usize, String> {
    let count = count(draw);
    let (squares, fourths) = sums(draw, count);
    let before = (draw.once_in(2), draw.nan(), draw.nan());
    let (mut enough, mut mean, mut error) = before;
    let number = unsafe { sys::copperhook_estimate(count, squares, fourths, &mut enough, &mut mean, &mut error) };
    let expected = estimate_refusal(count, squares, fourths);
    let of = format!("of count {count}, sums {squares:e} and {fourths:e}");
    equal(&format!("answer {of}"), number, expected)?;
    // Where a variance is a zero the original leaves its sign open; document 01 takes +0.0.
    let total = Acc { nb: 1, np: 1, s1: vec![squares], s2: vec![fourths], count: count as f64 };
    let (e, m, s) = match (expected, count) {
        (0, 1) => (false, total.mean(0, 0), before.2),
        (0, _) => (true, total.mean(0, 0), total.se(0, 0) + 0.0),
        _ => before,
    };
    equal(&format!("enough {of}"), enough, e)?;
    equal(&format!("mean {of}"), mean, m)?;
    equal(&format!("error {of}"), error, s)?;
    Ok(number)
}
