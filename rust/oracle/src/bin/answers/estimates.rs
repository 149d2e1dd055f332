//! Estimates from counts and sums, and square roots by the machine.

use oracle::glass::Acc;
use oracle::rng::Rng;

/// The bits of a double; one pattern for every NaN.
fn bits(x: f64) -> u64 {
    if x.is_nan() {
        0x7ff8_0000_0000_0000
    } else {
        x.to_bits()
    }
}

/// A record: the count, both sums; then 0 with the mean and the error, 1 (too few) with the mean, or the refusal's number. The error is the
/// original's, whose `max` leaves open which zero a variance of -0.0 becomes: document 01 says +0.0.
fn record(count: u64, squares: f64, fourths: f64) -> [u64; 6] {
    let answer = if count == 0 || count > 1 << 53 || !(0.0 <= fourths && fourths <= squares && squares <= count as f64) {
        [18, 0, 0]
    } else {
        let total = Acc { nb: 1, np: 1, s1: vec![squares], s2: vec![fourths], count: count as f64 };
        let (mean, error) = (total.mean(0, 0), total.se(0, 0));
        match count {
            1 => [1, bits(mean), 0],
            _ => [0, bits(mean), bits(error + 0.0)],
        }
    };
    let [case, mean, error] = answer;
    [count, bits(squares), bits(fourths), case, mean, error]
}

/// Sums over some correlations, in order.
fn summed(correlations: &[f64]) -> [u64; 6] {
    let squares = correlations.iter().fold(0.0, |sum, c| sum + c * c);
    let fourths = correlations.iter().fold(0.0, |sum, c| sum + (c * c) * (c * c));
    record(correlations.len() as u64, squares, fourths)
}

/// Every count with every pair of some sums, refused ones among them; then totals of drawn correlations, of equal ones, and of large counts.
pub fn estimates() -> Vec<u64> {
    let mut list = Vec::new();
    for count in [0, 1, 2, 3, 1024, (1 << 34) - 1, 1 << 34, 1 << 53, (1 << 53) + 1, u64::MAX] {
        let n = count as f64;
        let sums =
            [0.0, -0.0, f64::from_bits(1), 0.5, 1.0, n, f64::from_bits(n.to_bits() + 1), -1.0, f64::INFINITY, f64::NEG_INFINITY, f64::NAN];
        for squares in sums {
            for fourths in sums {
                list.extend(record(count, squares, fourths));
            }
        }
    }
    let mut source = Rng::new(20261116);
    for i in 0..200 {
        let drawn: Vec<f64> = (0..1 + i / 4).map(|_| 2.0 * source.uniform() - 1.0).collect();
        list.extend(summed(&drawn));
        list.extend(summed(&vec![drawn[0]; 1 + i]));
        let count = source.next_u64() >> (11 + i % 50);
        let squares = source.uniform() * count as f64;
        list.extend(record(count, squares, source.uniform() * squares));
        // a variance far below the squares: what rounding leaves of it may be below zero
        list.extend(record(count, squares, squares / count as f64 * squares));
    }
    list
}

/// A pattern and its neighbours.
fn around(x: f64) -> [u64; 3] {
    [x.to_bits().wrapping_sub(1), x.to_bits(), x.to_bits() + 1]
}

/// A pattern and the bits of its root, for every length of subnormals, powers of two, squares and squares of middles of two doubles, each with its
/// neighbours, the special values, and drawn patterns.
pub fn roots() -> Vec<u64> {
    let mut source = Rng::new(20261117);
    let mut draw = |shift: u32| source.next_u64() >> shift;
    let mut patterns: Vec<u64> = [0.0, -0.0, -1.0, f64::INFINITY, f64::NEG_INFINITY, f64::NAN, f64::MAX, f64::MIN].map(bits).to_vec();
    for length in 1..=52 {
        patterns.extend([(1 << length) - 1, 1 << (length - 1), draw(64 - length)]);
    }
    for exponent in (1..2047).step_by(6) {
        patterns.extend(around(f64::from_bits(exponent << 52)));
    }
    for length in 1..=53 {
        for _ in 0..4 {
            let q = (draw(64 - length) | 1) as f64;
            patterns.extend(around(q * q));
            patterns.extend(around((q + 0.5) * (q + 0.5)));
        }
    }
    patterns.extend((0..512).flat_map(|i| [draw(0), draw(1), draw(i % 64)]));
    patterns.into_iter().map(f64::from_bits).flat_map(|x| [bits(x), bits(x.sqrt())]).collect()
}
