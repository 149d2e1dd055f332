//! House factors, from document 02: which couplings there are, and the table of their factors, each worked out as a fraction of whole numbers
//! and rounded once.

use super::natural::Natural;
use std::cmp::Ordering;
use std::sync::OnceLock;

/// A coupling is this many steps at most, 4 in size.
pub const MOST: i32 = 512;

/// Returns which multiple of 1/128 from -4 to 4 a coupling is; `None` where it is none of them. -0.0 is 0.
pub fn place(coupling: f64) -> Option<i32> {
    // where it is one, it is the nearest one; what is too large for a number of 32 bits, or is none, becomes some number that is not equal
    let nearest = (coupling * 128.0).round() as i32;
    ((-MOST..=MOST).contains(&nearest) && f64::from(nearest) / 128.0 == coupling).then_some(nearest)
}

/// Returns the table's entry i, from -512 to 512.
pub fn entry(i: i32) -> f64 {
    table()[(i + MOST) as usize]
}

/// Returns the factor of a coupling that is on the grid, or of its negative.
pub fn factor(coupling: f64, minus: bool) -> f64 {
    let i = place(coupling).expect("a coupling off the grid has no factor");
    entry(if minus { -i } else { i })
}

/// Returns the entries from -512 on.
pub fn table() -> &'static [f64] {
    static TABLE: OnceLock<Vec<f64>> = OnceLock::new();
    TABLE.get_or_init(|| (-MOST..=MOST).map(|i| nearest(&series(i))).collect())
}

/// Returns the series for e^(i/128) through its 40th power, over its denominator: 1 + x/1 (1 + x/2 (1 + .. (1 + x/40))).
fn series(i: i32) -> [Natural; 2] {
    let size = Natural::new(i.unsigned_abs().into());
    let (mut top, mut bottom) = (Natural::new(1), Natural::new(1));
    for k in (1..=40).rev() {
        bottom = bottom.times(&Natural::new(128 * k));
        let one_more = top.times(&size);
        top = bottom.clone();
        // no bracket is below zero: from the power k on, the series stays above it down to x = -4
        if i < 0 {
            top.subtract(&one_more);
        } else {
            top.add(&one_more);
        }
    }
    [top, bottom]
}

/// Returns the double nearest to a fraction between 2^-7 and 2^6: of those doubles, which are in the order of their bits, the first whose
/// middle with the next is above the fraction.
fn nearest(fraction: &[Natural; 2]) -> f64 {
    let (mut low, mut high) = (2f64.powi(-7).to_bits(), 2f64.powi(6).to_bits());
    while low < high {
        let bits = (low + high) / 2;
        match middle_beside(bits, fraction) {
            Ordering::Less => low = bits + 1,
            Ordering::Greater => high = bits,
            Ordering::Equal => panic!("an entry is halfway between two doubles"),
        }
    }
    f64::from_bits(low)
}

/// Compares the middle of a double below 2^52 and the next one with a fraction: of d 2^-s it is (2 d + 1) 2^-(s + 1).
fn middle_beside(bits: u64, [top, bottom]: &[Natural; 2]) -> Ordering {
    let (digits, shift) = (bits & ((1 << 52) - 1) | 1 << 52, 1075 - (bits >> 52) as usize);
    Natural::new(2 * digits + 1).times(bottom).cmp(&top.shifted(shift + 1))
}

#[cfg(test)]
mod tests {
    use super::*;

    #[test]
    fn the_grid_is_1025_numbers() {
        let by_looking = |x: f64| (-MOST..=MOST).find(|&i| f64::from(i) / 128.0 == x);
        let grid: Vec<f64> = (-MOST..=MOST).map(|i| f64::from(i) / 128.0).collect();
        let beside = grid.iter().flat_map(|x| [x.next_up(), x.next_down(), x + 1.0 / 256.0]);
        let ends = [4.0 + 1.0 / 128.0, -4.0 - 1.0 / 128.0, 1024.0, 1e300, -1e300, f64::MAX, f64::INFINITY, f64::NEG_INFINITY, f64::NAN];
        let small = [-0.0, 5e-324, -5e-324, f64::MIN_POSITIVE, 1e-200 * 1e-200, 0.1, 1.0 / 3.0, 1.0 / 3.0 * 3.0];
        for x in grid.iter().copied().chain(beside).chain(ends).chain(small) {
            assert_eq!(place(x), by_looking(x), "{x:e}");
        }
        assert_eq!((place(-0.0), place(-4.0), place(4.0), place(1.0 / 3.0 * 3.0)), (Some(0), Some(-512), Some(512), Some(128)));
        assert_eq!((place(5e-324), place(f64::NAN), place(0.1), place(4.0 + 1.0 / 128.0)), (None, None, None, None));
    }

    #[test]
    fn small_fractions_by_hand() {
        let rounded = |top: u64, bottom: u64| nearest(&[Natural::new(top), Natural::new(bottom)]);
        for (top, bottom) in [(1, 3), (2, 3), (7, 5), (355, 113), (63, 1), (1, 64), (1_000_003, 999_983)] {
            assert_eq!(rounded(top, bottom), top as f64 / bottom as f64);
        }
    }

    #[test]
    fn the_series_of_zero_is_one() {
        let [top, bottom] = series(0);
        assert!(top == bottom && entry(0) == 1.0);
    }

    #[test]
    fn entries_rise() {
        assert!(table().windows(2).all(|two| two[0] < two[1]) && table().len() == 1025);
    }

    /// As document 02 has it: an entry and that of the other sign are not one over the other.
    #[test]
    fn minus_is_not_one_over_plus() {
        assert_eq!((1..=MOST).filter(|&i| entry(-i) != 1.0 / entry(i)).count(), 138);
    }
}
