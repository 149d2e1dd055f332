//! Shares of stored correlations, from document 02: what a call is refused by, and the four fractions.

/// The most lists, and the most entries of one.
pub const LISTS: usize = 256;
pub const ENTRIES: usize = 1 << 24;

/// Returns whether an entry is a number from -1 to 1.
fn is_correlation(x: f64) -> bool {
    (-1.0..=1.0).contains(&x)
}

/// Returns the lists one by one; `None` where there is none or too many, one is empty or too long, or they are not all that is lent.
fn lists<'a>(stored: &'a [f64], lengths: &[usize]) -> Option<Vec<&'a [f64]>> {
    if !(1..=LISTS).contains(&lengths.len()) {
        return None;
    }
    let (mut lists, mut rest) = (Vec::new(), stored);
    for &length in lengths {
        if !(1..=ENTRIES).contains(&length) || length > rest.len() {
            return None;
        }
        let (list, behind) = rest.split_at(length);
        lists.push(list);
        rest = behind;
    }
    rest.is_empty().then_some(lists)
}

/// Returns the greatest number that divides both, neither of which is 0: by halving, and subtracting the smaller odd number.
fn common_divisor(mut a: u64, mut b: u64) -> u64 {
    let twos = (a | b).trailing_zeros();
    a >>= a.trailing_zeros();
    b >>= b.trailing_zeros();
    while a != b {
        if a > b {
            a -= b;
            a >>= a.trailing_zeros();
        } else {
            b -= a;
            b >>= b.trailing_zeros();
        }
    }
    a << twos
}

/// Returns top and bottom of so many of all.
fn fraction(many: u64, all: u64) -> [u64; 2] {
    match many {
        0 => [0, 1],
        _ => [many, all].map(|x| x / common_divisor(many, all)),
    }
}

/// Returns the eight words of the shares: those above zero, zero, below zero, and 1/2 or more in size; or the refusal.
pub fn shares(stored: &[f64], lengths: &[usize]) -> Result<[u64; 8], usize> {
    let lists = lists(stored, lengths).ok_or(25usize)?;
    if !lists.iter().all(|list| list.iter().all(|&x| is_correlation(x))) {
        return Err(25);
    }
    let all: u64 = lists.iter().map(|list| list.len() as u64).sum();
    let of = |kind: fn(f64) -> bool| {
        let many = lists.iter().map(|list| list.iter().filter(|&&x| kind(x)).count() as u64).sum();
        fraction(many, all)
    };
    let is_zero = |x: f64| x.to_bits() << 1 == 0;
    let kinds = [of(|x| x > 0.0), of(is_zero), of(|x| x < 0.0), of(|x| x.abs() >= 0.5)];
    Ok([kinds[0][0], kinds[0][1], kinds[1][0], kinds[1][1], kinds[2][0], kinds[2][1], kinds[3][0], kinds[3][1]])
}

#[cfg(test)]
mod tests {
    use super::{common_divisor, shares};

    #[test]
    fn divisors_by_hand() {
        assert_eq!([(12, 18), (7, 7), (1, 9), (89, 55), (64, 48)].map(|(a, b)| common_divisor(a, b)), [6, 7, 1, 1, 16]);
    }

    #[test]
    fn shares_by_hand() {
        assert_eq!(shares(&[1.0, 0.0, -0.0], &[1, 2]), Ok([1, 3, 2, 3, 0, 1, 1, 3]));
        assert_eq!(shares(&[-0.5, 0.4], &[2]), Ok([1, 2, 0, 1, 1, 2, 1, 2]));
        assert_eq!((shares(&[], &[]), shares(&[f64::NAN], &[1]), shares(&[1.5], &[1])), (Err(25), Err(25), Err(25)));
        assert_eq!((shares(&[0.0], &[2]), shares(&[0.0, 0.0], &[1]), shares(&[], &[1 << 63, 1 << 63])), (Err(25), Err(25), Err(25)));
    }
}
