//! Natural numbers of any size: what exact sums of products of doubles, and the series of the house table, need, and no more.

use std::cmp::Ordering;

/// Words from the lowest up, the highest one not zero.
#[derive(Clone, Debug, PartialEq, Eq)]
pub struct Natural(Vec<u64>);

impl Natural {
    /// Returns the number that a word is.
    pub fn new(word: u64) -> Natural {
        Natural(vec![word]).trimmed()
    }

    fn trimmed(mut self) -> Natural {
        while self.0.last() == Some(&0) {
            self.0.pop();
        }
        self
    }

    /// Adds a number.
    pub fn add(&mut self, other: &Natural) {
        self.0.resize(self.0.len().max(other.0.len()) + 1, 0);
        let mut carry = false;
        for (i, word) in self.0.iter_mut().enumerate() {
            let more = other.0.get(i).copied().unwrap_or(0);
            let (sum, over) = word.overflowing_add(more);
            let (sum, again) = sum.overflowing_add(carry.into());
            (*word, carry) = (sum, over || again);
        }
        *self = std::mem::replace(self, Natural(Vec::new())).trimmed();
    }

    /// Takes a number away that is not above it.
    pub fn subtract(&mut self, other: &Natural) {
        let mut borrow = false;
        for (i, word) in self.0.iter_mut().enumerate() {
            let less = other.0.get(i).copied().unwrap_or(0);
            let (rest, under) = word.overflowing_sub(less);
            let (rest, again) = rest.overflowing_sub(borrow.into());
            (*word, borrow) = (rest, under || again);
        }
        assert!(!borrow, "a natural number was to go below zero");
        *self = std::mem::replace(self, Natural(Vec::new())).trimmed();
    }

    /// Returns how far apart two are.
    pub fn apart(&self, other: &Natural) -> Natural {
        let (more, less) = if *self >= *other { (self, other) } else { (other, self) };
        let mut rest = more.clone();
        rest.subtract(less);
        rest
    }

    /// Returns the product of two.
    pub fn times(&self, other: &Natural) -> Natural {
        let mut product = vec![0u64; self.0.len() + other.0.len()];
        for (i, &x) in self.0.iter().enumerate() {
            let mut carry = 0u128;
            for (j, &y) in other.0.iter().enumerate() {
                carry += u128::from(x) * u128::from(y) + u128::from(product[i + j]);
                product[i + j] = carry as u64;
                carry >>= 64;
            }
            product[i + other.0.len()] = carry as u64;
        }
        Natural(product).trimmed()
    }

    /// Returns itself times two to a power.
    pub fn shifted(&self, bits: usize) -> Natural {
        let (words, bits) = (bits / 64, bits % 64);
        let mut shifted = vec![0; words];
        let mut carry = 0;
        for &word in &self.0 {
            shifted.push(word << bits | carry);
            carry = if bits == 0 { 0 } else { word >> (64 - bits) };
        }
        shifted.push(carry);
        Natural(shifted).trimmed()
    }

    /// Returns the whole part of itself times 2^bits over a number that is not below it.
    pub fn over(&self, other: &Natural, bits: usize) -> Natural {
        let (mut rest, mut quotient) = (self.clone(), Natural::new(0));
        for step in 0..=bits {
            if step > 0 {
                (rest, quotient) = (rest.shifted(1), quotient.shifted(1));
            }
            if rest >= *other {
                rest.subtract(other);
                quotient.add(&Natural::new(1));
            }
        }
        quotient
    }

    /// About as a double times two to a power.
    fn rough(&self) -> (f64, i32) {
        match self.0[..] {
            [] => (0.0, 0),
            [word] => (word as f64, 0),
            [.., low, high] => (high as f64 * 2f64.powi(64) + low as f64, 64 * (self.0.len() as i32 - 2)),
        }
    }

    /// Returns about the ratio of two, the second not zero.
    pub fn ratio(&self, other: &Natural) -> f64 {
        let ((x, p), (y, q)) = (self.rough(), other.rough());
        x / y * 2f64.powi(p - q)
    }
}

impl PartialOrd for Natural {
    fn partial_cmp(&self, other: &Natural) -> Option<Ordering> {
        Some(self.cmp(other))
    }
}

impl Ord for Natural {
    fn cmp(&self, other: &Natural) -> Ordering {
        self.0.len().cmp(&other.0.len()).then_with(|| self.0.iter().rev().cmp(other.0.iter().rev()))
    }
}

#[cfg(test)]
mod tests {
    use super::Natural;

    /// Small cases against the machine's own numbers, and one across words: a wrong sum here would judge the library wrongly.
    #[test]
    fn sums_and_products() {
        let big = |x: u128| Natural(vec![x as u64, (x >> 64) as u64]).trimmed();
        let numbers = [0u128, 1, 3, u64::MAX.into(), 1 << 64, (1 << 64) + 7, 0xDEAD_BEEF << 40, (1 << 126) - 1];
        for x in numbers {
            for y in numbers {
                let mut sum = big(x);
                sum.add(&big(y));
                assert_eq!(sum, big(x + y));
                assert_eq!((big(x).apart(&big(y)), big(x).cmp(&big(y))), (big(x.abs_diff(y)), x.cmp(&y)));
                if let Some(product) = x.checked_mul(y) {
                    assert_eq!(big(x).times(&big(y)), big(product));
                }
                if 0 < y && x <= y && y < 1 << 100 {
                    assert_eq!(big(x).over(&big(y), 20), big((x << 20) / y));
                }
            }
            assert_eq!(big(x).shifted(100).apart(&Natural::new(0)), big(x).times(&big(1 << 100)));
        }
        let far = Natural::new(5).shifted(1000);
        assert_eq!((far.times(&far), far.ratio(&Natural::new(10).shifted(1001))), (Natural::new(25).shifted(2000), 0.25));
    }
}
