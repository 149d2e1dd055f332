//! Numbers not below zero with 256 binary digits, 77 decimal ones, and an exponent that no sweep reaches the end of. Sums and products are cut
//! off, so each is short by less than one part in 2^255.

const WORDS: usize = 4;

/// `digits` times 2^exponent: lowest word first, the top bit set; all zero for zero.
#[derive(Clone, Copy, Debug, PartialEq)]
pub struct Wide {
    digits: [u64; WORDS],
    exponent: i64,
}

pub const ZERO: Wide = Wide { digits: [0; WORDS], exponent: 0 };

impl Wide {
    /// A double that is finite and not below zero, exactly.
    pub fn of(x: f64) -> Wide {
        let (digits, exponent) = (x.to_bits() & ((1 << 52) - 1), (x.to_bits() >> 52) as i64);
        let (digits, exponent) = if exponent == 0 { (digits, -1074) } else { (digits | 1 << 52, exponent - 1075) };
        Wide { digits: [0, 0, 0, digits], exponent: exponent - 192 }.normal()
    }

    fn is_zero(&self) -> bool {
        self.digits == [0; WORDS]
    }

    /// With the top bit set.
    fn normal(mut self) -> Wide {
        if self.is_zero() {
            return ZERO;
        }
        while self.digits[WORDS - 1] == 0 {
            self.digits.rotate_right(1);
            self.exponent -= 64;
        }
        let shift = self.digits[WORDS - 1].leading_zeros();
        if shift > 0 {
            for i in (1..WORDS).rev() {
                self.digits[i] = self.digits[i] << shift | self.digits[i - 1] >> (64 - shift);
            }
            self.digits[0] <<= shift;
            self.exponent -= i64::from(shift);
        }
        self
    }

    /// The digits of a number that is so many places smaller.
    fn lowered(&self, places: u64) -> [u64; WORDS] {
        let (words, bits) = ((places / 64) as usize, places % 64);
        let at = |i: usize| self.digits.get(i).copied().unwrap_or(0);
        let mut digits = [0; WORDS];
        if places < 64 * WORDS as u64 {
            for (i, digit) in digits.iter_mut().enumerate() {
                let above = if bits == 0 { 0 } else { at(i + words + 1) << (64 - bits) };
                *digit = at(i + words) >> bits | above;
            }
        }
        digits
    }

    /// The larger first.
    fn ordered(self, other: Wide) -> (Wide, Wide) {
        let key = |x: &Wide| (!x.is_zero(), x.exponent, x.digits[3], x.digits[2], x.digits[1], x.digits[0]);
        if key(&self) >= key(&other) {
            (self, other)
        } else {
            (other, self)
        }
    }

    pub fn plus(self, other: Wide) -> Wide {
        let (more, less) = self.ordered(other);
        if less.is_zero() {
            return more;
        }
        let (mut digits, lower) = (more.digits, less.lowered((more.exponent - less.exponent) as u64));
        let mut carry = 0;
        for (digit, low) in digits.iter_mut().zip(lower) {
            let sum = u128::from(*digit) + u128::from(low) + carry;
            (*digit, carry) = (sum as u64, sum >> 64);
        }
        let sum = Wide { digits, exponent: more.exponent };
        if carry == 0 {
            return sum;
        }
        let mut digits = sum.lowered(1);
        digits[WORDS - 1] |= 1 << 63;
        Wide { digits, exponent: more.exponent + 1 }
    }

    /// How far apart two are.
    pub fn apart(self, other: Wide) -> Wide {
        let (more, less) = self.ordered(other);
        if less.is_zero() {
            return more;
        }
        let (mut digits, lower) = (more.digits, less.lowered((more.exponent - less.exponent) as u64));
        let mut borrow = false;
        for (digit, low) in digits.iter_mut().zip(lower) {
            let (rest, under) = digit.overflowing_sub(low);
            let (rest, again) = rest.overflowing_sub(borrow.into());
            (*digit, borrow) = (rest, under || again);
        }
        Wide { digits, exponent: more.exponent }.normal()
    }

    pub fn times(self, other: Wide) -> Wide {
        let mut product = [0u64; 2 * WORDS];
        for (i, x) in self.digits.into_iter().enumerate() {
            let mut carry = 0u128;
            for (j, y) in other.digits.into_iter().enumerate() {
                carry += u128::from(x) * u128::from(y) + u128::from(product[i + j]);
                product[i + j] = carry as u64;
                carry >>= 64;
            }
            product[i + WORDS] = carry as u64;
        }
        let exponent = self.exponent + other.exponent + 64 * WORDS as i64;
        let top = [product[4], product[5], product[6], product[7]];
        if top[WORDS - 1] >> 63 == 1 || top == [0; WORDS] {
            return Wide { digits: top, exponent }.normal();
        }
        let shifted: [u64; WORDS] = std::array::from_fn(|i| top[i] << 1 | product[i + WORDS - 1] >> 63);
        Wide { digits: shifted, exponent: exponent - 1 }
    }

    /// About the ratio of two, the second not zero.
    pub fn ratio(self, other: Wide) -> f64 {
        let places = (self.exponent - other.exponent).clamp(-2000, 2000) as i32;
        self.digits[WORDS - 1] as f64 / other.digits[WORDS - 1] as f64 * 2f64.powi(places)
    }
}

#[cfg(test)]
mod tests {
    use super::*;

    #[test]
    fn whole_numbers_are_exact() {
        let numbers = [0u64, 1, 2, 3, 7, 12345, (1 << 50) + 1, (1 << 53) - 1];
        for x in numbers {
            for y in numbers {
                let (a, b) = (Wide::of(x as f64), Wide::of(y as f64));
                assert_eq!(a.plus(b).apart(b), a);
                assert_eq!(a.apart(b), Wide::of(x.abs_diff(y) as f64));
                if let Some(product) = x.checked_mul(y).filter(|p| *p < 1 << 53) {
                    assert_eq!(a.times(b), Wide::of(product as f64));
                }
                let square = a.plus(b).times(a.plus(b));
                let parts = a.times(a).plus(b.times(b)).plus(a.times(b).times(Wide::of(2.0)));
                assert_eq!(square, parts);
            }
        }
        assert_eq!(Wide::of(5e-324).times(Wide::of(2f64.powi(1000))).times(Wide::of(2f64.powi(74))), Wide::of(1.0));
    }

    #[test]
    fn a_third_has_many_digits() {
        // the sum of 4^-k for k from 1 on
        let (mut third, mut term) = (ZERO, Wide::of(1.0));
        for _ in 0..200 {
            term = term.times(Wide::of(0.25));
            third = third.plus(term);
        }
        let error = third.times(Wide::of(3.0)).apart(Wide::of(1.0));
        assert!(error.ratio(Wide::of(1.0)) < 2f64.powi(-250));
    }
}
