//! The exact sums over all spin settings, in whole numbers: every factor is a whole number times a power of two, and the weight of a setting
//! times the product of all factors is the product of f^2 over the edges whose ends agree.

use oracle::rules::natural::Natural;

/// x in [-1, 1] as m / 2^s, without its sign.
pub fn parts(x: f64) -> (u64, usize) {
    let (digits, exponent) = (x.to_bits() & ((1 << 52) - 1), (x.to_bits() >> 52 & 2047) as usize);
    if exponent == 0 {
        (digits, 1074)
    } else {
        (digits | 1 << 52, 1075 - exponent)
    }
}

/// What an edge weighs where its ends agree, and where they differ, both times one power of two that makes them whole.
fn weights(factor: f64) -> [Natural; 2] {
    let (digits, exponent) = (factor.to_bits() & ((1 << 52) - 1) | 1 << 52, (factor.to_bits() >> 52) as i64 - 1075);
    let zeros = digits.trailing_zeros();
    let (digits, exponent) = (Natural::new(digits >> zeros), exponent + i64::from(zeros));
    let shift = 2 * exponent.unsigned_abs() as usize;
    let (square, one) = (digits.times(&digits), Natural::new(1));
    if exponent < 0 {
        [square, one.shifted(shift)]
    } else {
        [square.shifted(shift), one]
    }
}

/// The sum of all weights, and for each pair that of the settings in which its ends agree. The first spin is up throughout: turning all spins
/// changes no weight.
pub struct Sums {
    pub all: Natural,
    pub agreeing: Vec<Natural>,
}

struct Walk<'a> {
    /// By vertex, the earlier ends of its edges with their weights.
    back: Vec<Vec<(usize, [Natural; 2])>>,
    pairs: &'a [(usize, usize)],
    spins: Vec<bool>,
    sums: Sums,
}

impl Walk<'_> {
    /// Adds the settings that begin with the spins so far, whose edges weigh so much.
    fn go(&mut self, weight: &Natural) {
        let t = self.spins.len();
        if t == self.back.len() {
            self.sums.all.add(weight);
            for (&(u, v), sum) in self.pairs.iter().zip(&mut self.sums.agreeing) {
                if self.spins[u] == self.spins[v] {
                    sum.add(weight);
                }
            }
            return;
        }
        for spin in [false, true] {
            if t == 0 && spin {
                return;
            }
            let of_edge = |(early, w): &(usize, [Natural; 2])| w[usize::from(self.spins[*early] != spin)].clone();
            let weight = self.back[t].iter().map(of_edge).fold(weight.clone(), |product, w| product.times(&w));
            self.spins.push(spin);
            self.go(&weight);
            self.spins.pop();
        }
    }
}

impl Sums {
    pub fn of(n: usize, edges: &[(usize, usize)], factors: &[f64], pairs: &[(usize, usize)]) -> Sums {
        let mut back = vec![Vec::new(); n];
        for (&(early, late), &factor) in edges.iter().zip(factors) {
            back[late].push((early, weights(factor)));
        }
        let sums = Sums { all: Natural::new(0), agreeing: vec![Natural::new(0); pairs.len()] };
        let mut walk = Walk { back, pairs, spins: Vec::new(), sums };
        walk.go(&Natural::new(1));
        walk.sums
    }

    /// Twice the agreeing less all, over all, is the correlation c. Of an answer x its error over a bound of `units` / 2^53, exactly compared
    /// with 1: |(1 + x) Z - 2 A| 2^53 against units Z.
    pub fn error_over_bound(&self, pair: usize, x: f64, units: u64) -> (f64, bool) {
        assert!(x.abs() <= 1.0);
        let (digits, s) = parts(x);
        let mut one_more = Natural::new(1).shifted(s);
        if x.is_sign_negative() {
            one_more.subtract(&Natural::new(digits));
        } else {
            one_more.add(&Natural::new(digits));
        }
        let error = one_more.times(&self.all).apart(&self.agreeing[pair].shifted(s + 1)).shifted(53);
        let bound = Natural::new(units).times(&self.all).shifted(s);
        (error.ratio(&bound), error <= bound)
    }

    /// The whole part of the correlation's size times 2^bits.
    pub fn size(&self, pair: usize, bits: usize) -> Natural {
        self.agreeing[pair].shifted(1).apart(&self.all).over(&self.all, bits)
    }
}
