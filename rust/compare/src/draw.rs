//! What jobs are drawn with: the original's generator, one stream for each job, so that a job can be made again by its number.

use oracle::rng::Rng;

pub struct Draw(Rng);

impl Draw {
    pub fn new(seed: u64, group: u64, job: u64) -> Draw {
        Draw(Rng::stream(seed ^ group.wrapping_mul(0x9E37_79B9_7F4A_7C15), job))
    }

    pub fn word(&mut self) -> u64 {
        self.0.next_u64()
    }

    /// Below n, which is above 0.
    pub fn below(&mut self, n: usize) -> usize {
        (self.word() % n as u64) as usize
    }

    pub fn within(&mut self, low: usize, high: usize) -> usize {
        low + self.below(high - low + 1)
    }

    /// True once in n.
    pub fn once_in(&mut self, n: usize) -> bool {
        self.below(n) == 0
    }

    pub fn between(&mut self, low: f64, high: f64) -> f64 {
        low + (high - low) * self.0.uniform()
    }

    pub fn of<T: Copy>(&mut self, list: &[T]) -> T {
        list[self.below(list.len())]
    }

    pub fn shuffle<T>(&mut self, list: &mut [T]) {
        for i in (1..list.len()).rev() {
            list.swap(i, self.below(i + 1));
        }
    }

    /// The options of a call, any number: either manner, either arrangement, now and then the tester's, or with bits that are not read.
    pub fn options(&mut self) -> usize {
        let bits = self.below(4) + if self.once_in(3) { 4 } else { 0 };
        let unread = (self.word() as usize) & !7;
        bits + if self.once_in(4) { unread } else { 0 }
    }

    /// A NaN of any payload, quiet or signalling, of either sign.
    pub fn nan(&mut self) -> f64 {
        let word = self.word();
        let infinity = f64::INFINITY.to_bits();
        f64::from_bits(if word & !(1 << 63) & !infinity == 0 { f64::NAN.to_bits() } else { word | infinity })
    }

    /// What a lent list of doubles holds before a call: NaNs of any payload, so that what is to stay is told by its bits; or now and then one
    /// double throughout.
    pub fn held(&mut self, length: usize) -> Vec<f64> {
        if self.once_in(4) {
            return vec![self.of(&[0.25, f64::NEG_INFINITY, -0.0, 1e300]); length];
        }
        (0..length).map(|_| self.nan()).collect()
    }

    /// Any double that is finite and above zero, every exponent alike.
    pub fn factor(&mut self) -> f64 {
        f64::from_bits(1 + self.word() % (f64::INFINITY.to_bits() - 1))
    }

    /// A double that is neither: infinite, not a number, zero or below.
    pub fn no_factor(&mut self) -> f64 {
        let (negative, nan) = (-self.factor(), self.nan());
        self.of(&[f64::INFINITY, f64::NEG_INFINITY, nan, 0.0, -0.0, negative])
    }

    /// A multiple of 1/128, of either sign and so many steps at most.
    pub fn steps(&mut self, most: usize) -> f64 {
        (self.within(0, 2 * most) as f64 - most as f64) / 128.0
    }

    /// A coupling that has a house factor: small ones, any, or the ends and zeros of either sign.
    pub fn house_coupling(&mut self, style: usize) -> f64 {
        match style {
            0 => self.steps(192),
            1 => self.steps(512),
            _ => self.of(&[4.0, -4.0, 0.0, -0.0, 1.0 / 128.0, -1.0 / 128.0]),
        }
    }

    /// One that has none: beside the grid, between its steps, past its ends, or not finite.
    pub fn no_house_coupling(&mut self) -> f64 {
        let (on, nan) = (self.house_coupling(1), self.nan());
        let (past, far) = (4.0 + 1.0 / 128.0, [f64::INFINITY, f64::NEG_INFINITY, 1e300]);
        let off = self.of(&[0.1, on.next_up(), on.next_down(), on + 1.0 / 256.0, 5e-324, -5e-324]);
        self.of(&[off, off, off, past, -past, far[0], far[1], far[2], nan])
    }

    /// A double that is no magnitude: not finite, or of a size above 1,024.
    pub fn no_magnitude(&mut self) -> f64 {
        let (above, nan) = (f64::from_bits(1024f64.to_bits() + 1 + self.word() % 1000), self.nan());
        self.of(&[f64::INFINITY, f64::NEG_INFINITY, nan, above, -above, f64::MAX, -1025.0])
    }

    /// A number that is no vertex of n: just past the last, or far off.
    pub fn no_vertex(&mut self, n: usize) -> usize {
        self.of(&[n, n.saturating_add(1), 1 << 32, 1 << 63, usize::MAX])
    }
}

#[cfg(test)]
mod tests {
    use super::Draw;

    #[test]
    fn nans_of_every_kind_are_held() {
        let mut draw = Draw::new(1, 0, 0);
        let lists: Vec<Vec<f64>> = (0..100).map(|_| draw.held(50)).collect();
        let nans: Vec<u64> = lists.into_iter().filter(|list| list[0].is_nan()).flatten().map(|x| x.to_bits()).collect();
        assert!(nans.iter().all(|&bits| f64::from_bits(bits).is_nan()) && nans.len() > 3000);
        for (sign, quiet) in [(0, 0), (0, 1), (1, 0), (1, 1)] {
            let such = nans.iter().filter(|&bits| bits >> 63 == sign && bits >> 51 & 1 == quiet);
            assert!(such.count() > 500);
        }
    }
}
