//! The times of a call on both sides.

/// Seconds of one call of the original, of ours, and of the exponentials.
pub struct Times {
    pub original: f64,
    pub ours: f64,
    pub exponentials: f64,
}

impl Times {
    /// Our time over the original's.
    pub fn ratio(&self) -> f64 {
        self.ours / self.original
    }

    /// Returns the cells in a table: both times in milliseconds, their ratio, and that with the exponentials on our side.
    pub fn cells(&self) -> String {
        let with_exponentials = (self.ours + self.exponentials) / self.original;
        format!("{:.3} | {:.3} | {:.3} | {with_exponentials:.3}", 1e3 * self.original, 1e3 * self.ours, self.ratio())
    }
}
