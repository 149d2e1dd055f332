//! Ratios of times, and what is said of them.

use oracle::lattice::Strip;

/// The ratios of some jobs, and the worst of them.
#[derive(Default)]
pub struct Ratios {
    ratios: Vec<f64>,
    worst: Option<(f64, String)>,
}

impl Ratios {
    pub fn add(&mut self, ratio: f64, s: &Strip) {
        self.ratios.push(ratio);
        if self.worst.as_ref().is_none_or(|w| ratio > w.0) {
            self.worst = Some((ratio, format!("{} {} {} x {}", s.kind.name(), s.bc(), s.w, s.l)));
        }
    }

    pub fn print(&self, name: &str) {
        if let Some((worst, job)) = &self.worst {
            let count = self.ratios.len();
            let mean = (self.ratios.iter().map(|r| r.ln()).sum::<f64>() / count as f64).exp();
            let above = self.ratios.iter().filter(|&&r| r > 1.0).count();
            println!("{name}: {count} jobs, geometric mean {mean:.3}, worst {worst:.3} ({job}), {above} above 1.0");
        }
    }
}
