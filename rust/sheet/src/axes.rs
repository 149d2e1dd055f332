//! Where data lies in a plot: distances to the right, values up, by their size on a logarithmic axis where they span decades.

use crate::sheet::Sheet;

/// The frame, in the page's units.
pub const LEFT: f64 = 85.0;
pub const RIGHT: f64 = 650.0;
pub const HEIGHT: f64 = 380.0;

/// The room at either side of the frame.
const SIDE: f64 = 35.0;

/// From so many decades on the axis is logarithmic.
const DECADES: f64 = 2.0;

pub enum Scale {
    /// From the first to the second value.
    Linear(f64, f64),
    /// From the first to the second power of ten, of the value's size.
    Log(f64, f64),
}

pub struct Axes {
    pub top: f64,
    pub near: f64,
    pub far: f64,
    pub scale: Scale,
}

/// How far a value may be from the exact one: what is smaller says nothing on a logarithmic axis.
pub fn floor(sheet: &Sheet, beta: usize) -> f64 {
    sheet.bounds[beta].unwrap_or(1e-15)
}

impl Axes {
    pub fn of(sheet: &Sheet, top: f64, linear: bool) -> Axes {
        let distances = || sheet.rows.iter().filter_map(|row| row.distance);
        let (near, far) = (distances().min().unwrap_or(0) as f64, distances().max().unwrap_or(1) as f64);
        let joined = || sheet.rows.iter().filter(|row| row.distance.is_some());
        let cells = || joined().flat_map(|row| row.values.iter().enumerate().map(|(i, of_beta)| (of_beta[0], floor(sheet, i))));
        let sizes = || cells().map(|(x, floor)| (x.abs(), floor)).filter(|(x, floor)| x > floor).map(|cell| cell.0);
        let (least, most) = (sizes().fold(f64::INFINITY, f64::min), sizes().fold(0.0, f64::max));
        let scale = if !linear && most > 0.0 && (most / least).log10() >= DECADES {
            Scale::Log(least.log10().floor(), most.log10().ceil())
        } else {
            let errors = || joined().flat_map(|row| row.values.iter().map(|v| v[0].abs() + if sheet.drawn() { v[1] } else { 0.0 }));
            let most = nice(errors().fold(0.0, f64::max));
            Scale::Linear(if cells().any(|(x, _)| x < 0.0) { -most } else { 0.0 }, most)
        };
        Axes { top, near, far, scale }
    }

    pub fn bottom(&self) -> f64 {
        self.top + HEIGHT
    }

    /// Room is left on either side, so that marks lie inside the frame.
    pub fn x(&self, distance: f64) -> f64 {
        let share = if self.far > self.near { (distance - self.near) / (self.far - self.near) } else { 0.5 };
        LEFT + SIDE + share * (RIGHT - LEFT - 2.0 * SIDE)
    }

    /// `None` where the axis does not reach.
    pub fn y(&self, value: f64) -> Option<f64> {
        let share = match self.scale {
            Scale::Linear(low, high) => (value - low) / (high - low),
            Scale::Log(low, high) => (value.abs().log10() - low) / (high - low),
        };
        // a little room above and below, again for the marks
        (0.0..=1.0).contains(&share).then(|| self.bottom() - 10.0 - share * (HEIGHT - 20.0))
    }

    /// Values with a line, and how they are written.
    pub fn ticks(&self) -> Vec<(f64, String)> {
        match self.scale {
            Scale::Linear(low, high) => {
                let parts = if low < 0.0 { 8 } else { 4 };
                let tick = |i: i32| low + (high - low) * f64::from(i) / f64::from(parts);
                (0..=parts).map(|i| (tick(i), short(tick(i), high))).collect()
            }
            Scale::Log(low, high) => {
                let step = ((high - low) / 10.0).ceil().max(1.0) as usize;
                let powers = (low as i32..=high as i32).rev().step_by(step);
                powers.map(|p| (10f64.powi(p), if p == 0 { "1".to_string() } else { format!("1e{p}") })).collect()
            }
        }
    }
}

/// The next of 1, 2 or 5 times a power of ten; 1 for nothing.
fn nice(x: f64) -> f64 {
    if x <= 0.0 {
        return 1.0;
    }
    let power = 10f64.powi(x.log10().floor() as i32);
    [1.0, 2.0, 5.0, 10.0].into_iter().map(|digit| digit * power).find(|&up| up >= x * 0.999_999).unwrap_or(10.0 * power)
}

/// As many decimals as the axis needs.
fn short(x: f64, high: f64) -> String {
    if high < 1e-3 {
        return format!("{x:.1e}");
    }
    format!("{x:.*}", (2.0 - high.log10().floor()) as usize)
}

#[cfg(test)]
mod tests {
    use super::*;

    #[test]
    fn axes_end_at_round_numbers() {
        assert_eq!([0.0, 0.93, 0.2, 0.21, 1.0, 6e-5].map(nice), [1.0, 1.0, 0.2, 0.5, 1.0, 1e-4]);
        assert_eq!([short(0.25, 1.0), short(0.05, 0.2), short(2.5e-5, 1e-4)], ["0.25", "0.050", "2.5e-5"]);
    }

    #[test]
    fn marks_lie_inside_the_frame() {
        for scale in [Scale::Linear(-1.0, 1.0), Scale::Log(-9.0, 0.0)] {
            let axes = Axes { top: 50.0, near: 1.0, far: 9.0, scale };
            assert!(axes.x(1.0) > LEFT + 20.0 && axes.x(9.0) < RIGHT - 20.0);
            let ys: Vec<f64> = axes.ticks().iter().map(|tick| axes.y(tick.0).unwrap()).collect();
            assert!(ys.iter().all(|y| *y >= 55.0 && *y <= 425.0) && ys.len() > 4);
            assert_eq!(axes.y(1.5), None);
        }
    }
}
