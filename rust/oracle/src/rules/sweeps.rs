//! The sweeps: the Z that the original does not hand out, and answers to hold against its own.

/// A job that passed its checks: kept edges with their factors, smaller end first; `each` rescales after every step.
pub struct Model<'a> {
    pub n: usize,
    pub window: usize,
    pub edges: &'a [(usize, usize, f64)],
    pub each: bool,
}

/// A vertex's left factor, 1.0 for none, and its nearer back edges' distances and factors, shortest first.
struct Step {
    ep: f64,
    near: Vec<(usize, f64)>,
}

impl Step {
    fn up(&self, k: usize, scale: f64) -> f64 {
        let weigh = |f: f64, &(d, x): &(usize, f64)| if (k >> (d - 1)) & 1 == 0 { f * x } else { f / x };
        self.near.iter().fold(1.0, weigh) * scale
    }

    fn down(&self, k: usize, scale: f64) -> f64 {
        self.up(!k, scale)
    }

    fn forward(&self, v: &[f64], scale: f64) -> Vec<f64> {
        let (ep, em, half) = (self.ep, 1.0 / self.ep, v.len() / 2);
        let entry = |j: usize| {
            let (k, a, b) = (j / 2, v[j / 2], v[j / 2 + half]);
            if j.is_multiple_of(2) {
                (ep * a + em * b) * self.up(k, scale)
            } else {
                (em * a + ep * b) * self.down(k, scale)
            }
        };
        (0..v.len()).map(entry).collect()
    }

    fn backward(&self, v: &[f64], scale: f64) -> Vec<f64> {
        let (ep, em, half) = (self.ep, 1.0 / self.ep, v.len() / 2);
        let entry = |j: usize| {
            let k = j % half;
            let (x, y) = (v[2 * k] * self.up(k, scale), v[2 * k + 1] * self.down(k, scale));
            if j < half {
                ep * x + em * y
            } else {
                em * x + ep * y
            }
        };
        (0..v.len()).map(entry).collect()
    }
}

impl Model<'_> {
    fn step(&self, t: usize) -> Step {
        let back: Vec<(usize, f64)> = self.edges.iter().filter(|e| e.1 == t).map(|e| (t - e.0, e.2)).collect();
        let left = back.iter().find(|e| e.0 == self.window);
        let mut near: Vec<(usize, f64)> = back.iter().filter(|e| e.0 < self.window).copied().collect();
        near.sort_by_key(|e| e.0);
        Step { ep: left.map_or(1.0, |e| e.1), near }
    }

    /// Returns the largest entry where it is taken, else 1.0; a NaN is passed over.
    fn stored(&self, v: &[f64], taken: bool) -> f64 {
        if self.each || taken {
            v.iter().fold(0.0, |m, &x| if m < x { x } else { m })
        } else {
            1.0
        }
    }

    /// Returns Z, and N over Z, of each pair. Vertex 0 takes a step from the start, as in the original.
    pub fn answers(&self, pairs: &[(usize, usize)]) -> Vec<(f64, f64)> {
        let swept = self.sweep();
        pairs.iter().map(|&(a, b)| self.ratio(&swept, a.min(b), a.max(b))).collect()
    }

    fn sweep(&self) -> Swept {
        let steps: Vec<Step> = (0..self.n).map(|t| self.step(t)).collect();
        let start = vec![1.0; 1 << self.window];
        let (mut forward, mut scales, mut most) = (Vec::<Vec<f64>>::new(), Vec::new(), 1.0);
        for (t, step) in steps.iter().enumerate() {
            scales.push(1.0 / most);
            forward.push(step.forward(forward.last().unwrap_or(&start), scales[t]));
            most = self.stored(&forward[t], t % 4 == 3);
        }
        let (mut backward, mut most) = (vec![start; self.n], 1.0);
        for t in (1..self.n).rev() {
            backward[t - 1] = steps[t].backward(&backward[t], 1.0 / most);
            most = self.stored(&backward[t - 1], t.is_multiple_of(4));
        }
        Swept { steps, scales, forward, backward }
    }

    /// Returns Z, and N over Z, of the pair of `u` and the later `v`.
    fn ratio(&self, swept: &Swept, u: usize, v: usize) -> (f64, f64) {
        let (forward, backward) = (&swept.forward[v], &swept.backward[v]);
        let direct = v - u < self.window;
        let propagated = if direct { forward.clone() } else { swept.propagated(u, v) };
        let (mut z, mut n) = (0.0, 0.0);
        for j in 0..forward.len() {
            z += forward[j] * backward[j];
            let subtracted = if direct { (j ^ (j >> (v - u))) & 1 == 1 } else { j % 2 == 1 };
            let product = propagated[j] * backward[j];
            n = if subtracted { n - product } else { n + product };
        }
        (z, n / z)
    }
}

/// The vectors of both sweeps, with the steps and the forward scales.
struct Swept {
    steps: Vec<Step>,
    scales: Vec<f64>,
    forward: Vec<Vec<f64>>,
    backward: Vec<Vec<f64>>,
}

impl Swept {
    /// Returns the forward vector of `u`, its odd entries negated, taken on to `v` by the stored scales.
    fn propagated(&self, u: usize, v: usize) -> Vec<f64> {
        let mut vector = self.forward[u].clone();
        vector.iter_mut().skip(1).step_by(2).for_each(|x| *x = -*x);
        (u + 1..=v).fold(vector, |vector, t| self.steps[t].forward(&vector, self.scales[t]))
    }
}
