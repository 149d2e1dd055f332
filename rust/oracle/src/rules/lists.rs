//! The edges and pairs of a job, and what follows from them: kept edges, window, free edges, room.

use std::collections::HashSet;

/// The edges that are lent, whatever they hold.
#[derive(Clone, Debug, Default)]
pub struct Edges {
    pub n: usize,
    pub floor: usize,
    pub a: Vec<usize>,
    pub b: Vec<usize>,
    pub m: Vec<f64>,
}

/// The pairs that are lent.
#[derive(Clone, Debug, Default)]
pub struct Pairs {
    pub us: Vec<usize>,
    pub vs: Vec<usize>,
}

/// Returns the numbers of a list of 64-bit words.
pub fn numbers(words: &[u64]) -> Vec<usize> {
    words.iter().map(|&word| word as usize).collect()
}

impl Edges {
    /// Returns the lists of the edges that are given one by one, without a floor.
    pub fn new(n: usize, raw: &[(usize, usize, f64)]) -> Edges {
        let mut edges = Edges { n, ..Edges::default() };
        raw.iter().for_each(|&(a, b, m)| edges.push(a, b, m));
        edges
    }

    /// Adds an edge.
    pub fn push(&mut self, a: usize, b: usize, m: f64) {
        self.a.push(a);
        self.b.push(b);
        self.m.push(m);
    }

    /// Returns the edges of a graph whose numbers are 64-bit words.
    pub fn of_words(n: u64, floor: u64, [a, b]: [&[u64]; 2], m: &[f64]) -> Edges {
        Edges { n: n as usize, floor: floor as usize, a: numbers(a), b: numbers(b), m: m.to_vec() }
    }

    /// Returns the edges one by one, as the original takes them.
    pub fn raw(&self) -> Vec<(usize, usize, f64)> {
        self.a.iter().zip(&self.b).zip(&self.m).map(|((&a, &b), &m)| (a, b, m)).collect()
    }

    /// Returns the kept edges, the smaller end first, with their magnitudes.
    pub fn kept(&self) -> Vec<(usize, usize, f64)> {
        self.raw().into_iter().filter(|e| e.2 != 0.0).map(|(a, b, m)| (a.min(b), a.max(b), m)).collect()
    }

    /// Returns the couplings of the kept edges at each beta: beta times magnitude, rounded once.
    pub fn couplings(&self, betas: &[f64]) -> Vec<f64> {
        let kept = self.kept();
        betas.iter().flat_map(|beta| kept.iter().map(move |e| beta * e.2)).collect()
    }

    /// Returns each kept edge's place in the raw list.
    pub fn places(&self) -> Vec<usize> {
        (0..self.m.len()).filter(|&place| self.m[place] != 0.0).collect()
    }

    /// Returns the largest of 1, the floor and the longest kept edge.
    pub fn window(&self) -> usize {
        self.kept().iter().map(|e| e.1 - e.0).chain([1, self.floor]).max().unwrap()
    }

    /// Returns the lowest vertex of each component, in rising order: one that no kept edges lead down from.
    pub fn lowest(&self) -> Vec<usize> {
        let mut reached = vec![false; self.n];
        let mut lowest = Vec::new();
        for v in 0..self.n {
            if !reached[v] {
                lowest.push(v);
                self.reach(v, &mut reached);
            }
        }
        lowest
    }

    /// Marks every vertex that kept edges join with `v`.
    fn reach(&self, v: usize, reached: &mut [bool]) {
        let mut open = vec![v];
        reached[v] = true;
        while let Some(u) = open.pop() {
            for (a, b, _) in self.kept() {
                for (from, to) in [(a, b), (b, a)] {
                    if from == u && !reached[to] {
                        reached[to] = true;
                        open.push(to);
                    }
                }
            }
        }
    }

    /// Returns the places of the free edges: the kept ones whose ends earlier kept ones join already.
    pub fn free(&self) -> Vec<usize> {
        let mut name: Vec<usize> = (0..self.n).collect();
        let mut free = Vec::new();
        for (e, (a, b, _)) in self.kept().into_iter().enumerate() {
            let (old, new) = (name[b], name[a]);
            if old == new {
                free.push(e);
            }
            name.iter_mut().filter(|x| **x == old).for_each(|x| *x = new);
        }
        free
    }

    /// Returns each kept edge's bit of a configuration's number: its position among the free edges; a tree edge has none.
    pub fn bits(&self) -> Vec<Option<usize>> {
        let free = self.free();
        (0..self.kept().len()).map(|e| free.iter().position(|&f| f == e)).collect()
    }
}

impl Pairs {
    /// Returns the lists of the pairs that are given one by one.
    pub fn new(raw: &[(usize, usize)]) -> Pairs {
        let (us, vs) = raw.iter().copied().unzip();
        Pairs { us, vs }
    }

    /// Returns the pairs one by one, as the original takes them.
    pub fn raw(&self) -> Vec<(usize, usize)> {
        self.us.iter().copied().zip(self.vs.iter().copied()).collect()
    }

    /// Returns the pairs as records: the two ends of each side by side.
    pub fn records(&self) -> Vec<usize> {
        self.raw().into_iter().flat_map(|(u, v)| [u, v]).collect()
    }
}

/// Returns the room of a job that passed checks 1 to 8, in doubles: 2^window times (2 + kept forward vectors + kept backward vectors) +
/// vertices + kept edges. Later vertices keep a backward vector; with less room those of propagated pairs alone.
pub fn room(edges: &Edges, pairs: &Pairs, less: bool) -> usize {
    let window = edges.window();
    let ordered: Vec<(usize, usize)> = pairs.raw().into_iter().map(|(u, v)| (u.min(v), u.max(v))).collect();
    let propagated: Vec<(usize, usize)> = ordered.iter().copied().filter(|(u, v)| v - u >= window).collect();
    let later = |pairs: &[(usize, usize)]| -> HashSet<usize> { pairs.iter().map(|p| p.1).collect() };
    let forward: HashSet<usize> = later(&ordered).into_iter().chain(propagated.iter().map(|p| p.0)).collect();
    let backward = later(if less { &propagated } else { &ordered });
    (2 + forward.len() + backward.len()) * (1 << window) + edges.n + edges.kept().len()
}

#[cfg(test)]
mod tests {
    use super::*;

    #[test]
    fn rooms_by_hand() {
        let rooms = |floor: usize, pairs: &[(usize, usize)]| {
            let edges = Edges { floor, ..Edges::new(4, &[(1, 0, 0.5), (2, 3, 0.0)]) };
            [false, true].map(|less| room(&edges, &Pairs::new(pairs), less))
        };
        assert_eq!((rooms(2, &[(0, 1)]), rooms(1, &[(0, 1)])), ([4 * 4 + 5, 4 * 3 + 5], [2 * 5 + 5; 2]));
        // 0-2 is propagated; of 3-2 and 1-2 the later vertices are 3 and 2
        assert_eq!(rooms(2, &[(0, 2), (3, 2), (1, 2)]), [4 * 7 + 5, 4 * 6 + 5]);
    }
}
