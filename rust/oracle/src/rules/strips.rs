//! The strip of eight neighbours, which the original does not have, from document 02.

/// Returns its edges, of magnitude 1.0, the smaller end first: at each site the square's edges, across and then along, and after the one along
/// the diagonals (x, y) to (x + 1, y + 1) and (x, y + 1) to (x + 1, y), where those sites exist. On a cylinder wider than 2 the vertex across
/// that follows the last is the first.
pub fn eight_edges(w: usize, l: usize, periodic: bool) -> Vec<(usize, usize, f64)> {
    let mut edges = Vec::new();
    for (x, y) in (0..l).flat_map(|x| (0..w).map(move |y| (x, y))) {
        let (here, along) = (x * w + y, (x + 1) * w + y);
        let next = if y + 1 < w { Some(y + 1) } else { (periodic && w > 2).then_some(0) };
        let across = next.map(|next| (here.min(x * w + next), here.max(x * w + next)));
        let diagonals = next.map(|next| [(here, (x + 1) * w + next), (x * w + next, along)]);
        edges.extend(across);
        if x + 1 < l {
            edges.push((here, along));
            edges.extend(diagonals.into_iter().flatten());
        }
    }
    edges.into_iter().map(|(a, b)| (a, b, 1.0)).collect()
}

#[cfg(test)]
mod tests {
    use super::eight_edges;
    use crate::rules::lists::Edges;
    use std::collections::HashSet;

    fn ends(w: usize, l: usize, periodic: bool) -> Vec<(usize, usize)> {
        eight_edges(w, l, periodic).into_iter().map(|(a, b, _)| (a, b)).collect()
    }

    #[test]
    fn small_strips() {
        let four = [(0, 1), (0, 2), (0, 3), (1, 2), (1, 3), (2, 3)];
        assert!(ends(2, 2, false) == four && ends(2, 2, true) == four);
        assert_eq!(ends(1, 3, true), [(0, 1), (1, 2)]);
        assert_eq!(ends(3, 1, true), [(0, 1), (1, 2), (0, 2)]);
        let round =
            [(0, 1), (0, 3), (0, 4), (1, 3), (1, 2), (1, 4), (1, 5), (2, 4), (0, 2), (2, 5), (2, 3), (0, 5), (3, 4), (4, 5), (3, 5)];
        assert_eq!(ends(3, 2, true), round);
    }

    #[test]
    fn edges_are_as_long_as_02_says_and_no_two_join_the_same() {
        for (w, l, periodic) in (1..=13).flat_map(|w| (1..=5).flat_map(move |l| [(w, l, false), (w, l, true)])) {
            let list = ends(w, l, periodic);
            assert!(list.iter().all(|e| e.0 < e.1 && e.1 < w * l) && list.len() < 4 * w * l);
            assert_eq!(list.iter().collect::<HashSet<_>>().len(), list.len());
            let round = periodic && w > 2;
            let longest = match (w, l) {
                (_, 1) if round => w - 1,
                (_, 1) | (1, _) => 1,
                _ if round => 2 * w - 1,
                _ => w + 1,
            };
            assert_eq!(Edges::new(w * l, &eight_edges(w, l, periodic)).window(), longest);
        }
    }
}
