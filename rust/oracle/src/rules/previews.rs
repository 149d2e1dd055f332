//! What a job would come to without one of its edges: document 02's copy of the job, with that magnitude zero.

use super::lists::{room, Edges, Pairs};
use super::refusals::job_refusal;

/// Window, free edges and room.
#[derive(Clone, Copy, Debug, PartialEq)]
pub struct Figures {
    pub window: usize,
    pub free: usize,
    pub room: usize,
}

/// Returns the edges with the magnitude at a raw place zero, where there is one.
pub fn copied(edges: &Edges, place: usize) -> Edges {
    let mut copy = edges.clone();
    if let Some(magnitude) = copy.m.get_mut(place) {
        *magnitude = 0.0;
    }
    copy
}

/// Returns what the copy comes to, or the number of the first check that it meets; 24, no edge at that place, stands right behind 2.
pub fn preview(edges: &Edges, pairs: &Pairs, betas: &[f64], place: usize, less: bool) -> Result<Figures, usize> {
    let copy = copied(edges, place);
    match job_refusal(&copy, pairs, betas) {
        number @ (1 | 2) => Err(number),
        _ if place >= edges.a.len() => Err(24),
        0 => Ok(Figures { window: copy.window(), free: copy.free().len(), room: room(&copy, pairs, less) }),
        number => Err(number),
    }
}

#[cfg(test)]
mod tests {
    use super::*;

    #[test]
    fn previews_by_hand() {
        let told = |raw: &[(usize, usize, f64)], place| preview(&Edges::new(4, raw), &Pairs::new(&[(0, 1)]), &[1.0], place, false);
        // a square, whose only cycle any edge opens
        let square = [(0, 1, 1.0), (0, 2, 1.0), (1, 3, 1.0), (2, 3, 1.0)];
        assert!((0..4).all(|place| told(&square, place) == Ok(Figures { window: 2, free: 0, room: 4 * 4 + 4 + 3 })));
        assert_eq!((told(&square, 4), told(&[(0, 1, f64::NAN)], 0)), (Err(24), Ok(Figures { window: 1, free: 0, room: 2 * 5 + 4 })));
        assert_eq!(
            (told(&[(0, 0, 1.0)], 0), told(&[(0, 0, 1.0)], 1), told(&[(0, 1, 1.0), (1, 0, 1.0), (2, 3, 1.0)], 2)),
            (Err(3), Err(24), Err(5))
        );
    }
}
