//! What dropping an edge would do: the readings of document 02 that tell a copy with that magnitude zero from anything else.

use copperhook::{sys, Arrangement, Figures, Graph, Job, Kind, Refusal, Strip};

const ARRANGEMENTS: [Arrangement; 2] = [Arrangement::KeepAll, Arrangement::LessRoom];

/// A job of these edges, without pairs, and what dropping the edge at a place would do to it.
fn of_edges(n: usize, edges: &[(usize, usize, f64)], floor: usize, place: usize) -> Result<Figures, Refusal> {
    let (a, b, m) = lists(edges);
    let job = Job { graph: Graph::new(n, &a, &b, &m).with_floor(floor), us: &[], vs: &[] };
    job.preview(&[], place, Arrangement::KeepAll)
}

fn lists(edges: &[(usize, usize, f64)]) -> (Vec<usize>, Vec<usize>, Vec<f64>) {
    let ends = |end: fn(&(usize, usize, f64)) -> usize| edges.iter().map(end).collect();
    (ends(|e| e.0), ends(|e| e.1), edges.iter().map(|e| e.2).collect())
}

/// The figures of a job without pairs: two vectors, and a scale for each vertex and a factor for each kept edge.
fn figures(n: usize, kept: usize, window: usize, free_edges: usize) -> Result<Figures, Refusal> {
    Ok(Figures { window, free_edges, room: (2 << window) + n + kept })
}

#[test]
fn a_magnitude_that_is_none_is_cured() {
    for bad in [f64::NAN, f64::INFINITY, -1025.0, f64::from_bits(0xFFF0_0000_0000_0001)] {
        assert_eq!(of_edges(2, &[(0, 1, bad)], 0, 0), figures(2, 0, 1, 0));
        // that of another edge is not
        assert_eq!(of_edges(3, &[(0, 1, bad), (1, 2, 1.0)], 0, 1), Err(Refusal::Magnitude));
    }
}

#[test]
fn ends_are_checked_where_the_edge_is_dropped_too() {
    assert_eq!(of_edges(2, &[(0, 0, 1.0)], 0, 0), Err(Refusal::EdgeEnds));
    assert_eq!(of_edges(2, &[(0, 2, f64::NAN)], 0, 0), Err(Refusal::EdgeEnds));
}

#[test]
fn a_place_without_an_edge_is_told_right_behind_two() {
    let no_edge = Err(Refusal::EdgePlace);
    assert_eq!([of_edges(2, &[], 0, 0), of_edges(2, &[(0, 1, 1.0)], 0, 1)], [no_edge; 2]);
    // bad ends, sizes and a floor above 24 come later
    assert_eq!([of_edges(2, &[(0, 0, f64::NAN)], 25, 1), of_edges(2, &[(0, 1, 1.0)], 25, usize::MAX)], [no_edge; 2]);
    assert_eq!(of_edges(0, &[(0, 1, 1.0)], 0, 1), Err(Refusal::VertexCount));
    let unequal = Job { graph: Graph::new(2, &[0], &[1], &[1.0, 1.0]), us: &[], vs: &[] };
    assert_eq!(unequal.preview(&[], 1, Arrangement::KeepAll), Err(Refusal::ListLengths));
    let (a, b, m) = ([0; 4096], [1; 4096], [0.0; 4096]);
    let many = Job { graph: Graph::new(2, &a, &b, &m), us: &[], vs: &[] };
    assert_eq!([4095, 4096].map(|place| many.preview(&[], place, Arrangement::KeepAll)), [figures(2, 0, 1, 0), no_edge]);
    assert_eq!(many.preview(&[0.5; 65], 4096, Arrangement::KeepAll), Err(Refusal::ListLengths));
}

#[test]
fn betas_are_those_of_a_job() {
    let job = Job { graph: Graph::new(2, &[0], &[1], &[1.0]), us: &[0], vs: &[1] };
    let preview = |betas: &[f64]| job.preview(betas, 0, Arrangement::KeepAll);
    assert_eq!((preview(&[1.0, 1.0]), preview(&[1.0, 0.5])), (Err(Refusal::Betas), Err(Refusal::Betas)));
    assert_eq!((preview(&[1.0, f64::NAN]), preview(&[0.5, 1.0])), (Err(Refusal::Magnitude), preview(&[])));
    // 0-1 is propagated in a window of 1: places for both moving vectors, for 0 and 1 forward and for 1 backward
    assert_eq!(preview(&[]), Ok(Figures { window: 1, free_edges: 0, room: 2 * 5 + 2 }));
}

#[test]
fn parallel_long_and_near_edges_are_cured() {
    let parallel = [(0, 1, 1.0), (1, 0, 2.0), (1, 2, 1.0)];
    assert_eq!([0, 1].map(|place| of_edges(3, &parallel, 0, place)), [figures(3, 2, 1, 0); 2]);
    assert_eq!(of_edges(3, &parallel, 0, 2), Err(Refusal::ParallelEdges));
    let long = [(0, 1, 1.0), (29, 4, 1.0)];
    assert_eq!([0, 1].map(|place| of_edges(30, &long, 0, place)), [Err(Refusal::Window), figures(30, 1, 1, 0)]);
    assert_eq!([24, 25].map(|floor| of_edges(30, &long, floor, 1)), [figures(30, 1, 24, 0), Err(Refusal::Window)]);
    let five = [(6, 7, 1.0), (5, 7, 1.0), (4, 7, 1.0), (3, 7, 1.0), (2, 7, 1.0), (0, 1, 1.0)];
    assert!((0..5).all(|place| of_edges(8, &five, 6, place) == figures(8, 5, 6, 0)));
    assert_eq!(of_edges(8, &five, 6, 5), Err(Refusal::BackEdges));
}

#[test]
fn places_count_raw_edges() {
    // the kept edges are the raw ones 1, 2 and 3
    let edges = [(0, 2, 0.0), (0, 3, 1.0), (0, 1, 1.0), (1, 3, 1.0)];
    let whole = figures(4, 3, 3, 1);
    let expected = [whole, figures(4, 2, 2, 0), figures(4, 2, 3, 0), figures(4, 2, 3, 0)];
    assert_eq!([0, 1, 2, 3].map(|place| of_edges(4, &edges, 0, place)), expected);
}

#[test]
fn a_zero_already_there_gives_the_present_figures() {
    let strip = Strip { kind: Kind::Triangular, width: 3, length: 4, periodic: true };
    let (mut edges, pairs) = (strip.edge_list().unwrap(), strip.labelled_pairs().unwrap());
    let (us, vs): (Vec<usize>, Vec<usize>) = pairs.iter().map(|p| (p.u, p.v)).unzip();
    for zero in [0.0, -0.0] {
        edges.m[5] = zero;
        let job = Job { graph: edges.graph(12), us: &us, vs: &vs };
        for arrangement in ARRANGEMENTS {
            let (window, free_edges, room) = (job.graph.window(), job.graph.cyclomatic(), job.room_in(arrangement));
            let present = Figures { window: window.unwrap(), free_edges: free_edges.unwrap(), room: room.unwrap() };
            assert_eq!(job.preview(&[0.3], 5, arrangement), Ok(present));
        }
        let bad = Job { vs: &[0; 18][..us.len()], ..job };
        assert_eq!(bad.preview(&[0.3], 5, Arrangement::KeepAll), bad.room().map(|_| unreachable!()));
    }
}

#[test]
fn any_number_of_free_edges_is_told() {
    let strip = Strip { kind: Kind::Square, width: 2, length: 38, periodic: false };
    let edges = strip.edge_list().unwrap();
    let job = Job { graph: edges.graph(76), us: &[0], vs: &[1] };
    assert_eq!((job.graph.cyclomatic(), job.preview(&[1.0], 0, Arrangement::KeepAll).map(|told| told.free_edges)), (Ok(37), Ok(36)));
}

/// The numbers that a call over C returns and leaves, with these options and references that hold 7, 8 and 9 before.
fn over_c(m: &[f64], place: usize, options: usize) -> (usize, [usize; 3]) {
    let (a, b, us, vs, betas) = ([0, 1, 0], [1, 2, 2], [2], [1], [0.5]);
    let [mut window, mut free_edges, mut room] = [7, 8, 9];
    let number = unsafe {
        let (a, b, us, vs) = (a.as_ptr(), b.as_ptr(), us.as_ptr(), vs.as_ptr());
        let (betas, w, f, r) = (betas.as_ptr(), &mut window, &mut free_edges, &mut room);
        sys::copperhook_preview(3, 0, a, 3, b, 3, m.as_ptr(), m.len(), us, 1, vs, 1, betas, 1, place, options, w, f, r)
    };
    (number, [window, free_edges, room])
}

#[test]
fn a_refused_call_leaves_the_references() {
    assert_eq!(over_c(&[1.0; 3], 0, 0), (0, [2, 0, 4 * 4 + 3 + 2]));
    assert_eq!(over_c(&[1.0; 3], 3, 0), (24, [7, 8, 9]));
    assert_eq!(over_c(&[1.0; 2], 0, 0), (2, [7, 8, 9]));
    assert_eq!(over_c(&[1.0, 1.0, f64::NAN], 0, 0), (4, [7, 8, 9]));
}

#[test]
fn of_the_options_the_arrangement_alone_is_read() {
    for options in 0..256 {
        let backward = if options & 2 == 0 { 1 } else { 0 };
        let room = 4 * (3 + backward) + 3 + 2;
        assert_eq!(over_c(&[1.0; 3], 1, options), (0, [2, 0, room]));
        assert_eq!(over_c(&[1.0; 3], 1, options | usize::MAX << 8), (0, [2, 0, room]));
    }
}
