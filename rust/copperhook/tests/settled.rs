//! The settled examples of document 01, through the bindings, and what lists hold after calls that are refused.

use copperhook::ForestEdge::{Bit, Tree};
use copperhook::{
    estimate, estimates, mean_error_bound, sys, Arrangement, Caller, Dilution, EdgeList, Estimate, Graph, Job, Kind, Manner, Options, Pair,
    Refusal, Rng, Sampling, Strip,
};

const MANNERS: [Manner; 2] = [Manner::PerElement, Manner::Block];
const ARRANGEMENTS: [Arrangement; 2] = [Arrangement::KeepAll, Arrangement::LessRoom];

fn alone(n: usize, floor: usize, factor: f64, pair: (usize, usize), manner: Manner) -> (usize, f64) {
    let graph = Graph::new(n, &[0], &[1], &[1.0]).with_floor(floor);
    let (us, vs) = ([pair.0], [pair.1]);
    let job = Job { graph, us: &us, vs: &vs };
    let room = job.room().unwrap();
    let mut results = [7.0];
    let mut work = vec![7.0; room + 3];
    job.correlations(&[factor], manner, &mut results, &mut work).unwrap();
    assert!(work[..room].iter().all(|x| x.to_bits() == 0) && work[room..] == [7.0; 3]);
    (room, results[0])
}

#[test]
fn one_edge() {
    for manner in MANNERS {
        assert_eq!(alone(2, 1, 2.0, (0, 1), manner), (13, 0.6));
        assert_eq!(alone(2, 2, 2.0, (0, 1), manner), (19, 0.6));
        assert_eq!(alone(2, 1, 0.5, (0, 1), manner).1, -0.6);
        assert_eq!(alone(2, 1, 1.0, (0, 1), manner).1.to_bits(), 0);
        assert_eq!(alone(3, 1, 2.0, (0, 2), manner).1.to_bits(), 0);
    }
}

#[test]
fn the_square() {
    let strip = Strip { kind: Kind::Square, width: 2, length: 2, periodic: false };
    let edges = strip.edge_list().unwrap();
    assert_eq!((&edges.a[..], &edges.b[..]), (&[0, 0, 1, 2][..], &[1, 2, 3, 3][..]));
    let graph = edges.graph(4);
    let mut forest = [Tree; 4];
    graph.spanning_forest(&mut forest).unwrap();
    assert_eq!((graph.window(), forest, graph.cyclomatic()), (Ok(2), [Tree, Tree, Tree, Bit(0)], Ok(1)));
    assert_eq!((graph.distance(0, 3), graph.distance(3, 3), graph.distance(0, 4)), (Ok(Some(2)), Ok(Some(0)), Err(Refusal::PairEnds)));
    let job = Job { graph, us: &[0, 0], vs: &[1, 3] };
    let mut work = vec![0.0; job.room().unwrap()];
    for (last, expected) in [(2.0, [255.0 / 353.0, 225.0 / 353.0]), (0.5, [15.0 / 34.0, 0.0])] {
        let mut results = [9.0; 2];
        job.correlations(&[2.0, 2.0, 2.0, last], Manner::Block, &mut results, &mut work).unwrap();
        assert_eq!(results.map(f64::to_bits), expected.map(f64::to_bits));
    }
}

#[test]
fn pair_records_are_two_lists() {
    let graph = Graph::new(3, &[0, 1], &[1, 2], &[1.0; 2]);
    let job = Job { graph, us: &[0, 2, 1], vs: &[2, 1, 0] };
    let pairs = [(0, 2), (2, 1), (1, 0)].map(|(u, v)| Pair { u, v });
    let (mut ends, mut records, mut work) = ([9.0; 3], [9.0; 3], vec![9.0; job.room().unwrap()]);
    job.correlations(&[2.0, 3.0], Manner::Block, &mut ends, &mut work).unwrap();
    graph.correlations_of(&pairs, &[2.0, 3.0], Manner::Block, &mut records, &mut work).unwrap();
    assert_eq!(ends.map(f64::to_bits), records.map(f64::to_bits));
    assert!(ends[1] != ends[2] && work.iter().all(|x| x.to_bits() == 0));
}

#[test]
fn too_many_pair_records_are_refused() {
    let graph = Graph::new(2, &[0], &[1], &[1.0]);
    let pairs = [Pair { u: 0, v: 1 }; 400];
    let (mut results, mut work) = (vec![9.0; 400], vec![9.0; 4000]);
    for (count, expected) in [(0, Ok(())), (256, Ok(())), (257, Err(Refusal::ListLengths)), (400, Err(Refusal::ListLengths))] {
        let answer = graph.correlations_of(&pairs[..count], &[2.0], Manner::Block, &mut results[..count], &mut work);
        assert_eq!((answer, results[256]), (expected, 9.0));
    }
    let none = Graph::new(0, &[], &[], &[]);
    assert_eq!(none.correlations_of(&pairs, &[], Manner::Block, &mut results, &mut work), Err(Refusal::VertexCount));
}

#[test]
fn the_squares_totals() {
    let strip = Strip { kind: Kind::Square, width: 2, length: 2, periodic: false };
    let edges = strip.edge_list().unwrap();
    let job = Job { graph: edges.graph(4), us: &[0, 0], vs: &[1, 3] };
    let (betas, factors) = ([2f64.ln()], [2.0, 0.5].repeat(4));
    let each = [255.0 / 353.0, 15.0 / 34.0, 225.0 / 353.0, 0.0];
    let square = |x: f64| x * x;
    let sums = |power: &dyn Fn(f64) -> f64| [power(each[0]) + power(each[1]), power(each[2])];
    let room = job.room().unwrap();
    let (mut stored, mut squares, mut fourths, mut work) = ([9.0; 4], [9.0; 2], [9.0; 2], vec![9.0; room + 1]);
    assert_eq!(job.exhaustive_c(&betas, &factors, Manner::Block, &mut stored, &mut work), Ok(2));
    assert_eq!(stored.map(f64::to_bits), each.map(f64::to_bits));
    assert_eq!(job.exhaustive(&betas, &factors, Manner::Block, &mut squares, &mut fourths, &mut work), Ok(2));
    assert_eq!((squares, fourths), (sums(&square), sums(&|x| square(square(x)))));
    assert!(work[..room].iter().all(|x| x.to_bits() == 0) && work[room] == 9.0);
    let refused = job.exhaustive(&betas, &factors[1..], Manner::Block, &mut squares, &mut [], &mut work);
    assert_eq!((refused, squares), (Err(Refusal::Factors), sums(&square)));
}

/// A strip of width 2 and so many free edges.
fn ladder(free: usize) -> (usize, EdgeList) {
    let strip = Strip { kind: Kind::Square, width: 2, length: free + 1, periodic: false };
    (strip.n().unwrap(), strip.edge_list().unwrap())
}

#[test]
fn free_edges_are_limited() {
    for (free, most) in [(34, 34), (35, 34), (24, 24), (25, 24)] {
        let (n, edges) = ladder(free);
        let job = Job { graph: edges.graph(n), us: &[], vs: &[] };
        let factors = job.graph.factors(&[0.5]).unwrap().all;
        let mut work = vec![0.0; job.room().unwrap()];
        let expected = if free <= most { Ok(1 << free) } else { Err(Refusal::FreeEdges) };
        let answer = match most {
            34 => job.exhaustive(&[0.5], &factors, Manner::Block, &mut [], &mut [], &mut work),
            _ => job.exhaustive_c(&[0.5], &factors, Manner::Block, &mut [], &mut work),
        };
        assert_eq!(answer, expected);
    }
}

/// Both callers' answers, of one call after the other; what they leave is the same where neither is refused.
fn of_both<T: PartialEq + std::fmt::Debug>(mut call: impl FnMut(Options) -> (T, Vec<f64>)) -> [T; 2] {
    let [desk, tester] = [Caller::Desk, Caller::Tester].map(|caller| call(Options::from(Manner::Block).called_by(caller)));
    assert!(desk.0 != tester.0 || desk.1 == tester.1);
    [desk.0, tester.0]
}

#[test]
fn the_tester_has_a_smaller_window() {
    for (floor, tester) in [(12, Ok(())), (13, Err(Refusal::TesterLimit)), (24, Err(Refusal::TesterLimit)), (25, Err(Refusal::Window))] {
        let graph = Graph::new(2, &[0], &[1], &[1.0]).with_floor(floor);
        let job = Job { graph, us: &[0], vs: &[1] };
        let room = job.room();
        let desk = if floor > 24 { Err(Refusal::Window) } else { Ok(()) };
        assert_eq!(room.map(|_| ()), desk);
        let few = if floor < 20 { room.unwrap() } else { 0 };
        let desk = if floor == 24 { Err(Refusal::WorkMemory) } else { desk };
        let answers = of_both(|options| {
            let (mut results, mut work) = ([9.0], vec![9.0; few]);
            (job.correlations(&[2.0], options, &mut results, &mut work), results.into_iter().chain(work).collect())
        });
        assert_eq!(answers, [desk, tester]);
        let answers = of_both(|options| {
            let (mut results, mut work) = ([9.0], vec![9.0; few]);
            let answer = graph.correlations_of(&[Pair { u: 1, v: 0 }], &[2.0], options, &mut results, &mut work);
            (answer, results.into_iter().chain(work).collect())
        });
        assert_eq!(answers, [desk, tester]);
    }
}

#[test]
fn the_tester_has_fewer_free_edges() {
    let by = Sampling { seed: 3, from: 0, to: 2, samples: 5 };
    for (free, tester) in [(16, Ok(1 << 16)), (17, Err(Refusal::TesterLimit)), (35, Err(Refusal::FreeEdges))] {
        let (n, edges) = ladder(free);
        let job = Job { graph: edges.graph(n), us: &[], vs: &[] };
        let factors = job.graph.factors(&[0.5]).unwrap().all;
        let room = job.room().unwrap();
        let desk = if free > 34 { Err(Refusal::FreeEdges) } else { Ok(1 << free) };
        let totals = of_both(|options| {
            let mut work = vec![9.0; room];
            (job.exhaustive(&[0.5], &factors, options, &mut [], &mut [], &mut work), work)
        });
        let stored = of_both(|options| {
            let mut work = vec![9.0; room];
            (job.exhaustive_c(&[0.5], &factors, options, &mut [], &mut work), work)
        });
        assert_eq!((totals, stored), ([desk, tester], [desk, tester]));
        let drawn = of_both(|options| {
            let mut work = vec![9.0; room];
            (job.sample(&[0.5], &factors, options, &by, &mut [], &mut [], &mut work), work)
        });
        assert_eq!(drawn, [Ok(10), Ok(10)]);
    }
}

#[test]
#[rustfmt::skip]
fn options_are_a_sum() {
    let (a, b, m, us, vs, factors) = ([0], [1], [1.0], [0], [1], [2.0]);
    // bits from 8 on are not read, and of the room's options 2 alone is
    for (options, number) in [(0, 0), (1, 0), (2, 0), (3, 0), (4, 22), (5, 22), (6, 22), (8, 0), (12, 22), (!4, 0), (!6, 0), (!2, 22), (!0, 22)] {
        let (mut results, mut work, mut room) = ([9.0], vec![9.0; 50_000], 0);
        let room_told = unsafe {
            sys::copperhook_room(
                2, 13, a.as_ptr(), 1, b.as_ptr(), 1, m.as_ptr(), 1, us.as_ptr(), 1, vs.as_ptr(), 1, options, &mut room,
            )
        };
        assert_eq!((room_told, room), (0, (if options & 2 == 0 { 4 } else { 3 } << 13) + 3));
        let answer = unsafe {
            sys::copperhook_correlations(
                2, 13, a.as_ptr(), 1, b.as_ptr(), 1, m.as_ptr(), 1, us.as_ptr(), 1, vs.as_ptr(), 1, factors.as_ptr(), 1,
                options, results.as_mut_ptr(), 1, work.as_mut_ptr(), room,
            )
        };
        assert_eq!((answer, results[0]), (number, if number == 0 { 0.6 } else { 9.0 }));
        assert!(work[..room].iter().all(|x| *x == if number == 0 { 0.0 } else { 9.0 }) && work[room..].iter().all(|x| *x == 9.0));
    }
}

/// The room of a graph of one edge in either arrangement.
fn rooms(n: usize, floor: usize, us: &[usize], vs: &[usize]) -> [usize; 2] {
    let job = Job { graph: Graph::new(n, &[0], &[1], &[1.0]).with_floor(floor), us, vs };
    ARRANGEMENTS.map(|arrangement| job.room_in(arrangement).unwrap())
}

#[test]
fn backward_vectors_of_propagated_pairs_alone_take_room() {
    assert_eq!(rooms(2, 2, &[0], &[1]), [19, 15]);
    // at the window every pair is propagated
    assert_eq!((rooms(2, 1, &[0], &[1]), rooms(3, 2, &[0], &[2])), ([13; 2], [24; 2]));
    // vertex 2 ends a pair of either kind; vertices 1 and 3 end direct ones, and their forward vectors are kept
    assert_eq!(rooms(3, 2, &[0, 1], &[2, 2]), [24; 2]);
    assert_eq!(rooms(4, 2, &[0, 2, 1, 0], &[2, 3, 0, 1]), [4 * (2 + 4 + 3) + 5, 4 * (2 + 4 + 1) + 5]);
    assert_eq!(rooms(4, 2, &[], &[]), [13; 2]);
}

/// The room of the arrangement that is asked for is needed and cleared, and no more.
#[test]
fn memory_past_the_smaller_room_stays() {
    let job = Job { graph: Graph::new(2, &[0], &[1], &[1.0]).with_floor(2), us: &[0], vs: &[1] };
    for manner in MANNERS {
        for (arrangement, room) in ARRANGEMENTS.into_iter().zip([19, 15]) {
            let options = Options::from(manner).arranged(arrangement);
            let (mut results, mut work) = ([7.0], [7.0; 19]);
            assert_eq!(job.correlations(&[2.0], options, &mut results, &mut work[..room - 1]), Err(Refusal::WorkMemory));
            assert_eq!((results, work), ([7.0], [7.0; 19]));
            for (factor, answer, result) in [(2.0, Ok(()), 0.6), (1e308, Err(Refusal::PartitionSum), 0.0)] {
                let (mut results, mut work) = ([7.0], [7.0; 19]);
                assert_eq!((job.correlations(&[factor], options, &mut results, &mut work), results), (answer, [result]));
                assert!(work[..room].iter().all(|x| x.to_bits() == 0) && work[room..].iter().all(|x| *x == 7.0));
            }
        }
    }
}

/// What a call leaves in lists of these lengths, in one arrangement and in the other, is the same, bit for bit.
fn as_in_the_other(manner: Manner, lengths: [usize; 2], job: &Job, mut call: impl FnMut(Options, &mut [f64], &mut [f64], &mut [f64])) {
    let [one, other] = ARRANGEMENTS.map(|arrangement| {
        let (mut first, mut second) = (vec![9.0; lengths[0]], vec![9.0; lengths[1]]);
        let mut work = vec![9.0; job.room_in(arrangement).unwrap()];
        call(Options::from(manner).arranged(arrangement), &mut first, &mut second, &mut work);
        assert!(work.iter().all(|x| x.to_bits() == 0));
        first.into_iter().chain(second).map(f64::to_bits).collect::<Vec<_>>()
    });
    assert_eq!(one, other);
}

#[test]
fn every_entry_gives_the_same_bits_in_either_arrangement() {
    for (kind, width, length, periodic) in [(Kind::Square, 3, 4, false), (Kind::Triangular, 3, 3, true), (Kind::Eight, 2, 4, false)] {
        let strip = Strip { kind, width, length, periodic };
        let (edges, pairs) = (strip.edge_list().unwrap(), strip.labelled_pairs().unwrap());
        let (us, vs): (Vec<usize>, Vec<usize>) = pairs.iter().map(|p| (p.u, p.v)).unzip();
        let records: Vec<Pair> = pairs.iter().map(|p| Pair { u: p.u, v: p.v }).collect();
        let graph = edges.graph(strip.n().unwrap());
        let (job, betas, pairs) = (Job { graph, us: &us, vs: &vs }, [0.3, 0.9], us.len());
        assert!(job.room_in(Arrangement::LessRoom) < job.room());
        let factors = graph.factors(&betas).unwrap();
        let (one, count) = (factors.of_signs(1, &vec![false; factors.kept]), 1 << graph.cyclomatic().unwrap());
        let by = Sampling { seed: 3, from: 1, to: 4, samples: 5 };
        for manner in MANNERS {
            as_in_the_other(manner, [pairs, pairs], &job, |options, ends, ends_listed, work| {
                job.correlations(&one, options, ends, work).unwrap();
                graph.correlations_of(&records, &one, options, ends_listed, work).unwrap();
                assert_eq!(ends, ends_listed);
            });
            as_in_the_other(manner, [2 * pairs; 2], &job, |options, squares, fourths, work| {
                assert_eq!(job.exhaustive(&betas, &factors.all, options, squares, fourths, work), Ok(count));
            });
            as_in_the_other(manner, [2 * pairs * count, 0], &job, |options, stored, _, work| {
                assert_eq!(job.exhaustive_c(&betas, &factors.all, options, stored, work), Ok(count));
            });
            as_in_the_other(manner, [2 * pairs; 2], &job, |options, squares, fourths, work| {
                assert_eq!(job.sample(&betas, &factors.all, options, &by, squares, fourths, work), Ok(15));
            });
        }
    }
}

#[test]
fn chunks_are_added_in_order() {
    let (n, edges) = ladder(40);
    let job = Job { graph: edges.graph(n), us: &[0, 5], vs: &[81, 6] };
    let betas = [0.3, 0.9];
    let factors = job.graph.factors(&betas).unwrap().all;
    let mut work = vec![0.0; job.room().unwrap()];
    let mut drawn = |from: u64, to: u64, samples: usize| {
        let (mut squares, mut fourths) = ([9.0; 4], [9.0; 4]);
        let by = Sampling { seed: 11, from, to, samples };
        let count = job.sample(&betas, &factors, Manner::Block, &by, &mut squares, &mut fourths, &mut work);
        count.map(|count| (count, squares, fourths))
    };
    let (count, squares, fourths) = drawn(3, 7, 5).unwrap();
    let (mut s, mut f) = ([0.0; 4], [0.0; 4]);
    for chunk in 3..7 {
        let (_, of_squares, of_fourths) = drawn(chunk, chunk + 1, 5).unwrap();
        for k in 0..4 {
            s[k] += of_squares[k];
            f[k] += of_fourths[k];
        }
    }
    assert_eq!((count, squares.map(f64::to_bits), fourths.map(f64::to_bits)), (20, s.map(f64::to_bits), f.map(f64::to_bits)));
    assert_eq!(drawn(7, 7, 5), Ok((0, [0.0; 4], [0.0; 4])));
    assert_eq!(drawn(0, u64::MAX, 0), Ok((0, [0.0; 4], [0.0; 4])));
    assert_eq!(drawn(0, (1 << 32) + 1, 1), Err(Refusal::Samples));
}

#[test]
fn single_estimates() {
    assert_eq!(estimate(2, 1.0, 1.0), Ok(Estimate::Estimated { mean: 0.5, error: 0.5 }));
    assert_eq!(estimate(1, 1.0, 1.0), Ok(Estimate::TooFew { mean: 1.0 }));
    assert_eq!(estimate(0, 0.0, 0.0), Err(Refusal::Sums));
    assert_eq!(estimate(2, 0.5, f64::NAN), Err(Refusal::Sums));
}

#[test]
fn columns_of_estimates() {
    let (mut means, mut errors) = ([7.0; 2], [8.0; 2]);
    assert_eq!(estimates(2, &[1.0, 2.0], &[1.0, 2.0], &mut means, &mut errors), Ok(()));
    assert_eq!((means, errors), ([0.5, 1.0], [0.5, 0.0]));
    assert_eq!(estimates(1, &[1.0, 0.25], &[1.0, 0.0], &mut means, &mut errors), Ok(()));
    assert_eq!((means, errors), ([1.0, 0.25], [0.5, 0.0]));
    for (sums, refusal) in [(&[0.5, 3.0][..], Refusal::Sums), (&[0.5], Refusal::Buffer), (&[0.5; 3], Refusal::Buffer)] {
        assert_eq!(estimates(2, sums, &[0.0; 3][..sums.len()], &mut means, &mut errors), Err(refusal));
        assert_eq!((means, errors), ([1.0, 0.25], [0.5, 0.0]));
    }
    assert_eq!(estimates(2, &[0.5; 2], &[0.0; 3], &mut means, &mut []), Err(Refusal::ListLengths));
    assert_eq!(estimates(2, &[0.5; 2], &[0.0; 2], &mut means, &mut []), Err(Refusal::Buffer));
    assert_eq!((estimates(0, &[], &[], &mut [], &mut []), estimates(1, &[], &[], &mut [], &mut [])), (Err(Refusal::Sums), Ok(())));
}

/// So many units of 2^-53.
fn units(count: u64) -> f64 {
    count as f64 / (1u64 << 53) as f64
}

#[test]
fn error_bounds() {
    // 2 (p + 5) n + 2^(w + 1) + 6 units: the square has window 2 and one shorter edge back from a vertex
    let strip = Strip { kind: Kind::Square, width: 2, length: 2, periodic: false };
    let edges = strip.edge_list().unwrap();
    let graph = edges.graph(4);
    assert_eq!(graph.error_bound(&[2.0, 2.0, 2.0, 0.5]), Ok(Some(units(2 * 6 * 4 + 8 + 6))));
    assert_eq!(graph.with_floor(3).error_bound(&[2.0; 4]), Ok(Some(units(2 * 7 * 4 + 16 + 6))));
    // k * 2 * 12 + 2 + 57 is at most 1,022 up to k = 40
    let (most, above) = (2f64.powi(40), f64::from_bits(2f64.powi(40).to_bits() + 1));
    let (least, below) = (2f64.powi(-40), f64::from_bits(2f64.powi(-40).to_bits() - 1));
    for (factor, known) in [(most, true), (above, false), (least, true), (below, false), (5e-324, false)] {
        for place in 0..8 {
            let mut factors = [1.0; 8];
            factors[place] = factor;
            assert_eq!(graph.error_bound(&factors[4 * (place / 4)..][..4]).unwrap().is_some(), known);
            assert_eq!(graph.totals_error_bound(&[1.0], &factors).unwrap(), known.then_some(units(62)));
        }
    }
    assert_eq!(graph.error_bound(&[1.0; 8]), Err(Refusal::Factors));
    assert_eq!(graph.totals_error_bound(&[1.0, f64::NAN], &[1.0; 16]), Err(Refusal::Magnitude));
    assert_eq!(Graph::new(30, &[], &[], &[]).with_floor(25).error_bound(&[]), Err(Refusal::Window));
    assert_eq!(mean_error_bound(units(62), 1, 2), units(2 * 61 + 3 + 2 + 1));
    assert_eq!(mean_error_bound(units(62), 1 << 20, 1 << 12), units(2 * 61 + 3 + (1 << 20) + (1 << 12)));
    assert_eq!(mean_error_bound(units(62), 1 << 27, 32), units(2 * (2 * 61 + 2 + 32 + (1 << 27))));
}

#[test]
fn limits() {
    let job = |floor| Job { graph: Graph::new(30, &[], &[], &[]).with_floor(floor), us: &[], vs: &[] };
    assert_eq!((job(24).room(), job(25).room()), (Ok((1 << 25) + 30), Err(Refusal::Window)));
    let cylinder = |width| Strip { kind: Kind::Honeycomb, width, length: 3, periodic: true };
    assert_eq!((cylinder(2).window(), cylinder(3).window()), (Ok(2), Err(Refusal::OddCylinder)));
    assert!(cylinder(3).labelled_pairs().is_ok());
    let five = [(6, 7), (5, 7), (4, 7), (3, 7), (2, 7)];
    let (a, b): (Vec<usize>, Vec<usize>) = five.into_iter().unzip();
    let near = |edges: usize| Job { graph: Graph::new(8, &a[..edges], &b[..edges], &[1.0; 5][..edges]).with_floor(6), us: &[0], vs: &[7] };
    assert!(near(4).room().is_ok());
    assert_eq!(near(5).room(), Err(Refusal::BackEdges));
}

/// A strip of eight neighbours.
fn eight(width: usize, length: usize, periodic: bool) -> Strip {
    Strip { kind: Kind::Eight, width, length, periodic }
}

#[test]
fn small_strips_of_eight_neighbours() {
    let joined = |strip: Strip| strip.edge_list().map(|list| list.a.into_iter().zip(list.b).collect::<Vec<_>>());
    let four = vec![(0, 1), (0, 2), (0, 3), (1, 2), (1, 3), (2, 3)];
    assert_eq!((joined(eight(2, 2, false)), joined(eight(2, 2, true))), (Ok(four.clone()), Ok(four)));
    let round = [(0, 1), (0, 3), (0, 4), (1, 3), (1, 2), (1, 4), (1, 5), (2, 4), (0, 2), (2, 5), (2, 3), (0, 5), (3, 4), (4, 5), (3, 5)];
    assert_eq!(joined(eight(3, 2, true)), Ok(round.to_vec()));
    assert_eq!(eight(3, 2, true).labelled_pairs(), Strip { kind: Kind::Square, ..eight(3, 2, true) }.labelled_pairs());
    // no other number is this kind
    let mut name = [0; 6];
    let named = |kind, name: &mut [u8; 6]| unsafe { sys::copperhook_kind_name(kind, name.as_mut_ptr()) };
    assert!(named(3, &mut name) == 5 && name == *b"eight\0");
    assert!([2, 4, 259, usize::MAX].iter().all(|&kind| named(kind, &mut name) == 5 && name == *b"honey\0"));
}

#[test]
fn windows_of_strips_of_eight_neighbours() {
    let windows = [(1, 5, false), (1, 5, true), (2, 5, false), (2, 5, true), (7, 2, false), (7, 2, true), (7, 1, false), (7, 1, true)];
    let told: Vec<_> = windows.iter().map(|&(w, l, periodic)| eight(w, l, periodic).window().unwrap()).collect();
    assert_eq!(told, [1, 1, 3, 3, 8, 13, 1, 6]);
    let room = |width, length, floor| {
        let list = eight(width, length, true).edge_list().unwrap();
        Job { graph: list.graph(width * length).with_floor(floor), us: &[0], vs: &[width * length - 1] }.room()
    };
    // a cylinder of width 12 is the widest, and a floor above its window makes five edges back from a vertex shorter than that
    assert!(room(12, 2, 0).is_ok() && room(12, 2, 23).is_ok() && eight(13, 2, true).window() == Ok(25));
    assert_eq!((room(13, 2, 0), room(12, 2, 24)), (Err(Refusal::Window), Err(Refusal::BackEdges)));
    assert_eq!((room(3, 2, 5).is_ok(), room(3, 2, 6)), (true, Err(Refusal::BackEdges)));
}

#[test]
fn a_cylinder_of_twelve_is_swept_and_one_of_thirteen_refused() {
    for (width, answer) in [(12, Ok(())), (13, Err(Refusal::Window))] {
        let list = eight(width, 2, true).edge_list().unwrap();
        let job = Job { graph: list.graph(2 * width), us: &[0], vs: &[1] };
        let (mut results, mut work) = ([7.0], vec![0.0; job.room().unwrap_or(1)]);
        assert_eq!(job.correlations(&vec![1.1; list.m.len()], Manner::Block, &mut results, &mut work), answer);
        assert!(answer.is_err() == (results == [7.0]) && (answer.is_err() || 0.0 < results[0] && results[0] < 1.0));
    }
}

#[test]
fn a_partition_sum_that_overflows_clears_results_and_room() {
    let job = Job { graph: Graph::new(2, &[0], &[1], &[1.0]), us: &[0], vs: &[1] };
    let (mut results, mut work) = ([7.0], [7.0; 14]);
    assert_eq!(job.correlations(&[5e307], Manner::Block, &mut results, &mut work), Err(Refusal::PartitionSum));
    assert!(results[0].to_bits() == 0 && work[..13].iter().all(|x| x.to_bits() == 0) && work[13] == 7.0);
    let (mut results, mut work) = ([7.0], [7.0; 12]);
    assert_eq!(job.correlations(&[2.0], Manner::Block, &mut results, &mut work), Err(Refusal::WorkMemory));
    assert!(results == [7.0] && work == [7.0; 12]);
}

#[test]
fn a_diluted_strip_keeps_the_strips_edges() {
    let strip = Strip { kind: Kind::Triangular, width: 3, length: 4, periodic: true };
    let by = Dilution { keep: 0.5, low: 0.5, high: 1.5, seed: 7 };
    let (whole, diluted) = (strip.edge_list().unwrap(), strip.diluted_list(&by).unwrap());
    assert_eq!((&whole.a, &whole.b), (&diluted.a, &diluted.b));
    assert!(diluted.m.iter().all(|&m| m.to_bits() == 0 || (0.5..1.5).contains(&m)));
    let floor = strip.window().unwrap();
    assert!(diluted.graph(12).with_floor(floor).window() == Ok(floor) && floor == 4);
    assert_eq!(strip.diluted_list(&Dilution { keep: f64::NAN, ..by }), Err(Refusal::Dilution));
}

#[test]
fn names() {
    for (name, kind) in [("sq", Kind::Square), ("triangular", Kind::Triangular), ("hex", Kind::Honeycomb), ("eight", Kind::Eight)] {
        assert_eq!(Kind::parse(name), Some(kind));
        assert_eq!(Kind::parse(&kind.name()), Some(kind));
    }
    assert_eq!((Kind::parse("Square"), Kind::parse(""), Kind::parse("8")), (None, None, None));
    let strip = |periodic| Strip { kind: Kind::Square, width: 2, length: 3, periodic };
    assert_eq!((strip(true).boundary(), strip(false).boundary()), ("cyl".to_string(), "free".to_string()));
    assert_eq!((strip(false).vertex(2, 1), strip(false).vertex(3, 0)), (Ok(Some(5)), Ok(None)));
}

#[test]
fn the_generator_is_xoshiro256_plus_plus() {
    // The words that follow the state 1, 2, 3, 4 in the published reference.
    let mut rng = Rng { state: [1, 2, 3, 4] };
    let words = [41943041, 58720359, 3588806011781223, 3591011842654386, 9228616714210784205];
    assert!(words.iter().all(|&word| rng.next_u64() == word));
    assert_eq!(Rng::stream(5, 6), Rng::stream(5, 6));
    assert!((0.0..1.0).contains(&Rng::new(1).uniform()));
}

/// Edge 1 is dropped, by -0.0, so the kept ones are the raw edges 0, 2 and 3, turned or not.
#[test]
fn kept_edges_remember_their_raw_places() {
    let graph = Graph::new(4, &[1, 0, 3, 2], &[0, 2, 1, 3], &[0.5, -0.0, 2.0, 1.0]);
    let (kept, turned) = (graph.kept_list().unwrap(), graph.rotated_list().unwrap());
    assert_eq!((&kept.edges.a[..], &kept.edges.b[..], &kept.raw[..]), (&[0, 1, 2][..], &[1, 3, 3][..], &[0, 2, 3][..]));
    assert_eq!((&turned.edges.a[..], &turned.edges.b[..], &turned.raw[..]), (&[2, 0, 0][..], &[3, 2, 1][..], &[0, 2, 3][..]));
    assert_eq!((kept.edges.m, kept.window), (turned.edges.m, turned.window));
    assert_eq!(graph.kept(&mut [0; 3], &mut [0; 3], &mut [0.0; 3], &mut [0; 2]), Err(Refusal::Buffer));
    let mut raw = [7];
    assert!(Graph::new(2, &[], &[], &[]).kept(&mut [], &mut [], &mut [], &mut raw).is_ok() && raw == [7]);
}

/// The graph of a diluted strip is that of its list, with the whole strip's window.
#[test]
fn a_diluted_graph_has_the_strips_places_and_window() {
    let strip = Strip { kind: Kind::Triangular, width: 3, length: 5, periodic: true };
    for seed in 0..20 {
        let by = Dilution { keep: 0.4, low: 0.5, high: 1.5, seed };
        let list = strip.diluted_list(&by).unwrap();
        let window = strip.window().unwrap();
        let kept = strip.diluted_kept(&by).unwrap();
        assert_eq!(list.graph(strip.n().unwrap()).with_floor(window).kept_list(), Ok(kept.clone()));
        let places: Vec<usize> = (0..list.m.len()).filter(|&place| list.m[place] != 0.0).collect();
        assert_eq!((kept.raw, kept.window), (places, window));
    }
    let strip = Strip { kind: Kind::Square, width: 1, length: 3, periodic: false };
    assert_eq!(strip.diluted_kept(&Dilution { keep: 0.5, low: 1.0, high: 1.0, seed: 2 }).unwrap().raw, [1]);
}

/// However many free edges there are, each has its bit; a list of another length is refused and stays.
#[test]
fn bits_go_on_past_a_word() {
    let strip = Strip { kind: Kind::Square, width: 9, length: 10, periodic: false };
    let edges = strip.edge_list().unwrap();
    let graph = edges.graph(90);
    let mut forest = vec![Tree; edges.m.len()];
    graph.spanning_forest(&mut forest).unwrap();
    let bits: Vec<usize> = forest.iter().filter_map(|edge| edge.bit()).collect();
    assert_eq!((graph.cyclomatic(), bits), (Ok(72), (0..72).collect()));
    let mut short = vec![Bit(9); edges.m.len() - 1];
    assert_eq!(graph.spanning_forest(&mut short), Err(Refusal::Buffer));
    assert!(short.iter().all(|&edge| edge == Bit(9)));
}

/// Correlations, totals and every graph entry, on as many vertices as there may be.
fn largest_calls() -> Result<(), Refusal> {
    let strip = Strip { kind: Kind::Triangular, width: 4, length: 256, periodic: true };
    let (edges, pairs) = (strip.edge_list()?, strip.labelled_pairs()?);
    let (us, vs): (Vec<usize>, Vec<usize>) = pairs.iter().map(|p| (p.u, p.v)).unzip();
    let graph = edges.graph(strip.n()?);
    let job = Job { graph, us: &us, vs: &vs };
    let (mut results, mut work) = (vec![0.0; us.len()], vec![0.0; job.room()?]);
    job.preview(&[0.5], 7, Arrangement::LessRoom)?;
    job.correlations(&vec![1.5; edges.m.len()], Manner::Block, &mut results, &mut work)?;
    let records: Vec<Pair> = pairs.iter().map(|p| Pair { u: p.u, v: p.v }).collect();
    graph.correlations_of(&records, &vec![1.5; edges.m.len()], Manner::Block, &mut results, &mut work)?;
    graph.rotated(&mut [0; 4096], &mut [0; 4096], &mut [0.0; 4096], &mut [0; 4096])?;
    let by = Dilution { keep: 0.9, low: 0.5, high: 1.5, seed: 7 };
    strip.diluted_graph(&by, &mut [0; 4096], &mut [0; 4096], &mut [0.0; 4096], &mut [0; 4096])?;
    graph.spanning_forest(&mut vec![Tree; edges.m.len()])?;
    graph.components(&mut vec![0; 1024])?;
    graph.error_bound(&vec![1.5; edges.m.len()])?;
    let betas: [f64; 64] = std::array::from_fn(|i| 0.5 + i as f64 / 1024.0);
    let factors = graph.factors(&betas)?.all;
    graph.totals_error_bound(&betas, &factors)?;
    let (mut squares, mut fourths) = (vec![0.0; 64 * us.len()], vec![0.0; 64 * us.len()]);
    let by = Sampling { seed: 1, from: 0, to: 1, samples: 1 };
    job.sample(&betas, &factors, Manner::Block, &by, &mut squares, &mut fourths, &mut work)?;
    let (n, few) = ladder(5);
    let job = Job { graph: few.graph(n), us: &us[..1], vs: &[1; 1] };
    let factors = job.graph.factors(&betas)?.all;
    job.exhaustive(&betas, &factors, Manner::Block, &mut [0.0; 64], &mut [0.0; 64], &mut work)?;
    job.exhaustive_c(&betas, &factors, Manner::Block, &mut vec![0.0; 64 << 5], &mut work)?;
    graph.distance(0, 1023).map(drop)
}

#[test]
fn a_megabyte_of_stack_is_enough() {
    let thread = std::thread::Builder::new().stack_size(1 << 20).spawn(largest_calls).unwrap();
    assert_eq!(thread.join().unwrap(), Ok(()));
}
