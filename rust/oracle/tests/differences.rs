//! What the original does where docs/DIFFERENCES.md says that Copperhook does something else, or that document 01's words alone would.

use oracle::glass::{correlations, exhaustive, Plan};
use oracle::lattice::{Graph, Kind};
use oracle::rules::complete::complete_estimate;

/// The original's answer for one pair, block manner, from couplings.
fn answer(n: usize, edges: &[(usize, usize)], window: usize, couplings: &[f64], pair: (usize, usize)) -> f64 {
    let raw: Vec<(usize, usize, f64)> = edges.iter().map(|&(a, b)| (a, b, 1.0)).collect();
    let mut graph = Graph::new(n, &raw);
    graph.win = graph.win.max(window);
    let plan = Plan::new(&graph, &[pair]);
    let mut out = [f64::INFINITY];
    correlations(&plan, couplings, &mut plan.work(), &mut out);
    out[0]
}

#[test]
fn vertex_0_takes_a_step() {
    // From 1.0 at vertex 0 the sums would stay finite and the answer be 1.0; from 2.0 they overflow.
    assert!(answer(2, &[(0, 1)], 1, &[5e307f64.ln()], (0, 1)).is_nan());
}

#[test]
fn an_infinite_z_can_answer_zero() {
    assert_eq!(answer(3, &[(0, 1)], 1, &[3e307f64.ln()], (0, 2)), 0.0);
}

#[test]
fn of_parallel_edges_at_the_window_the_last_counts() {
    let twice = answer(2, &[(0, 1), (0, 1)], 1, &[0.3, 0.5], (0, 1));
    assert_eq!(twice.to_bits(), answer(2, &[(0, 1)], 1, &[0.5], (0, 1)).to_bits());
}

#[test]
fn of_parallel_edges_at_distance_1_in_a_wider_window_nothing_is_written() {
    // Two couplings between the same vertices add up; the original's answer does not even move with them.
    let twice = |a: f64, b: f64| answer(3, &[(0, 1), (0, 1), (0, 2)], 2, &[a, b, 0.2], (0, 1));
    assert_eq!(twice(0.3, 0.5).to_bits(), twice(-2.0, 1.0).to_bits());
    assert!((twice(0.3, 0.5) - answer(3, &[(0, 1), (0, 2)], 2, &[0.8, 0.2], (0, 1))).abs() > 0.1);
}

#[test]
fn vertices_that_are_not_joined_are_far_apart() {
    assert_eq!(Graph::new(2, &[]).distance(0, 1), usize::MAX);
}

#[test]
fn a_component_is_named_by_its_root() {
    assert_eq!(Graph::new(2, &[(0, 1, 1.0)]).components(), [1, 1]);
}

#[test]
fn it_has_no_strip_of_eight_neighbours() {
    assert!(Kind::parse("eight").is_none());
}

#[test]
fn all_configurations_have_the_error_of_a_sample() {
    // four configurations, of which none was drawn: the square of the pair's correlation is the same in two and two
    let graph = Graph::new(4, &[(0, 1, 1.0), (0, 2, 1.0), (1, 3, 1.0), (2, 3, 1.0), (0, 3, 1.0)]);
    let totals = exhaustive(&graph, &Plan::new(&graph, &[(0, 1)]), &[0.5], 1);
    let [_, error, spread] = complete_estimate(totals.count as usize, totals.s1[0], totals.s2[0]);
    assert!(totals.count == 4.0 && totals.se(0, 0) > 0.01 && error == 0.0 && (spread - totals.se(0, 0)).abs() > 0.01);
}

#[test]
fn one_configuration_has_no_error() {
    let graph = Graph::new(2, &[(0, 1, 1.0)]);
    let totals = exhaustive(&graph, &Plan::new(&graph, &[(0, 1)]), &[0.5], 1);
    assert_eq!(totals.count, 1.0);
    assert!(totals.se(0, 0).is_nan());
}
