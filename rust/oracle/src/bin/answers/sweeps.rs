//! Small jobs with the bits of their answers, as definitions that the prover computes with.

use oracle::glass::{correlations, Plan};
use oracle::lattice::Graph;
use oracle::rng::Rng;
use std::collections::BTreeMap;

/// Vertices, floor and edges.
type SmallGraph = (usize, usize, Vec<(usize, usize)>);

/// Small graphs whose sweeps reach every rescale: five and more vertices forward, backward steps at multiples of 4.
fn small_graphs() -> Vec<SmallGraph> {
    let reach = |n: usize, distances: &[usize]| -> Vec<(usize, usize)> {
        (1..n).flat_map(|b| distances.iter().filter(move |&&d| d <= b).map(move |&d| (b - d, b))).collect()
    };
    let mut graphs = Vec::new();
    for n in [2, 5, 6, 9, 10] {
        graphs.push((n, 0, reach(n, &[1])));
    }
    for n in [5, 6, 9] {
        graphs.push((n, 0, reach(n, &[1, 2])));
        graphs.push((n, 0, reach(n, &[2])));
        graphs.push((n, 2, reach(n, &[1])));
    }
    graphs.push((6, 0, reach(6, &[1, 2, 3])));
    graphs.push((6, 3, vec![(0, 1), (2, 4), (3, 4)]));
    graphs.push((9, 0, reach(9, &[1, 3])));
    graphs.push((6, 0, vec![(0, 4), (1, 5), (0, 1), (2, 3), (3, 5)]));
    graphs
}

/// For each of them and each manner: edges with the bits of exp(coupling), a far or a near pair, and the bits of the original's answer.
pub fn sweeps() -> String {
    let mut source = Rng::new(19700101);
    let mut by_window: BTreeMap<usize, Vec<String>> = BTreeMap::new();
    for (i, (n, floor, edges)) in small_graphs().into_iter().enumerate() {
        let raw: Vec<(usize, usize, f64)> = edges.iter().map(|&(a, b)| (a, b, 1.0)).collect();
        let mut graph = Graph::new(n, &raw);
        graph.win = graph.win.max(floor);
        let couplings: Vec<f64> = edges.iter().map(|_| 3.0 * source.uniform() - 1.5).collect();
        let bonds =
            edges.iter().zip(&couplings).map(|(&(a, b), j)| format!("bond {a} {b} {:#018x} ∷ ", j.exp().to_bits())).collect::<String>();
        let (far, near) = ((0, n - 1), (n - 1 - n / 3, n - 2 - n / 3));
        for (manner, slow, is_far) in [("block", "0", i % 2 == 0), ("per_element", "1", i % 2 == 1)] {
            std::env::set_var("FDK_SLOW", slow);
            let (u, v) = if is_far { far } else { near };
            let plan = Plan::new(&graph, &[(u, v)]);
            let mut out = [0.0];
            correlations(&plan, &couplings, &mut plan.work(), &mut out);
            let answered = format!("answered {} {floor} ({bonds}[]) {manner} {u} {v} {:#018x}", n - 1, out[0].to_bits());
            by_window.entry(graph.win).or_default().push(answered);
        }
    }
    let lists = by_window.iter().map(|(window, jobs)| {
        format!("\nunfoldable pub window{window} : List Answered\nwindow{window} =\n    {}\n    ∷ []\n", jobs.join("\n    ∷ "))
    });
    SWEEPS_HEAD.to_string() + &lists.collect::<String>()
}

const SWEEPS_HEAD: &str = "\
-- The original's answers for small jobs, by their bits, a list for each window. `answers sweeps` of rust/oracle made this file: it runs the
-- original on graphs of 2 to 10 vertices in both manners, couplings drawn from -1.5 to 1.5; a factor is the original's exp of its coupling.
use Rattle.std.specs.Prelude.{List, [], ◌∷◌}
use Rattle.transfer_matrix.specs.Job.{block, per_element}
use Rattle.transfer_matrix.specs.Replay.{Answered, answered, bond}
";
