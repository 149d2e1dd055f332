//! What a call costs before its sweeps, on strips of about a thousand vertices.
use crate::clock::{least_times, Rounds};
use crate::correlations::Job;
use crate::manner::BLOCK;
use crate::strips::KINDS;
use copperhook::{Arrangement, Sampling};
use oracle::glass::{correlations, Plan};
use oracle::lattice::{Graph, Strip};
use std::hint::black_box;

pub fn print_checks() {
    println!();
    println!("Checks and plan, in microseconds: the original's Graph::new and Plan::new; our room; our correlations refused by 13, after every check;");
    println!("our checks and plan together, as what a call of one sample takes beyond the sample.");
    println!("Then all of one call from the edges on: the original's graph, plan, work memory and correlations; our correlations.");
    println!();
    println!(
        "| strip | graph and plan | room | ratio | refused by 13 | ratio | checks and plan | ratio | original, all | ours, all | ratio |"
    );
    println!("|---|---|---|---|---|---|---|---|---|---|---|");
    for (w, l) in [(4, 256), (6, 170), (8, 128), (16, 64)] {
        for kind in KINDS {
            let job = Job::new(Strip { kind, w, l, periodic: false });
            let before = before_the_sweeps(&job);
            print!("| {} {w} x {l} | {:.1} |", kind.name(), 1e6 * before[0]);
            for ours in [before[1], before[2]] {
                print!(" {:.1} | {:.2} |", 1e6 * ours, ours / before[0]);
            }
            // beside longer sweeps the difference would be lost in their spread
            if w <= 8 {
                let ours = checks_and_plan(&job);
                print!(" {:.1} | {:.2} |", 1e6 * ours, ours / before[0]);
            } else {
                print!(" | |");
            }
            let all = from_the_edges(&job);
            println!(" {:.1} | {:.1} | {:.2} |", 1e6 * all[0], 1e6 * all[1], all[1] / all[0]);
        }
    }
    print_previews();
    print_components();
}

/// What the preview of a dropped edge takes beside the room of the job as it is.
fn print_previews() {
    println!();
    println!("Previews of a dropped edge, in microseconds: our room; our preview of the edge in the middle of the list; previews of every");
    println!("edge, one after another, in milliseconds.");
    println!();
    println!("| strip | edges | room | preview | ratio | every edge, ms |");
    println!("|---|---|---|---|---|---|");
    for (w, l) in [(4, 256), (8, 128), (16, 64)] {
        for kind in KINDS {
            let job = Job::new(Strip { kind, w, l, periodic: false });
            let (ours, edges) = (job.lists.job(), job.raw.len());
            let preview = |place: usize| {
                let told = black_box(ours).preview(&[0.5], black_box(place), Arrangement::KeepAll);
                black_box(told.expect("this strip is refused"));
            };
            let mut room = || {
                black_box(job.room());
            };
            let rounds = Rounds { least: 20, round: 0.003, total: 0.5 };
            let times = least_times(&rounds, &mut [&mut room, &mut || preview(edges / 2), &mut || (0..edges).for_each(preview)]);
            let [room, one, every] = [times[0], times[1], times[2]];
            let ratio = one / room;
            println!("| {} {w} x {l} | {edges} | {:.1} | {:.1} | {ratio:.2} | {:.0} |", kind.name(), 1e6 * room, 1e6 * one, 1e3 * every);
        }
    }
}

/// Of whole strips, and with every third edge dropped, so that there are many components.
fn print_components() {
    println!();
    println!(
        "Components, in microseconds from the edges on: the original's Graph::new and n_components; our n_components, with its marks;"
    );
    println!("the original's Graph::new and cyclomatic; our cyclomatic.");
    println!();
    println!("| strip | components | original | ours | ratio | original, free edges | ours | ratio |");
    println!("|---|---|---|---|---|---|---|---|");
    for (w, l) in [(4, 256), (8, 128), (16, 64)] {
        for kind in KINDS {
            for dropped in [false, true] {
                let job = Job::new(Strip { kind, w, l, periodic: false });
                let mut raw = job.raw.clone();
                raw.iter_mut().step_by(3).for_each(|e| e.2 *= f64::from(u8::from(!dropped)));
                let m: Vec<f64> = raw.iter().map(|e| e.2).collect();
                let ours = copperhook::Graph { m: &m, ..job.lists.job().graph };
                let components = Graph::new(job.graph.n, &raw).n_components();
                let times = components_and_free(job.graph.n, &raw, &ours);
                print!("| {} {w} x {l} | {components} |", kind.name());
                println!(
                    " {:.1} | {:.1} | {:.2} | {:.1} | {:.1} | {:.2} |",
                    1e6 * times[0],
                    1e6 * times[1],
                    times[1] / times[0],
                    1e6 * times[2],
                    1e6 * times[3],
                    times[3] / times[2]
                );
            }
        }
    }
}

fn components_and_free(n: usize, raw: &[(usize, usize, f64)], ours: &copperhook::Graph) -> Vec<f64> {
    least_times(
        &Rounds { least: 20, round: 0.003, total: 0.5 },
        &mut [
            &mut || {
                black_box(Graph::new(n, black_box(raw)).n_components());
            },
            &mut || {
                let _ = black_box(black_box(ours).n_components());
            },
            &mut || {
                black_box(Graph::new(n, black_box(raw)).cyclomatic());
            },
            &mut || {
                let _ = black_box(black_box(ours).cyclomatic());
            },
        ],
    )
}

fn before_the_sweeps(job: &Job) -> Vec<f64> {
    std::env::set_var("FDK_SLOW", BLOCK.slow);
    let mut results = vec![0.0; job.pairs.len()];
    least_times(
        &Rounds { least: 20, round: 0.003, total: 0.5 },
        &mut [
            &mut || {
                let graph = Graph::new(job.graph.n, black_box(&job.raw));
                black_box(Plan::new(&graph, black_box(&job.pairs)));
            },
            &mut || {
                black_box(job.room());
            },
            &mut || {
                let refused = job.lists.correlations(black_box(&job.factors), BLOCK.ours, &mut results, &mut []);
                assert_eq!(refused, Err(copperhook::Refusal::WorkMemory));
            },
        ],
    )
}

/// A call of MANY + 1 samples less a call of one is MANY samples, and a call of one less one sample is its checks and its plan.
fn checks_and_plan(job: &Job) -> f64 {
    const MANY: usize = 16;
    let factors: Vec<f64> = job.factors.iter().flat_map(|x| [*x, 1.0 / x]).collect();
    let (mut squares, mut fourths) = (vec![0.0; job.pairs.len()], vec![0.0; job.pairs.len()]);
    let mut work = vec![0.0; job.room()];
    let mut call = |samples: usize| {
        let by = Sampling { seed: 7, from: 0, to: 1, samples };
        let sampled = job.lists.job().sample(&[1.0], black_box(&factors), BLOCK.ours, &by, &mut squares, &mut fourths, &mut work);
        assert_eq!(sampled, Ok(samples));
    };
    let calls = std::cell::RefCell::new(&mut call);
    let times = least_times(
        &Rounds { least: 20, round: 0.003, total: 1.0 },
        &mut [&mut || (calls.borrow_mut())(1), &mut || (calls.borrow_mut())(MANY + 1)],
    );
    times[0] - (times[1] - times[0]) / MANY as f64
}

fn from_the_edges(job: &Job) -> Vec<f64> {
    std::env::set_var("FDK_SLOW", BLOCK.slow);
    let mut theirs = vec![0.0; job.pairs.len()];
    let mut results = vec![0.0; job.pairs.len()];
    let mut work = vec![0.0; job.room()];
    least_times(
        &Rounds { least: 5, round: 0.003, total: 0.5 },
        &mut [
            &mut || {
                let graph = Graph::new(job.graph.n, black_box(&job.raw));
                let plan = Plan::new(&graph, black_box(&job.pairs));
                correlations(&plan, black_box(&job.couplings), &mut plan.work(), &mut theirs);
            },
            &mut || {
                let _ = black_box(job.lists.correlations(black_box(&job.factors), BLOCK.ours, &mut results, &mut work));
            },
        ],
    )
}
