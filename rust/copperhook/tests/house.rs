//! House calls: the readings of document 02, and that refused ones leave their lists.

use copperhook::{house, Arrangement, Caller, EdgeList, Graph, Job, Kind, Manner, Options, Refusal, Sampling, Strip};

const MANNERS: [Manner; 2] = [Manner::PerElement, Manner::Block];

/// Two vertices and an edge of this magnitude.
struct Edge([f64; 1]);

impl Edge {
    fn job(&self) -> Job<'_> {
        Job { graph: Graph::new(2, &[0], &[1], &self.0), us: &[0], vs: &[1] }
    }

    /// The correlation at a coupling, or the refusal; a refused call leaves what it is lent.
    fn correlation(&self, coupling: f64) -> Result<f64, Refusal> {
        let (mut results, mut work) = ([7.0], [7.0; 14]);
        let answer = self.job().house_correlations(&[coupling], Manner::Block, &mut results, &mut work);
        match answer {
            Ok(()) => assert!(work[..13].iter().all(|x| x.to_bits() == 0) && work[13] == 7.0),
            Err(_) => assert_eq!((results, work), ([7.0], [7.0; 14])),
        }
        answer.map(|()| results[0])
    }

    /// The stored correlations at some betas, or the refusal; a refused call leaves what it is lent.
    fn stored(&self, betas: &[f64]) -> Result<Vec<f64>, Refusal> {
        let (mut stored, mut work) = (vec![7.0; betas.len()], [7.0; 13]);
        let answer = self.job().house_exhaustive_c(betas, Manner::Block, &mut stored, &mut work);
        assert!(answer.is_ok() || stored.iter().chain(&work).all(|&x| x == 7.0));
        answer.map(|count| {
            assert_eq!(count, 1);
            stored
        })
    }
}

/// The correlation of one edge with this factor, as document 01 has it.
fn of_factor(factor: f64) -> f64 {
    let (mut results, mut work) = ([7.0], [7.0; 13]);
    Edge([1.0]).job().correlations(&[factor], Manner::Block, &mut results, &mut work).unwrap();
    results[0]
}

#[test]
fn every_coupling_of_the_grid_has_its_entry() {
    for (i, &entry) in (-512..=512).zip(&house::TABLE) {
        let coupling = f64::from(i) / 128.0;
        assert_eq!(house::factor(coupling), Some(entry));
        assert_eq!(Edge([1.0]).correlation(coupling).map(f64::to_bits), Ok(of_factor(entry).to_bits()), "{coupling}");
        assert_eq!(Edge([coupling]).stored(&[1.0]).map(|x| x[0].to_bits()), Ok(of_factor(entry).to_bits()), "{coupling}");
    }
}

#[test]
fn zeros_of_either_sign_are_0_and_4_belongs() {
    assert_eq!((Edge([1.0]).correlation(-0.0), house::factor(-0.0)), (Ok(0.0), Some(1.0)));
    assert!(Edge([1.0]).correlation(4.0).unwrap() > 0.999 && Edge([1.0]).correlation(-4.0).unwrap() < -0.999);
}

#[test]
fn no_coupling_is_rounded_to_the_grid() {
    let beyond = [4.0 + 1.0 / 128.0, -4.0 - 1.0 / 128.0, 4.0f64.next_up(), 1024.0, 1e300, f64::INFINITY, f64::NEG_INFINITY, f64::NAN];
    let off = [0.1, 0.44, 1.0 / 256.0, 1.0f64.next_up(), -1.0f64.next_down(), 5e-324, -5e-324, f64::MIN_POSITIVE];
    for coupling in beyond.into_iter().chain(off) {
        assert_eq!((Edge([1.0]).correlation(coupling), house::factor(coupling)), (Err(Refusal::Couplings), None), "{coupling:e}");
    }
}

#[test]
fn products_are_rounded_once_and_must_be_on_the_grid() {
    let one = Edge([1.0]).stored(&[1.0]);
    assert_eq!((Edge([3.0]).stored(&[1.0 / 3.0]), Edge([1.0]).stored(&[0.1])), (one, Err(Refusal::Couplings)));
    // a product that underflows is 0/128, of either sign
    assert_eq!((Edge([1e-200]).stored(&[1e-200]), Edge([-1e-200]).stored(&[1e-200])), (Ok(vec![0.0]), Ok(vec![0.0])));
    assert_eq!(Edge([1e-200]).stored(&[1e-120]), Err(Refusal::Couplings));
    // one of several is enough, wherever it stands
    for betas in [[0.1, 0.5, 1.0], [0.25, 0.3, 1.0], [0.25, 0.5, 4.0078125]] {
        assert_eq!(Edge([1.0]).stored(&betas), Err(Refusal::Couplings));
    }
    // without a beta nothing is off the grid, and an edge that is dropped has no coupling
    assert_eq!((Edge([0.1]).stored(&[]), Edge([-0.0]).stored(&[0.1])), (Ok(vec![]), Ok(vec![0.0])));
}

/// A strip of width 2 and so many free edges.
fn ladder(free: usize) -> (usize, EdgeList) {
    let strip = Strip { kind: Kind::Square, width: 2, length: free + 1, periodic: false };
    (strip.n().unwrap(), strip.edge_list().unwrap())
}

/// What a call is refused by where it is also refused by all that follows: 8, then 23, 12 and 13 for one configuration.
#[test]
fn in_the_place_of_10() {
    let (n, edges) = ladder(3);
    let kept = edges.m.len();
    let (good, off, long) = (vec![0.5; kept], vec![0.3; kept], vec![0.5; kept + 1]);
    let call = |vs: &[usize], couplings: &[f64], results: usize| {
        let job = Job { graph: edges.graph(n), us: &[0], vs };
        let (mut results, mut work) = (vec![7.0; results], [7.0; 5]);
        let answer = job.house_correlations(couplings, Manner::Block, &mut results, &mut work);
        assert!(results.iter().chain(&work).all(|&x| x == 7.0));
        answer.unwrap_err()
    };
    assert_eq!(call(&[0], &off, 2), Refusal::PairEnds);
    for couplings in [&off, &long, &good[1..].to_vec(), &vec![]] {
        assert_eq!((call(&[1], couplings, 2), call(&[1], couplings, 1)), (Refusal::Couplings, Refusal::Couplings));
    }
    assert_eq!((call(&[1], &good, 2), call(&[1], &good, 1)), (Refusal::Buffer, Refusal::WorkMemory));
}

/// Of totals: 21, then 9, then the tester's 22, then 23, then 11 of samples, 12 and 13.
#[test]
fn in_the_place_of_10_for_totals() {
    let tester = Options::from(Manner::Block).called_by(Caller::Tester);
    let many = Sampling { seed: 1, from: 0, to: u64::MAX, samples: 1 };
    for (free, betas, options, [all, stored, drawn]) in [
        (35, [0.5, 0.3], tester, [Refusal::Betas; 3]),
        (35, [0.3, 0.5], tester, [Refusal::FreeEdges, Refusal::FreeEdges, Refusal::Couplings]),
        (17, [0.3, 0.5], tester, [Refusal::TesterLimit, Refusal::TesterLimit, Refusal::Couplings]),
        (17, [0.3, 0.5], Manner::Block.into(), [Refusal::Couplings; 3]),
        (17, [0.25, 0.5], Manner::Block.into(), [Refusal::Buffer, Refusal::Buffer, Refusal::Samples]),
    ] {
        let (n, edges) = ladder(free);
        let job = Job { graph: edges.graph(n), us: &[0], vs: &[1] };
        assert_eq!(job.house_exhaustive(&betas, options, &mut [], &mut [], &mut []), Err(all));
        assert_eq!(job.house_exhaustive_c(&betas, options, &mut [], &mut []), Err(stored));
        assert_eq!(job.house_sample(&betas, options, &many, &mut [], &mut [], &mut []), Err(drawn));
    }
}

/// Every call is the lent one's with the table's factors, bit for bit, in both manners and arrangements, for desk and tester.
#[test]
fn calls_are_the_lent_ones_with_the_tables_factors() {
    let strip = Strip { kind: Kind::Triangular, width: 3, length: 3, periodic: false };
    let (mut edges, pairs) = (strip.edge_list().unwrap(), strip.labelled_pairs().unwrap());
    (0..).zip(&mut edges.m).for_each(|(e, m)| *m = [1.0, -0.5, 2.0][e % 3]);
    let (us, vs): (Vec<usize>, Vec<usize>) = pairs.iter().map(|p| (p.u, p.v)).unzip();
    let (job, betas, pairs) = (Job { graph: edges.graph(9), us: &us, vs: &vs }, [-0.375, 0.5, 1.921875], us.len());
    let factors = job.graph.house_factors(&betas).unwrap();
    let minus: Vec<bool> = (0..factors.kept).map(|e| e % 4 == 1).collect();
    let signed: Vec<f64> = edges.m.iter().zip(&minus).map(|(m, &minus)| betas[2] * m * if minus { -1.0 } else { 1.0 }).collect();
    let (by, count) = (Sampling { seed: 3, from: 1, to: 4, samples: 5 }, 1 << job.graph.cyclomatic().unwrap());
    for manner in MANNERS {
        for (arrangement, caller) in [(Arrangement::KeepAll, Caller::Desk), (Arrangement::LessRoom, Caller::Tester)] {
            let options = Options { manner, arrangement, caller };
            let mut work = vec![7.0; job.room_in(arrangement).unwrap()];
            let mut lists = [(); 2].map(|()| [vec![7.0; pairs], vec![7.0; 3 * pairs], vec![7.0; 3 * pairs], vec![7.0; 3 * pairs * count]]);
            let [[one, squares, fourths, stored], [of_lent, lent_squares, lent_fourths, lent_stored]] = &mut lists;
            job.house_correlations(&signed, options, one, &mut work).unwrap();
            job.correlations(&factors.of_signs(2, &minus), options, of_lent, &mut work).unwrap();
            assert_eq!(job.house_exhaustive_c(&betas, options, stored, &mut work), Ok(count));
            assert_eq!(job.exhaustive_c(&betas, &factors.all, options, lent_stored, &mut work), Ok(count));
            assert_eq!(job.house_exhaustive(&betas, options, squares, fourths, &mut work), Ok(count));
            assert_eq!(job.exhaustive(&betas, &factors.all, options, lent_squares, lent_fourths, &mut work), Ok(count));
            assert!(bits(&lists[0]) == bits(&lists[1]) && work.iter().all(|x| x.to_bits() == 0));
            let [[_, squares, fourths, _], [_, lent_squares, lent_fourths, _]] = &mut lists;
            assert_eq!(job.house_sample(&betas, options, &by, squares, fourths, &mut work), Ok(15));
            assert_eq!(job.sample(&betas, &factors.all, options, &by, lent_squares, lent_fourths, &mut work), Ok(15));
            assert_eq!(bits(&lists[0]), bits(&lists[1]));
        }
    }
}

fn bits(lists: &[Vec<f64>]) -> Vec<u64> {
    lists.iter().flatten().map(|x| x.to_bits()).collect()
}

#[test]
fn as_many_edges_as_there_may_be_fit_a_megabyte_of_stack() {
    let calls = || -> Result<(), Refusal> {
        let strip = Strip { kind: Kind::Eight, width: 4, length: 256, periodic: false };
        let edges = strip.edge_list()?;
        let job = Job { graph: edges.graph(strip.n()?), us: &[0, 7], vs: &[1023, 8] };
        let betas: [f64; 64] = std::array::from_fn(|i| (i + 1) as f64 / 128.0);
        let (mut results, mut sums, mut work) = ([0.0; 2], [vec![0.0; 128], vec![0.0; 128]], vec![0.0; job.room()?]);
        job.house_correlations(&vec![0.25; edges.m.len()], Manner::Block, &mut results, &mut work)?;
        let [squares, fourths] = &mut sums;
        job.house_sample(&betas, Manner::Block, &Sampling { seed: 1, from: 0, to: 1, samples: 1 }, squares, fourths, &mut work)?;
        let (n, few) = ladder(5);
        let job = Job { graph: few.graph(n), ..job };
        let job = Job { us: &job.us[..1], vs: &[1], ..job };
        job.house_exhaustive(&betas, Manner::Block, &mut squares[..64], &mut fourths[..64], &mut work)?;
        job.house_exhaustive_c(&betas, Manner::Block, &mut vec![0.0; 64 << 5], &mut work).map(drop)
    };
    let thread = std::thread::Builder::new().stack_size(1 << 20).spawn(calls).unwrap();
    assert_eq!(thread.join().unwrap(), Ok(()));
}
