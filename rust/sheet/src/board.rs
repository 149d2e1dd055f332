//! A strip made ready: its edges, the pairs that are asked for, and its factors at each beta.

use crate::explained;
use crate::job_sheet;
use crate::options::Options;
use crate::sha256::sha256;
use crate::trouble::Trouble;
use crate::values::spelled;
use copperhook::{
    limits, Arrangement, Caller, Dilution, EdgeList, Factors, Graph, Job, JobSheet, Kind, LabelledPair, Manner, Refusal, Strip,
};
use std::ops::Range;
use std::path::Path;

pub struct Board {
    /// `None` where the job is that of a job sheet.
    pub strip: Option<Strip>,
    pub betas: Vec<f64>,
    /// The manner, the arrangement, and who calls.
    pub options: copperhook::Options,
    pub pairs: Vec<LabelledPair>,
    /// The least number of kept edges on a walk that joins a pair, `None` where there is none.
    pub distances: Vec<Option<usize>>,
    pub n: usize,
    pub kept: usize,
    pub free: usize,
    pub window: usize,
    /// As the job has it: the window of a strip.
    floor: usize,
    /// Of the job sheet, where there is one.
    pub job_sha256: Option<String>,
    /// The work memory of one call in each arrangement, in doubles.
    rooms: [usize; 2],
    /// Of both signs, at each beta and kept edge.
    pub factors: Factors,
    /// Whether they are the library's own, and not the host's exponentials.
    pub house: bool,
    /// How the strip is diluted, or the file of the job sheet.
    own: Option<String>,
    edges: EdgeList,
    us: Vec<usize>,
    vs: Vec<usize>,
}

/// What a board is made of.
struct Given {
    strip: Option<Strip>,
    edges: EdgeList,
    n: usize,
    window: usize,
    pairs: Vec<LabelledPair>,
    betas: Vec<f64>,
    /// How the strip is diluted, or the file of the job sheet.
    own: Option<String>,
}

/// So many of something.
pub fn counted(count: usize, one: &str, many: &str) -> String {
    format!("{count} {}", if count == 1 { one } else { many })
}

/// The strip, and its edges as they are lent.
pub fn strip(options: &Options) -> Result<(Strip, EdgeList), Trouble> {
    let named = |refusal| explained::of_strip(options, refusal);
    let kind = Kind::parse(&options.kind).ok_or_else(|| Trouble::asked(format!("--kind {}: the library has none", options.kind)))?;
    let strip = Strip { kind, width: options.width, length: options.length, periodic: options.cylinder };
    strip.n().map_err(named)?;
    let edges = match options.dilution {
        None => strip.edge_list(),
        Some(by) => strip.diluted_list(&Dilution { keep: by.keep, low: by.low, high: by.high, seed: by.seed }),
    };
    Ok((strip, edges.map_err(named)?))
}

/// The pairs that are asked for: the standard ones where none are told.
pub fn pairs(options: &Options, strip: &Strip) -> Result<Vec<LabelledPair>, Refusal> {
    match &options.pairs {
        None => strip.labelled_pairs(),
        Some(pairs) => Ok(pairs.iter().map(|&(u, v)| LabelledPair { label: format!("{u}-{v}"), u, v }).collect()),
    }
}

/// How it is diluted, where it is.
pub fn diluted(options: &Options) -> Option<String> {
    options
        .dilution
        .map(|by| format!("keep {}, magnitudes {} to {}, seed {}", spelled(by.keep), spelled(by.low), spelled(by.high), by.seed))
}

/// A strip with its vertices, kept edges and window, on one line.
pub fn title(strip: &Strip, diluted: Option<&str>, [n, kept, window]: [usize; 3]) -> String {
    let boundary = if strip.periodic { "cylinder" } else { "free" };
    let diluted = diluted.map_or(String::new(), |by| format!(", diluted ({by})"));
    let (n, kept) = (counted(n, "vertex", "vertices"), counted(kept, "kept edge", "kept edges"));
    format!("{} strip, {boundary}, {} by {}{diluted}: {n}, {kept}, window {window}", strip.kind.name(), strip.width, strip.length)
}

impl Board {
    /// Every limit of the strip, the pairs and the betas is asked here, or those of the job of a job sheet.
    pub fn new(options: &Options) -> Result<Board, Trouble> {
        match &options.job {
            None => Board::of_strip(options),
            Some(file) => Board::of_job(options, file),
        }
    }

    fn of_strip(options: &Options) -> Result<Board, Trouble> {
        let named = |refusal| explained::of_strip(options, refusal);
        let (strip, edges) = strip(options)?;
        let (n, window) = (strip.n().map_err(named)?, strip.window().map_err(named)?);
        if window > limits::WINDOW {
            return Err(explained::refused(explained::window(&strip, window), Refusal::Window));
        }
        if options.tester && window > limits::TESTER_WINDOW {
            return Err(explained::refused(explained::tester_window(&strip, window), Refusal::TesterLimit));
        }
        let pairs = pairs(options, &strip).map_err(named)?;
        let (strip, betas, own) = (Some(strip), options.betas.clone(), diluted(options));
        Board::ready(options, Given { strip, edges, n, window, pairs, betas, own }, &named)
    }

    fn of_job(options: &Options, file: &Path) -> Result<Board, Trouble> {
        let JobSheet { n, floor, edges, us, vs, betas } = job_sheet::read(file)?;
        let job = Job { graph: edges.graph(n).with_floor(floor), us: &us, vs: &vs };
        let named = |refusal| explained::of_job(file, &job, &betas, refusal);
        // the checks of a job in their order, 21 among them
        let sheet = job.sheet_bytes(&betas).map_err(named)?;
        let window = job.graph.window().map_err(named)?;
        if options.tester && window > limits::TESTER_WINDOW {
            return Err(named(Refusal::TesterLimit));
        }
        let pairs = us.iter().zip(&vs).map(|(u, v)| LabelledPair { label: format!("{u}-{v}"), u: *u, v: *v }).collect();
        let own = Some(file.display().to_string());
        let given = Given { strip: None, edges: edges.clone(), n, window, pairs, betas: betas.clone(), own };
        let mut board = Board::ready(options, given, &named)?;
        (board.floor, board.job_sha256) = (floor, Some(sha256(&sheet)));
        Ok(board)
    }

    fn ready(options: &Options, given: Given, named: &dyn Fn(Refusal) -> Trouble) -> Result<Board, Trouble> {
        let Given { strip, edges, n, window, pairs, betas, own } = given;
        let graph = edges.graph(n).with_floor(window);
        let (us, vs): (Vec<usize>, Vec<usize>) = pairs.iter().map(|p| (p.u, p.v)).unzip();
        let job = Job { graph, us: &us, vs: &vs };
        let rooms = [job.room().map_err(named)?, job.room_in(Arrangement::LessRoom).map_err(named)?];
        let factors = if options.house { graph.house_factors(&betas) } else { graph.factors(&betas) };
        let factors = factors.map_err(|refusal| explained::of_factors(options, &betas, &edges.m, refusal))?;
        let free = graph.cyclomatic().map_err(named)?;
        let distances = pairs.iter().map(|p| graph.distance(p.u, p.v)).collect::<Result<_, _>>().map_err(named)?;
        let kept = factors.kept;
        let manner = if options.per_element { Manner::PerElement } else { Manner::Block };
        let arrangement = if options.less_room { Arrangement::LessRoom } else { Arrangement::KeepAll };
        let caller = if options.tester { Caller::Tester } else { Caller::Desk };
        let (calls, house) = (copperhook::Options { manner, arrangement, caller }, options.house);
        Ok(Board {
            strip,
            betas,
            options: calls,
            pairs,
            distances,
            n,
            kept,
            free,
            window,
            floor: window,
            job_sha256: None,
            rooms,
            factors,
            house,
            own,
            edges,
            us,
            vs,
        })
    }

    /// Kind, boundary, width and length, as the first cells of a row; of a job sheet there are none.
    pub fn strip_cells(&self) -> String {
        self.strip.map_or("job,,,".to_string(), |s| format!("{},{},{},{}", s.kind.name(), s.boundary(), s.width, s.length))
    }

    /// The work memory of one call that keeps all, in doubles.
    pub fn most_room(&self) -> usize {
        self.rooms[0]
    }

    /// The work memory of one call as it is arranged.
    pub fn room(&self) -> usize {
        self.rooms[usize::from(self.has_less_room())]
    }

    /// Whether no backward vector is kept for pairs nearer than the window.
    pub fn has_less_room(&self) -> bool {
        self.options.arrangement == Arrangement::LessRoom
    }

    /// Arranges the calls so that they take less room, where that is less than now; returns whether it is.
    pub fn take_less_room(&mut self) -> bool {
        let is_less = self.rooms[1] < self.room();
        if is_less {
            self.options = self.options.arranged(Arrangement::LessRoom);
        }
        is_less
    }

    /// Whether the calls are the bench tester's.
    pub fn is_tester(&self) -> bool {
        self.options.caller == Caller::Tester
    }

    pub fn graph(&self) -> Graph<'_> {
        self.edges.graph(self.n).with_floor(self.window)
    }

    /// The job as a job sheet has it.
    pub fn lent_job(&self) -> Job<'_> {
        Job { graph: self.edges.graph(self.n).with_floor(self.floor), us: &self.us, vs: &self.vs }
    }

    pub fn job(&self) -> Job<'_> {
        Job { graph: self.graph(), us: &self.us, vs: &self.vs }
    }

    /// The betas' places, the strongest first: what overflows is found early.
    pub fn strongest_first(&self) -> Vec<usize> {
        let mut order: Vec<usize> = (0..self.betas.len()).collect();
        order.sort_by(|&i, &j| self.betas[j].abs().total_cmp(&self.betas[i].abs()));
        order
    }

    /// Of both signs, at the betas of these places.
    pub fn factors_of(&self, betas: Range<usize>) -> &[f64] {
        &self.factors.all[2 * betas.start * self.kept..2 * betas.end * self.kept]
    }

    /// Of both signs, at beta i.
    pub fn factors_at(&self, i: usize) -> &[f64] {
        self.factors_of(i..i + 1)
    }

    /// What the factors at beta i are of, for plus.
    fn couplings(&self, i: usize) -> impl Iterator<Item = f64> + '_ {
        self.edges.m.iter().filter(|m| **m != 0.0).map(move |m| self.betas[i] * m)
    }

    /// What those of a configuration are of, true for minus.
    pub fn signed_couplings<'a>(&'a self, i: usize, minus: &'a [bool]) -> impl Iterator<Item = f64> + 'a {
        self.couplings(i).zip(minus).map(|(x, &m)| if m { -x } else { x })
    }

    /// A refusal of a call at beta i with the factors of either sign.
    pub fn refused_at(&self, i: usize, refusal: Refusal) -> Trouble {
        explained::of_beta(self.betas[i], self.couplings(i).flat_map(|x| [x, -x]), refusal)
    }

    /// The same with those of a configuration.
    pub fn refused_signs(&self, i: usize, minus: &[bool], refusal: Refusal) -> Trouble {
        explained::of_beta(self.betas[i], self.signed_couplings(i, minus), refusal)
    }

    /// A refusal that no beta is named for.
    pub fn refused(&self, refusal: Refusal) -> Trouble {
        explained::of_betas(&self.betas, refusal)
    }

    /// What it is, on one line.
    pub fn title(&self) -> String {
        match &self.strip {
            Some(strip) => title(strip, self.own.as_deref(), [self.n, self.kept, self.window]),
            None => {
                let (n, kept) = (counted(self.n, "vertex", "vertices"), counted(self.kept, "kept edge", "kept edges"));
                format!("job {}: {n}, {kept}, window {}", self.own.as_deref().unwrap_or_default(), self.window)
            }
        }
    }

    /// Entries that the sweeps of one call step over.
    pub fn entries(&self) -> f64 {
        entries(&self.job(), self.window)
    }
}

/// Entries that the sweeps of a job in this window step over: forward, backward, and from the earlier vertex of each far pair to its last.
pub fn entries(job: &Job, window: usize) -> f64 {
    let mut last = vec![0; job.graph.n];
    for (&u, &v) in job.us.iter().zip(job.vs) {
        let (u, v) = (u.min(v), u.max(v));
        if v - u >= window {
            last[u] = last[u].max(v - u);
        }
    }
    let steps = 2 * job.graph.n + last.iter().sum::<usize>() + 2 * job.us.len();
    steps as f64 * f64::powi(2.0, window as i32)
}
