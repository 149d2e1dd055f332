//! What a refusal means for the options that were given: the value, the limit, and what to do.

use crate::options::Options;
use crate::trouble::Trouble;
use crate::values::spelled;
use copperhook::run_record::{rows, Head, Row, HEAD_BYTES, ROW_BYTES};
use copperhook::{house, limits, Graph, Job, Kind, Refusal, Strip};
use std::path::Path;

pub fn refused(told: String, refusal: Refusal) -> Trouble {
    Trouble::Refused { told, number: refusal.number() }
}

/// Of the strip, its dilution, its window or its pairs.
pub fn of_strip(options: &Options, refusal: Refusal) -> Trouble {
    let told = match refusal {
        Refusal::StripSides => {
            let (w, l) = (options.width, options.length);
            format!("{w} x {l} = {} vertices; at most 1,024", w as u128 * l as u128)
        }
        Refusal::OddCylinder => format!("a honeycomb cylinder needs an even width; {} is odd", options.width),
        Refusal::Dilution => dilution(options),
        Refusal::PairEnds => pair_ends(options),
        Refusal::ListLengths => format!("{} pairs; at most {}", options.pairs.as_ref().map_or(0, Vec::len), limits::PAIRS),
        other => other.sentence().to_string(),
    };
    refused(told, refusal)
}

/// Where it is known how the window comes from the width, that is told.
fn window_needed(strip: &Strip, window: usize) -> String {
    let from = match window.checked_sub(strip.width) {
        _ if strip.kind == Kind::Eight && window + 1 == 2 * strip.width => " (2 width - 1)".to_string(),
        Some(0) => " (the width)".to_string(),
        Some(more) if more <= 2 => format!(" (width + {more})"),
        _ => String::new(),
    };
    format!("this strip needs a window of {window}{from}")
}

/// Above the widest window.
pub fn window(strip: &Strip, window: usize) -> String {
    format!("{}; at most {}", window_needed(strip, window), limits::WINDOW)
}

/// Above the tester's.
pub fn tester_window(strip: &Strip, window: usize) -> String {
    let most = limits::TESTER_WINDOW;
    format!("{}; with --tester at most {most}, leave it out or take a narrower strip", window_needed(strip, window))
}

fn dilution(options: &Options) -> String {
    match options.dilution {
        Some(by) if !by.keep.is_finite() => format!("--dilute: keep is {}; it must be finite", by.keep),
        Some(by) => format!("--dilute: magnitudes {} to {}; both must be finite and of size 1,024 at most", by.low, by.high),
        None => Refusal::Dilution.sentence().to_string(),
    }
}

/// The first pair that cannot be.
fn pair_ends(options: &Options) -> String {
    let n = options.width * options.length;
    let bad = options.pairs.iter().flatten().find(|(u, v)| u == v || *u.max(v) >= n);
    match bad {
        Some((u, v)) if u == v => format!("pair {u}-{v}: its ends must differ"),
        Some((u, v)) => format!("pair {u}-{v}: vertices are 0 to {}", n - 1),
        None => Refusal::PairEnds.sentence().to_string(),
    }
}

/// Of a place to drop an edge at, in a list of so many.
pub fn of_place(place: usize, edges: usize) -> Trouble {
    let there = match edges {
        0 => "this strip has no edge".to_string(),
        _ => format!("this strip has edges at places 0 to {}, --edges lists them", edges - 1),
    };
    refused(format!("--drop {place}: {there}"), Refusal::EdgePlace)
}

/// Of the job of a job sheet: what is wrong with it, and where.
pub fn of_job(file: &Path, job: &Job, betas: &[f64], refusal: Refusal) -> Trouble {
    let Graph { n, a, b, m, .. } = job.graph;
    let bad_end = |u: usize, v: usize| u == v || u.max(v) >= n;
    let ends = |i: usize, u: usize, v: usize, what: &str| match u == v {
        true => format!("{what} {i} is {u}-{v}: its ends must differ"),
        false => format!("{what} {i} is {u}-{v}: vertices are 0 to {}", n - 1),
    };
    let oversized = |x: &f64| !x.is_finite() || x.abs() > 1024.0;
    let told = match refusal {
        Refusal::VertexCount => format!("{n} vertices; 1 to 1,024"),
        Refusal::ListLengths => {
            let (edges, pairs) = (a.len(), job.us.len());
            format!("{edges} edges, {pairs} pairs and {} betas; at most 4,096, {} and {}", betas.len(), limits::PAIRS, limits::BETAS)
        }
        Refusal::EdgeEnds => (0..a.len()).find(|&i| bad_end(a[i], b[i])).map_or(String::new(), |i| ends(i, a[i], b[i], "edge")),
        Refusal::PairEnds => {
            let (us, vs) = (job.us, job.vs);
            (0..us.len()).find(|&i| bad_end(us[i], vs[i])).map_or(String::new(), |i| ends(i, us[i], vs[i], "pair"))
        }
        Refusal::Magnitude if m.iter().any(oversized) => {
            let i = m.iter().position(oversized).unwrap_or_default();
            format!("the magnitude of edge {i} is {}; it must be finite and of size 1,024 at most", spelled(m[i]))
        }
        Refusal::Magnitude | Refusal::Betas => match of_betas(betas, refusal) {
            Trouble::Refused { told, .. } => told.split(": --beta").next().unwrap_or_default().to_string(),
            other => other.to_string(),
        },
        Refusal::Window | Refusal::TesterLimit => {
            let most = if refusal == Refusal::Window { limits::WINDOW } else { limits::TESTER_WINDOW };
            let window = job.graph.window().unwrap_or_default();
            format!("a window of {window}, the largest of the floor {} and the longest kept edge; at most {most}", job.graph.floor)
        }
        other => other.sentence().to_string(),
    };
    refused(format!("{}: {told}", file.display()), refusal)
}

/// Of the list of betas.
pub fn of_betas(betas: &[f64], refusal: Refusal) -> Trouble {
    let strong = betas.iter().find(|b| !b.is_finite() || b.abs() > 1024.0);
    let told = match (refusal, strong) {
        (Refusal::ListLengths, _) => format!("{} betas; at most {}", betas.len(), limits::BETAS),
        (Refusal::Magnitude, Some(beta)) => format!("beta {}: it must be finite and of size 1,024 at most", spelled(*beta)),
        (Refusal::Betas, _) => out_of_order(betas),
        (other, _) => other.sentence().to_string(),
    };
    refused(told, refusal)
}

/// The betas in rising order, each once, as `--beta` takes them.
fn rising(betas: &[f64]) -> String {
    let mut sorted = betas.to_vec();
    sorted.sort_by(f64::total_cmp);
    sorted.dedup();
    sorted.iter().map(|&b| spelled(b)).collect::<Vec<_>>().join(",")
}

/// The first beta that the next one does not exceed, and the list that the library takes.
fn out_of_order(betas: &[f64]) -> String {
    let sorted = rising(betas);
    let falls = betas.windows(2).find(|two| two[0] >= two[1]);
    match falls {
        Some(&[one, next]) => {
            format!("beta {} follows {}; betas must rise strictly: --beta {sorted}", spelled(next), spelled(one))
        }
        _ => Refusal::Betas.sentence().to_string(),
    }
}

/// Of the factors at each beta and edge, whose magnitudes these are.
pub fn of_factors(options: &Options, betas: &[f64], magnitudes: &[f64], refusal: Refusal) -> Trouble {
    let kept: Vec<f64> = magnitudes.iter().copied().filter(|m| *m != 0.0).collect();
    let products = betas.iter().flat_map(|&beta| kept.iter().map(move |&m| (beta, m)));
    match products.into_iter().find(|(beta, m)| house::factor(beta * m).is_none()) {
        Some((beta, m)) if refusal == Refusal::Couplings => refused(off_grid(options, &kept, beta, m), refusal),
        _ => of_betas(betas, refusal),
    }
}

/// A coupling that has no house factor, the nearest one that has, and what to change.
fn off_grid(options: &Options, kept: &[f64], beta: f64, m: f64) -> String {
    let product = beta * m;
    let limit = match product.abs() > house::MOST {
        true => format!("; couplings of house factors go up to {} in size", house::MOST),
        false => format!(", which is no multiple of 1/{}", house::STEPS),
    };
    // of a zero the sign says nothing here
    let nearest = spelled(house::nearest(product) + 0.0);
    let change = match (mended(options, kept, m), options.dilution) {
        _ if options.job.is_some() => "change it in the job sheet".to_string(),
        (Some(betas), _) => format!("use --beta {betas}"),
        (None, Some(by)) if by.low != by.high => {
            let bounds = format!("equal bounds, as --dilute {},1,1,{}", spelled(by.keep), by.seed);
            format!("magnitudes drawn from a range hardly ever fit, use {bounds}")
        }
        _ => "use another beta".to_string(),
    };
    let [beta, m, product] = [beta, m, product].map(spelled);
    format!("beta {beta} times magnitude {m} is {product}{limit}, the nearest is {nearest}: {change}, or leave --house out")
}

/// The betas that bring a magnitude's couplings onto the grid, where they do so for all magnitudes: to the nearest, but not to zero.
fn mended(options: &Options, kept: &[f64], m: f64) -> Option<String> {
    let mend = |beta: &f64| {
        let (product, least) = (beta * m, 1.0 / house::STEPS);
        let nearest = if product.abs() < least && product != 0.0 { least.copysign(product) } else { house::nearest(product) };
        nearest / m
    };
    let betas: Vec<f64> = options.betas.iter().map(mend).collect();
    let fits = |beta: &f64| beta.abs() <= 1024.0 && kept.iter().all(|m| house::factor(beta * m).is_some());
    betas.iter().all(fits).then(|| rising(&betas))
}

/// Of a call at one beta, whose factors are the exponentials of these.
pub fn of_beta(beta: f64, couplings: impl Iterator<Item = f64>, refusal: Refusal) -> Trouble {
    let bad = couplings.map(|x| (x, x.exp())).find(|(_, factor)| !factor.is_finite() || *factor == 0.0);
    let told = match (refusal, bad) {
        (Refusal::PartitionSum, _) => "the weights overflow, or vanish, as doubles; use a smaller one".to_string(),
        (Refusal::Factors, Some((x, factor))) => {
            let how = if factor == 0.0 { "vanishes" } else { "overflows" };
            format!("exp({}) {how}; use a smaller one", spelled(x))
        }
        (other, _) => other.sentence().to_string(),
    };
    refused(format!("beta {}: {told}", spelled(beta)), refusal)
}

/// Where bytes stop being a run record: the byte, and why.
pub fn stopped_record(bytes: &[u8]) -> String {
    let Ok(head) = Head::read(bytes) else {
        return match bytes.first() {
            Some(17) | None => format!("it has {} bytes, and a head {HEAD_BYTES}", bytes.len()),
            Some(kind) => format!("byte 0: a record of kind {kind}; a run record begins with kind 17"),
        };
    };
    let (by, long) = (head.by, bytes.len());
    let count = u128::from(by.to.saturating_sub(by.from)) * by.samples as u128;
    if head.betas > limits::BETAS {
        return format!("byte 29: {} betas; at most {}", head.betas, limits::BETAS);
    }
    if head.pairs > limits::PAIRS {
        return format!("byte 30: {} pairs; at most {}", head.pairs, limits::PAIRS);
    }
    if by.to < by.from {
        return format!("byte 17: the end of the chunks, {}, is below their start, {}", by.to, by.from);
    }
    if count > 1 << 32 {
        return format!(
            "byte 25: {} chunks of {} samples = {count} configurations; at most 4,294,967,296 (2^32)",
            by.to - by.from,
            by.samples
        );
    }
    match head.bytes() {
        Some(wanted) if wanted == long => stopped_row(bytes, &head),
        Some(wanted) => {
            format!("it has {long} bytes; chunks {}..{} of {} betas and {} pairs have {wanted}", by.from, by.to, head.betas, head.pairs)
        }
        None => format!(
            "it has {long} bytes; chunks {}..{} of {} betas and {} pairs have more than any file",
            by.from, by.to, head.betas, head.pairs
        ),
    }
}

/// The first row that is not the one of its place, or has sums that no chunk can have.
fn stopped_row(record: &[u8], head: &Head) -> String {
    let told = |(kind, chunk, beta, pair): (u8, u64, usize, usize)| format!("kind {kind}, chunk {chunk}, beta {beta}, pair {pair}");
    for (i, Row { kind, chunk, beta, pair, squares, fourths }) in rows(record).enumerate() {
        let (of_chunk, place) = (head.by.from + (i / head.rows_of_a_chunk()) as u64, i % head.rows_of_a_chunk());
        let (found, expected) = ((kind, chunk, beta, pair), (18, of_chunk, place / head.pairs, place % head.pairs));
        let at = HEAD_BYTES + i * ROW_BYTES;
        if found != expected {
            return format!("byte {at}: a row of {}; expected {}", told(found), told(expected));
        }
        let in_order = 0.0 <= fourths && fourths <= squares && squares <= head.by.samples as f64;
        if !in_order || squares.is_sign_negative() || fourths.is_sign_negative() {
            let rule = format!("0 <= fourth powers <= squares <= {} must hold, and no sum is -0", head.by.samples);
            return format!("byte {at}: squares {} and fourth powers {}; {rule}", spelled(squares), spelled(fourths));
        }
    }
    Refusal::Record.sentence().to_string()
}

/// What the library takes, and hardly anyone means.
pub fn warnings(options: &Options) -> Vec<String> {
    let mut told = Vec::new();
    if let Some(by) = options.dilution {
        if !(0.0..=1.0).contains(&by.keep) {
            let all = if by.keep > 1.0 { "every edge is kept" } else { "no edge is kept" };
            told.push(format!("--dilute: keep is {}, not from 0 to 1; {all}", spelled(by.keep)));
        }
        if by.low > by.high {
            told.push(format!("--dilute: the lower bound {} is above the upper, {}", spelled(by.low), spelled(by.high)));
        }
    }
    told
}
