//! The program as it is run: what it prints, writes and refuses.

mod common;
use common::{body, folder, labels_and_bits, printed, table, SQUARE};
use oracle::glass::{correlations, exhaustive, sample, Acc, Plan};
use oracle::lattice::{Graph, Kind, Strip};
use oracle::rng::Rng;
use oracle::rules::complete::complete_estimate;
use oracle::rules::strips::eight_edges;
use std::process::Command;

#[test]
fn the_settled_square() {
    let expected = "\
square strip, free, 2 by 2: 4 vertices, 4 kept edges, window 2
signs +++-; manner block

pair              u  v  distance  beta 0.6931471805599453
corner-adj-a      0  1         1           0.441176470588
corner-adj-l      0  2         1           0.441176470588
short-end-to-end  0  1         1           0.441176470588
end-to-end-l      0  2         1           0.441176470588
opp-corners       0  3         2           0.000000000000

each correlation is within 6.9e-15 of the exact value for these factors, proved; no digit below that is printed
pairs: -a across, -l along; adj neighbours, d2 two steps apart; bdry on the boundary, lmid halfway along it; sheet --help tells all
";
    assert_eq!(body(&printed(&format!("{SQUARE} --signs +++-"))), expected);
    let first = |line: &str| table(&printed(&format!("{SQUARE} --format csv --bits {line}"))).lines().nth(1).unwrap().to_string();
    let (c, bound) = (255.0f64 / 353.0, 62.0 / (1u64 << 53) as f64);
    let row = format!("square,free,2,2,0.6931471805599453,corner-adj-a,0,1,1,{c:?},0x{:016x},{bound:?}", c.to_bits());
    assert_eq!(first("--signs plus"), row);
    assert_eq!(first("--signs ++++"), row);
}

/// The original's answers for a strip's standard pairs, its signs drawn as the program draws them.
fn original(strip: &Strip, graph: &Graph, beta: f64, seed: u64) -> Vec<(String, u64)> {
    let mut rng = Rng::stream(seed, 0);
    let mut word = 0;
    let mut couplings = Vec::new();
    for (e, m) in graph.mag.iter().enumerate() {
        if e % 64 == 0 {
            word = rng.next_u64();
        }
        let sign = if word >> (e % 64) & 1 == 0 { 1.0 } else { -1.0 };
        couplings.push(beta * m * sign);
    }
    let pairs: Vec<(usize, usize)> = strip.pairs().iter().map(|p| (p.1, p.2)).collect();
    let plan = Plan::new(graph, &pairs);
    let mut out = vec![0.0; pairs.len()];
    correlations(&plan, &couplings, &mut plan.work(), &mut out);
    strip.pairs().into_iter().zip(out).map(|(p, x)| (p.0, x.to_bits())).collect()
}

#[test]
fn strips_are_the_originals() {
    for (kind, name, w, l, periodic) in [
        (Kind::Square, "square", 4, 6, false),
        (Kind::Square, "sq", 5, 7, true),
        (Kind::Tri, "tri", 3, 8, true),
        (Kind::Tri, "triangular", 6, 5, false),
        (Kind::Honey, "honey", 4, 9, true),
        (Kind::Honey, "hex", 7, 4, false),
    ] {
        let strip = Strip { kind, w, l, periodic };
        let cylinder = if periodic { "--cylinder" } else { "" };
        let line = format!("--kind {name} --width {w} --length {l} {cylinder} --beta 0.7 --seed 12 --format csv --bits");
        assert_eq!(labels_and_bits(&printed(&line), "correlation"), original(&strip, &strip.graph(), 0.7, 12), "{line}");
        let diluted = strip.diluted(0.8, 0.5, 1.5, 99);
        assert_eq!(
            labels_and_bits(&printed(&format!("{line} --dilute 0.8,0.5,1.5,99")), "correlation"),
            original(&strip, &diluted, 0.7, 12),
            "{line}"
        );
    }
}

/// A strip of eight neighbours: the original has its pairs, which are the square's, and takes its edges as a graph.
fn eight(w: usize, l: usize, periodic: bool) -> (Strip, Graph) {
    (Strip { kind: Kind::Square, w, l, periodic }, Graph::new(w * l, &eight_edges(w, l, periodic)))
}

#[test]
fn strips_of_eight_neighbours_are_the_originals_of_their_edges() {
    for (w, l, periodic) in [(4, 6, false), (1, 9, false), (2, 5, true), (5, 4, true), (7, 3, true)] {
        let (strip, graph) = eight(w, l, periodic);
        let cylinder = if periodic { "--cylinder" } else { "" };
        let line = format!("--kind eight --width {w} --length {l} {cylinder} --beta 0.7 --seed 12 --format csv --bits");
        assert_eq!(labels_and_bits(&printed(&line), "correlation"), original(&strip, &graph, 0.7, 12), "{line}");
        let mut rng = Rng::new(99 ^ 0xD11);
        let drawn = |(a, b, _): (usize, usize, f64)| {
            let kept = rng.uniform() < 0.8;
            (a, b, if kept { 0.5 + rng.uniform() } else { rng.uniform() * 0.0 })
        };
        let mut diluted = Graph::new(w * l, &eight_edges(w, l, periodic).into_iter().map(drawn).collect::<Vec<_>>());
        diluted.win = graph.win;
        let line = format!("{line} --dilute 0.8,0.5,1.5,99");
        assert_eq!(labels_and_bits(&printed(&line), "correlation"), original(&strip, &diluted, 0.7, 12), "{line}");
    }
}

#[test]
fn the_settled_squares_totals() {
    let expected = "\
square strip, free, 2 by 2: 4 vertices, 4 kept edges, window 2
all 2 configurations of 1 free edge: mean squares of the correlations, and their spreads; manner block

pair              u  v  distance  mean_square at 0.6931471805599453  spread at 0.6931471805599453
corner-adj-a      0  1         1                     0.358234484804                0.163597806603
corner-adj-l      0  2         1                     0.358234484804                0.163597806603
short-end-to-end  0  1         1                     0.358234484804                0.163597806603
end-to-end-l      0  2         1                     0.358234484804                0.163597806603
opp-corners       0  3         2                     0.203135407555                0.203135407555

each mean square is within 1.5e-14 of the exact value for these factors, proved; no digit below that is printed
no bound is proved of the spreads; no digit below 1e-15 is printed there
pairs: -a across, -l along; adj neighbours, d2 two steps apart; bdry on the boundary, lmid halfway along it; sheet --help tells all
";
    assert_eq!(body(&printed(SQUARE)), expected);
    assert_eq!(printed(&format!("{SQUARE} --enumerate")), printed(SQUARE));
    let tree = printed("--kind square --width 1 --length 3 --beta 0.6931471805599453 --format csv --pairs 0-1");
    // 2 (2 (0 + 5) 3 + 2^2 + 5) + 2 roundings of the square, one configuration in one chunk, and one unit more
    let bound = 83.0 / (1u64 << 53) as f64;
    let head = "kind,boundary,width,length,beta,pair,u,v,distance,mean_square,spread,mean_square_bound";
    assert_eq!(table(&tree), format!("{head}\nsquare,free,1,3,0.6931471805599453,0-1,0,1,1,0.36,0.0,{bound:?}\n"));
}

/// Labels with the bits of the means and of the errors, beta after beta.
fn estimated(strip: &Strip, betas: &[f64], total: &Acc) -> [Vec<(String, u64)>; 2] {
    let labels: Vec<String> = strip.pairs().into_iter().map(|p| p.0).collect();
    let all = |value: &dyn Fn(usize, usize) -> f64| {
        let bits = |(b, p): (usize, usize)| (labels[p].clone(), value(b, p).to_bits());
        (0..betas.len()).flat_map(|b| (0..labels.len()).map(move |p| (b, p))).map(bits).collect()
    };
    // a variance of zero counts as +0.0
    [all(&|b, p| total.mean(b, p)), all(&|b, p| total.se(b, p) + 0.0)]
}

/// The same of all configurations: the original's means, and the spreads of its totals.
fn complete(strip: &Strip, betas: &[f64], total: &Acc) -> [Vec<(String, u64)>; 2] {
    let [means, mut spreads] = estimated(strip, betas, total);
    for (k, spread) in spreads.iter_mut().enumerate() {
        spread.1 = complete_estimate(total.count as usize, total.s1[k], total.s2[k])[2].to_bits();
    }
    [means, spreads]
}

#[test]
fn totals_are_the_originals() {
    let betas = [0.3, 0.8];
    let lattice = |kind, w, l, periodic| {
        let strip = Strip { kind, w, l, periodic };
        (strip.clone(), strip.graph())
    };
    for (name, (strip, graph)) in [
        ("square", lattice(Kind::Square, 3, 5, false)),
        ("tri", lattice(Kind::Tri, 2, 5, false)),
        ("honey", lattice(Kind::Honey, 4, 4, true)),
        ("eight", eight(2, 4, false)),
        ("eight", eight(3, 2, true)),
    ] {
        let Strip { w, l, periodic, .. } = strip;
        let pairs: Vec<(usize, usize)> = strip.pairs().iter().map(|p| (p.1, p.2)).collect();
        let plan = Plan::new(&graph, &pairs);
        let cylinder = if periodic { "--cylinder" } else { "" };
        let line = format!("--kind {name} --width {w} --length {l} {cylinder} --beta 0.3,0.8 --format csv --bits");
        let told = |more: &str, second: &str| {
            let csv = printed(&format!("{line} {more}"));
            ["mean_square", second].map(|column| labels_and_bits(&csv, column))
        };
        assert_eq!(told("", "spread"), complete(&strip, &betas, &exhaustive(&graph, &plan, &betas, 1)), "{line}");
        let total = estimated(&strip, &betas, &sample(&graph, &plan, &betas, 8, 3, 20, 7, 1));
        for threads in [1, 2, 5, 40] {
            let drawn = format!("--sample 7 --chunks 3..20 --seed 8 --threads {threads}");
            assert_eq!(told(&drawn, "std_error"), total, "{line} with {threads} threads");
        }
    }
}

/// What stands between the table and the record.
fn foot(line: &str) -> String {
    body(&printed(line)).rsplit_once("\n\n").unwrap().1.to_string()
}

#[test]
fn the_foot_tells_what_is_proved() {
    let square = "--kind square --width 2 --length 2 --pairs 0-1";
    let of = |bound: &str| format!("is within {bound} of the exact value for these factors, proved; no digit below that is printed\n");
    let none = |what: &str| format!("no bound is proved {what}; no digit below 1e-15 is printed there\n");
    // factors up to 2^40 have a bound: couplings up to 27.7
    let within = of("6.9e-15");
    assert_eq!(foot(&format!("{square} --signs plus --beta 0.5,27.7")), format!("each correlation {within}"));
    for which in ["--signs plus", "--signs ---+", "--enumerate", "--sample 3", "--sample 1"] {
        assert_eq!(foot(&format!("{square} {which} --beta 27.8")), none("for couplings this strong"));
        assert_eq!(foot(&format!("{square} {which} --beta -27.8,28")), none("for couplings this strong"));
    }
    let strong = "for couplings as strong as at beta -28, 30";
    assert_eq!(
        foot(&format!("{square} --signs plus --beta -28,1,2,30")),
        format!("each correlation at beta 1, 2 {within}{}", none(strong))
    );
    assert_eq!(
        foot(&format!("{square} --enumerate --beta -28,1,30")),
        format!("each mean square at beta 1 {}{}", of("1.5e-14"), none(&format!("{strong}, and of the spreads")))
    );
    // drawn configurations of all betas are one call
    assert_eq!(foot(&format!("{square} --sample 3 --beta 1,28")), none("for couplings this strong"));
    assert_eq!(foot(&format!("{square} --sample 1 --beta 1")), format!("each mean square {}", of("1.5e-14")));
}

/// The two pairs are equal by symmetry, and truly 1.00256858988e-14: none of it is above the bound, and none of it is printed.
#[test]
fn digits_that_are_noise_are_not_printed() {
    let line = "--kind square --width 8 --length 16 --beta 0.01 --signs plus --pairs 0-7,120-127";
    let text = printed(line);
    for pair in ["0-7", "120-127"] {
        let row = text.lines().find(|row| row.starts_with(&format!("{pair} "))).unwrap();
        assert!(row.ends_with("  0.000000000000"), "{text}");
    }
    assert!(text
        .contains("\neach correlation is within 2.3e-13 of the exact value for these factors, proved; no digit below that is printed\n"));
    let csv = table(&printed(&format!("{line} --format csv")));
    let values: Vec<f64> = csv.lines().skip(1).map(|row| row.split(',').nth(9).unwrap().parse().unwrap()).collect();
    assert!(values.iter().all(|x| *x != 0.0 && (x - 1.00256858988e-14).abs() < 2.3e-13), "{csv}");
}

/// Spreads have no bound.
#[test]
fn no_digit_below_an_absolute_one_is_printed_without_a_bound() {
    let text = printed("--kind square --width 3 --length 5 --beta 0.02");
    let small = |cell: &&str| cell.contains("e-");
    let cells: Vec<&str> = text.lines().skip(4).take_while(|row| !row.is_empty()).filter_map(|row| row.split_whitespace().last()).collect();
    assert!(cells.iter().any(small), "{text}");
    for cell in cells.iter().filter(|cell| small(cell)) {
        let (digits, exponent) = cell.split_once("e-").unwrap();
        let after = digits.split_once('.').map_or(0, |parts| parts.1.len());
        assert_eq!(after + exponent.parse::<usize>().unwrap(), 15, "{text}");
    }
}

#[test]
fn no_digit_is_printed_past_the_bound() {
    for (which, bound, decimals) in [("--seed 7", "2.0e-12", 11), ("--sample 5", "3.9e-12", 11), ("--sample 1 --chunks 50000", "", 10)] {
        let (width, length) = if bound.is_empty() { (2, 2) } else { (13, 6) };
        let line = format!("--kind square --width {width} --length {length} --beta 0.4 {which}");
        let (text, csv) = (printed(&line), printed(&format!("{line} --format csv")));
        assert!(text.contains(&format!(" is within {bound}")), "{text}");
        for (shown, all) in text.lines().skip(4).zip(table(&csv).lines().skip(1)) {
            let (shown, all) = (shown.split_whitespace().nth(4).unwrap(), all.split(',').nth(9).unwrap());
            let (digits, exponent) = shown.split_once("e-").unwrap_or((shown, "0"));
            let after = digits.split_once('.').map_or(0, |parts| parts.1.len());
            assert_eq!(after + exponent.parse::<usize>().unwrap(), decimals, "{text}");
            assert!((shown.parse::<f64>().unwrap() - all.parse::<f64>().unwrap()).abs() <= 0.5001 * 0.1f64.powi(decimals as i32));
        }
    }
}

#[test]
fn data_carries_the_bound() {
    let line = "--kind square --width 2 --length 2 --pairs 0-1 --signs plus --beta 1,28";
    let bound = 62.0 / (1u64 << 53) as f64;
    let csv = printed(&format!("{line} --format csv"));
    let csv = table(&csv);
    let last: Vec<&str> = csv.lines().map(|line| line.rsplit_once(',').unwrap().1).collect();
    assert_eq!(last, ["correlation_bound", &format!("{bound:?}"), ""]);
    let json = printed(&format!("{line} --format json"));
    assert!(json.contains(&format!("\n  \"correlation_bound\": [{bound:?}, null],\n")), "{json}");
    assert!(printed(&format!("{SQUARE} --format json")).contains("\n  \"mean_square_bound\": ["));
}

#[test]
fn the_head_tells_which_configurations() {
    let second = |line: &str| printed(&format!("--kind tri --width 4 --length 9 --beta 0.4 {line}")).lines().nth(1).unwrap().to_string();
    let squares = "mean squares of the correlations, and their standard errors; manner block";
    assert_eq!(second("--signs plus"), "all signs plus; manner block");
    assert_eq!(second("--seed 5"), "signs drawn with seed 5; manner block");
    assert_eq!(second("--sample 3"), format!("3 configurations drawn with seed 1, chunk 0 of 3 samples: {squares}"));
    assert_eq!(second("--sample 3 --chunks 2..4"), format!("6 configurations drawn with seed 1, chunks 2 to 3 of 3 samples: {squares}"));
    let one = "1 configuration drawn with seed 1, chunk 0 of 1 sample: the squares of the correlations; manner block";
    assert_eq!(second("--sample 1"), one);
    let all = "the one configuration of 0 free edges: mean squares of the correlations, and their spreads; manner block";
    assert_eq!(printed("--kind square --width 1 --length 3 --beta 0.4").lines().nth(1).unwrap(), all);
}

/// An enumeration has no error, and a sample no spread; `--help` says why.
#[test]
fn only_samples_have_errors() {
    let job = "--kind square --width 3 --length 3 --beta 0.4 --format";
    for format in ["text", "csv", "json"] {
        let [all, drawn] = ["--enumerate", "--sample 9"].map(|which| printed(&format!("{job} {format} {which}")));
        assert!(all.contains("spread") && !all.contains("std_error"), "{all}");
        assert!(drawn.contains("std_error") && !drawn.contains("spread"), "{drawn}");
    }
    assert!(printed("--help").contains("Nothing is drawn, so no mean has a sampling error, and none is printed\n"));
}

#[test]
fn other_formats() {
    let json = printed(&format!("{SQUARE} --signs plus --format json --bits"));
    assert!(
        json.contains("\"pair\": \"opp-corners\", \"u\": 0, \"v\": 3, \"distance\": 2, \"correlation\": [0.6373937677053825]"),
        "{json}"
    );
    assert_eq!(json.matches('{').count(), json.matches('}').count());
    let apart = printed("--kind square --width 1 --length 3 --beta 1 --dilute 0,1,1,5 --pairs 0-2,1-0");
    assert!(apart.contains("\n0-2   0  2         -    0.000000000000  0.000000000000\n"), "{apart}");
    assert_eq!(printed("--help"), printed("-h --kind"));
}

/// Those of `--help` make sheets.
#[test]
fn the_examples_work() {
    let (help, folder) = (printed("--help"), folder("examples"));
    let examples: Vec<&str> =
        help.split_once("\nexamples\n").unwrap().1.lines().take_while(|line| line.starts_with("    sheet ")).collect();
    assert!(examples.len() > 5);
    std::fs::write(folder.join("board.csv"), printed(&format!("{SQUARE} --format csv"))).unwrap();
    for line in examples {
        let words = line.split_whitespace().skip(1);
        let output = Command::new(env!("CARGO_BIN_EXE_sheet")).args(words).current_dir(&folder).output().unwrap();
        assert!(output.status.success(), "{line}: {}", String::from_utf8_lossy(&output.stderr));
    }
    assert!(folder.join("plot.svg").is_file());
}
