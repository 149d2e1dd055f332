//! `--house`: the sheet by the library's own factors, whatever the host's `exp`.

mod common;
use common::{body, folder, labels_and_bits, printed, recorded, sha256, sheet};
use oracle::lattice::{Kind, Strip};
use oracle::rules::configurations::{Drawn, Entry};
use oracle::rules::house::{entry, factor};
use oracle::rules::lists::{Edges, Pairs};
use oracle::rules::sweeps::Model;
use oracle::rules::totals::{Factors, Totals};
use std::path::PathBuf;
use std::process::Command;

const TRI: &str = "--kind tri --width 3 --length 3 --format csv --bits --house";

/// That strip by the rules, with its standard pairs.
fn tri() -> (Edges, Pairs) {
    let strip = Strip { kind: Kind::Tri, w: 3, l: 3, periodic: false };
    let pairs: Vec<(usize, usize)> = strip.pairs().iter().map(|p| (p.1, p.2)).collect();
    (Edges::new(9, &strip.raw_edges()), Pairs::new(&pairs))
}

fn bits_of(csv: &str, column: &str) -> Vec<u64> {
    labels_and_bits(csv, column).into_iter().map(|row| row.1).collect()
}

#[test]
fn it_says_so() {
    let text = printed("--kind square --width 2 --length 2 --beta 0.5 --signs +++- --house");
    let expected = "\
square strip, free, 2 by 2: 4 vertices, 4 kept edges, window 2
signs +++-; manner block; house factors

pair              u  v  distance        beta 0.5
corner-adj-a      0  1         1  0.380797077978
";
    assert!(text.starts_with(expected), "{text}");
    assert!(text.contains("\nfactors: house\n") && text.contains(" --signs +++- --manner block --house\n"), "{text}");
    let json = printed("--kind square --width 2 --length 2 --beta 0.5 --house --format json");
    assert!(json.contains("\n    \"factors\": \"house\",\n") && json.contains(" --enumerate --manner block --house\",\n"), "{json}");
    assert!(printed("--kind square --width 2 --length 2 --beta 0.5 --house --format svg").contains("; house factors<"));
    let without = printed("--kind square --width 2 --length 2 --beta 0.5");
    assert!(!without.contains("house") && !without.contains("\nfactors: "), "{without}");
}

#[test]
fn one_configuration_by_the_rules() {
    let (edges, pairs) = tri();
    let minus: Vec<bool> = (0..edges.m.len()).map(|e| e % 3 == 1).collect();
    let signs: String = minus.iter().map(|&m| if m { '-' } else { '+' }).collect();
    for (beta, manner) in [(0.4375, "block"), (-1.5078125, "element"), (4.0, "block"), (-4.0, "element")] {
        let kept: Vec<(usize, usize, f64)> = edges.kept().iter().zip(&minus).map(|(e, &m)| (e.0, e.1, factor(beta * e.2, m))).collect();
        let model = Model { n: 9, window: edges.window(), edges: &kept, each: manner == "element" };
        let expected: Vec<u64> = model.answers(&pairs.raw()).into_iter().map(|(_, correlation)| correlation.to_bits()).collect();
        let csv = printed(&format!("{TRI} --beta {beta} --signs {signs} --manner {manner}"));
        assert_eq!(bits_of(&csv, "correlation"), expected, "{csv}");
    }
}

/// The bits of the mean squares, beta after beta.
fn means(entry: Entry, betas: &[f64], by: Drawn) -> Vec<u64> {
    let (edges, pairs) = &tri();
    let totals = Totals { entry, edges, pairs, betas, factors: Factors::House, each: false, by, tester: false };
    let mut sums = vec![0.0; betas.len() * pairs.us.len()];
    for chunk in totals.chunks() {
        let mut of_chunk = vec![0.0; sums.len()];
        for minus in chunk {
            let correlations = totals.correlations(&minus).unwrap();
            of_chunk.iter_mut().zip(correlations).for_each(|(sum, c): (&mut f64, f64)| *sum += c * c);
        }
        sums.iter_mut().zip(of_chunk).for_each(|(sum, more)| *sum += more);
    }
    let count = entry.count(edges, &by) as f64;
    sums.into_iter().map(|sum: f64| (sum / count).to_bits()).collect()
}

#[test]
fn totals_by_the_rules() {
    let (by, betas) = (Drawn { seed: 8, from: 3, to: 9, samples: 5 }, [-0.375, 0.5, 2.0078125]);
    let line = format!("{TRI} --beta -0.375,0.5,2.0078125");
    assert_eq!(bits_of(&printed(&line), "mean_square"), means(Entry::Enumerated, &betas, by));
    for threads in [1, 3] {
        let drawn = printed(&format!("{line} --sample 5 --chunks 3..9 --seed 8 --threads {threads}"));
        assert_eq!(bits_of(&drawn, "mean_square"), means(Entry::Sampled, &betas, by));
    }
}

#[test]
fn no_number_depends_on_who_calls_or_on_the_room() {
    for of in ["--enumerate", "--sample 9 --chunks 3 --seed 2", "--seed 5"] {
        let line = format!("{TRI} --beta 0.25,0.5 {of}");
        for more in ["--tester", "--less-room", "--tester --less-room"] {
            assert_eq!(printed(&format!("{line} {more}")), printed(&line));
        }
    }
}

#[test]
fn the_factors_digest_is_of_the_tables() {
    let bytes: Vec<u8> = [entry(64), entry(-64)].iter().flat_map(|x| x.to_le_bytes()).collect();
    let csv = printed("--kind sq --width 1 --length 2 --beta 0.5 --format csv --house");
    assert_eq!((recorded(&csv, "factors_sha256"), recorded(&csv, "factors")), (sha256(&bytes), "house".to_string()));
}

/// A library with another `exp`, which is loaded before the host's.
fn other_exp() -> PathBuf {
    let library = folder("other-exp").join("other_exp.so");
    let source = PathBuf::from(env!("CARGO_MANIFEST_DIR")).join("tests/other_exp.c");
    let built = Command::new("gcc").args(["-shared", "-fPIC", "-fno-builtin", "-o"]).arg(&library).arg(source).arg("-lm").output();
    let built = built.expect("gcc runs");
    assert!(built.status.success(), "{}", String::from_utf8_lossy(&built.stderr));
    library
}

/// Two machines with different mathematics libraries: sheets of the host's factors differ. Those of the house's are the same bytes also where
/// there is no `exp`.
#[test]
fn the_hosts_exp_is_not_asked() {
    let library = other_exp();
    let elsewhere = |line: &str, environment: &[(&str, &str)]| {
        let mut command = Command::new(env!("CARGO_BIN_EXE_sheet"));
        let output = command.args(line.split_whitespace()).env("LD_PRELOAD", &library).envs(environment.iter().copied()).output().unwrap();
        output.status.success().then(|| String::from_utf8(output.stdout).unwrap())
    };
    let none = [("NO_EXP", "1")];
    for of in ["--enumerate", "--sample 9 --chunks 3 --seed 2 --threads 2", "--seed 5", "--signs plus --manner element"] {
        let line = format!("--kind tri --width 3 --length 4 --beta -1.5,0.25,4 {of}");
        for format in ["csv --bits", "json --bits", "text", "svg"] {
            let line = format!("{line} --format {format}");
            let (other, here) = (elsewhere(&line, &[]).unwrap(), printed(&line));
            assert!(other != here && elsewhere(&line, &none).is_none(), "the other exp was not taken: {line}");
            let line = format!("{line} --house");
            assert_eq!(elsewhere(&line, &none), Some(printed(&line)));
        }
    }
}

#[test]
fn a_record_without_the_house_is_found() {
    let file = folder("house-verify").join("sheet.csv");
    let csv = printed(&format!("{TRI} --beta 0.25,0.5 --seed 5"));
    let verified = |text: String| {
        std::fs::write(&file, text).unwrap();
        let output = sheet(&format!("verify {}", file.display()));
        (output.status.code(), String::from_utf8(output.stdout).unwrap())
    };
    assert_eq!(verified(csv.clone()).0, Some(0));
    for (from, to, told) in [
        ("# factors: house\n", "", "factors: the sheet has nothing, worked out house\n"),
        (" --house\n", "\n", "factors: the sheet has house, worked out nothing\n"),
        (
            "# factors_sha256: ",
            "# factors_sha256: 0",
            "the factors differ: those of the house are the same on every host, so the record was altered\n",
        ),
    ] {
        let (status, what) = verified(csv.replacen(from, to, 1));
        assert!(status == Some(1) && what.contains(told), "{what}");
    }
}

#[test]
fn the_foot_tells_the_bound_of_these_factors() {
    // e^4 is between 2^5 and 2^6: with three short edges back from a vertex a window of 15 has a bound for 2^6, one of 16 has none
    let foot = |width: usize| body(&printed(&format!("--kind eight --width {width} --length 2 --beta 4 --signs plus --pairs 0-1 --house")));
    assert!(foot(14).contains("each correlation is within "), "{}", foot(14));
    assert!(foot(15).contains("no bound is proved for couplings this strong"), "{}", foot(15));
}
