//! `--shares`: exact parts of the configurations, by the sign and size of each pair's correlation.

mod common;
use common::{body, folder, printed, recorded, sheet, table, told, SQUARE};
use oracle::lattice::{Kind, Strip};
use oracle::rules::configurations::{Drawn, Entry};
use oracle::rules::lists::{Edges, Pairs};
use oracle::rules::shares::shares;
use oracle::rules::totals::{Factors, Totals};

#[test]
fn the_settled_square() {
    let expected = "\
square strip, free, 2 by 2: 4 vertices, 4 kept edges, window 2
all 2 configurations of 1 free edge: shares of their correlations; manner block

pair       u  v  distance                beta  above       %  zero      %  below     %  half      %
0-1        0  1         1  0.6931471805599453    1/1  100.00   0/1   0.00    0/1  0.00   1/2  50.00
0-3        0  3         2  0.6931471805599453    1/2   50.00   1/2  50.00    0/1  0.00   1/2  50.00
all-pairs  -  -         -  0.6931471805599453    3/4   75.00   1/4  25.00    0/1  0.00   1/2  50.00

above, zero (of either sign), below: the sign of a correlation; half: 1/2 or more in size; all-pairs: the same of all pairs pooled
the fractions are exact, in lowest terms, and above, zero and below add to one. Percentages are rounded to hundredths: of these three
each down, and the hundredths missing from 100 go to those that lost most by it, the first of equals; of half to the nearest
shares are of the correlations as doubles, each within 6.9e-15 of its exact value for these factors, proved; 1 of 4 are as near
to zero as that, zeros among them: their exact values can have another sign, or none
";
    let text = printed(&format!("{SQUARE} --pairs 0-1,0-3 --enumerate --shares"));
    assert_eq!(body(&text), expected);
    assert!(text.contains(" --pairs 0-1,0-3 --enumerate --shares\n"), "{text}");
}

/// The rows of a triangular strip by house factors, written from documents 01 and 02: each pair's shares, and those of all pooled.
fn rows(betas: &[f64]) -> Vec<[u64; 8]> {
    let strip = Strip { kind: Kind::Tri, w: 3, l: 3, periodic: false };
    let (edges, standard) = (Edges::new(9, &strip.raw_edges()), strip.pairs());
    let pairs = Pairs::new(&standard.iter().map(|p| (p.1, p.2)).collect::<Vec<_>>());
    let by = Drawn { seed: 0, from: 0, to: 0, samples: 0 };
    let mut rows = Vec::new();
    for beta in betas {
        let (entry, betas) = (Entry::Stored, &[*beta]);
        let call = Totals { entry, edges: &edges, pairs: &pairs, betas, factors: Factors::House, each: false, by, tester: false };
        let configurations: Vec<Vec<f64>> = call.chunks().concat().iter().map(|minus| call.correlations(minus).unwrap()).collect();
        let list = |pair: usize| configurations.iter().map(|correlations| correlations[pair]).collect::<Vec<f64>>();
        let lists: Vec<Vec<f64>> = (0..standard.len()).map(list).collect();
        rows.extend(lists.iter().map(|list| shares(list, &[list.len()]).unwrap()));
        rows.push(shares(&lists.concat(), &vec![configurations.len(); lists.len()]).unwrap());
    }
    rows
}

const TRI: &str = "--kind tri --width 3 --length 3 --beta 0.4375,1.5 --house --shares";

#[test]
fn every_pair_by_the_rules() {
    let expected = rows(&[0.4375, 1.5]);
    for more in ["", "--less-room", "--tester --enumerate"] {
        let csv = table(&printed(&format!("{TRI} --format csv {more}")));
        let kinds = ["above", "zero", "below", "half"].map(|kind| format!("{kind}_top,{kind}_bottom,{kind}_percent")).join(",");
        assert_eq!(csv.lines().next(), Some(&*format!("kind,boundary,width,length,beta,pair,u,v,distance,{kinds}")));
        let numbers = |line: &str| -> Vec<u64> {
            let cells: Vec<&str> = line.split(',').skip(9).collect();
            cells.chunks(3).flat_map(|cells| [cells[0], cells[1]]).map(|cell| cell.parse().unwrap()).collect()
        };
        let found: Vec<Vec<u64>> = csv.lines().skip(1).map(numbers).collect();
        assert_eq!(found, expected.iter().map(|row| row.to_vec()).collect::<Vec<_>>());
    }
}

#[test]
fn percentages_add_up() {
    let csv = table(&printed("--kind square --width 3 --length 5 --beta 0.3,0.44,2 --shares --format csv"));
    let mut uneven = 0;
    for line in csv.lines().skip(1) {
        let cells: Vec<&str> = line.split(',').skip(9).collect();
        let hundredths = |i: usize| cells[3 * i + 2].replace('.', "").parse::<u64>().unwrap();
        assert_eq!((0..3).map(hundredths).sum::<u64>(), 10_000, "{line}");
        let exact = |i: usize| 10_000 * cells[3 * i].parse::<u64>().unwrap() % cells[3 * i + 1].parse::<u64>().unwrap() == 0;
        uneven += usize::from(!(0..3).all(exact));
    }
    assert!(uneven > 10, "{csv}");
}

#[test]
fn a_sheet_verifies_until_a_cell_is_altered() {
    let verified = |name: &str, text: &str| {
        let file = folder("shares").join(name);
        std::fs::write(&file, text).unwrap();
        String::from_utf8(sheet(&format!("verify {}", file.display())).stdout).unwrap()
    };
    let (csv, json) = (printed(&format!("{TRI} --format csv")), printed(&format!("{TRI} --format json")));
    assert_eq!(recorded(&csv, "command").split_once(" --enumerate --shares --manner block --house").map(|parts| parts.1), Some(""));
    assert!(verified("shares.csv", &csv).ends_with(" cells agree, digit by digit\n"));
    assert!(verified("shares.json", &json).ends_with(" cells agree, digit by digit\n"));
    let altered = csv.replacen("all-pairs,,,,", "all-pairs,,,,9", 1);
    let why = verified("altered.csv", &altered);
    assert!(why.contains("(beta 0.4375, pair all-pairs), above_top: the sheet has 9"), "{why}");
    let why = verified("altered.json", &json.replacen("\"pooled\": {\"above\": [[", "\"pooled\": {\"above\": [[9", 1));
    assert!(why.contains("pooled.above"), "{why}");
}

#[test]
fn what_cannot_be_asked_is_told() {
    let (why, status) = told("--kind square --width 6 --length 6 --beta 0.44 --enumerate --shares");
    let expected = "sheet: 25 free edges; --shares takes at most 24, as every correlation is stored: take a smaller strip, or drop edges with --dilute, or leave --shares out (refusal 9)\n";
    assert_eq!((why.as_str(), status), (expected, Some(2)));
    let (why, status) = told("--kind square --width 5 --length 7 --beta 0.44 --shares");
    let expected = "sheet: 24 free edges; --shares takes all 2^24 configurations: say --enumerate too, if they are meant\n";
    assert_eq!((why.as_str(), status), (expected, Some(2)));
    let (why, _) = told("--kind square --width 5 --length 6 --beta 0.44 --enumerate --shares --tester");
    assert_eq!(why, "sheet: 20 free edges; with --tester --shares takes at most 16, leave --tester out (refusal 22)\n");
    let (why, _) = told(&format!("{SQUARE} --signs plus --shares"));
    assert_eq!(why, "sheet: --shares and --signs cannot be combined: shares are of all configurations\n");
}
