//! `sheet preview`: what dropping an edge would do.

mod common;
use common::{body, folder, printed, recorded, sheet, table, told};
use oracle::lattice::{Kind, Strip};
use oracle::rules::dilution::drawn;
use oracle::rules::lists::{Edges, Pairs};
use oracle::rules::previews::preview;

/// The lines of a text's table, without the times that each ends with.
fn without_times(text: &str) -> Vec<String> {
    let table = body(text).split("\n\n").nth(1).unwrap().to_string();
    let cells = |line: &str| -> Vec<String> { line.split_whitespace().map(String::from).collect() };
    let without = |line: &str| match cells(line).as_slice() {
        [head @ .., one, all] if one == "one" && all == "all" => head.join(" "),
        [figures @ .., _, _, _, _] => figures.join(" "),
        other => panic!("{other:?}"),
    };
    table.lines().map(without).collect()
}

#[test]
fn the_settled_square() {
    let text = printed("preview --kind square --width 2 --length 2 --beta 0.44 --pairs 0-1 --drop all");
    assert!(text.starts_with("square strip, free, 2 by 2: 4 vertices, 4 kept edges, window 2\nwhat dropping 4 edges, each alone, would do"));
    let expected = [
        "place u v magnitude kept forest window free room bytes",
        "now - - - - - 2 1 24 0.2 kB",
        "0 0 1 1.0 kept tree 2 0 23 0.2 kB",
        "1 0 2 1.0 kept tree 2 0 23 0.2 kB",
        "2 1 3 1.0 kept tree 2 0 23 0.2 kB",
        "3 2 3 1.0 kept free 2 0 23 0.2 kB",
    ];
    assert_eq!(without_times(&text), expected);
    assert!(body(&text).contains("\nthe window is the whole strip's at least, as in a sheet; with --floor 0 "));
}

/// What every edge of a diluted strip is to be answered, by place, written from the papers' rules.
fn answers(strip: &Strip, by: [f64; 3], seed: u64, floor: usize, less: bool) -> Vec<(usize, [usize; 3])> {
    let raw = drawn(strip.raw_edges(), by, seed);
    let edges = Edges { floor, ..Edges::new(strip.n(), &raw) };
    let pairs: Vec<(usize, usize)> = strip.pairs().iter().map(|pair| (pair.1, pair.2)).collect();
    let answer = |place| {
        let told = preview(&edges, &Pairs::new(&pairs), &[0.5], place, less).unwrap();
        (place, [told.window, told.free, told.room])
    };
    (0..raw.len()).map(answer).collect()
}

/// The cells of the columns of these names, row by row, as numbers; what is none is skipped with its row.
fn columns(csv: &str, names: [&str; 4]) -> Vec<(usize, [usize; 3])> {
    let csv = table(csv);
    let head: Vec<&str> = csv.lines().next().unwrap().split(',').collect();
    let places = names.map(|name| head.iter().position(|column| *column == name).unwrap());
    let row = |line: &str| {
        let cells: Vec<&str> = line.split(',').collect();
        let [place, figures @ ..] = places.map(|c| cells[c].parse().ok());
        Some((place?, figures.map(|figure: Option<usize>| figure.unwrap())))
    };
    csv.lines().skip(1).filter_map(row).collect()
}

#[test]
fn every_edge_is_told_as_a_copy_without_it() {
    for (kind, w, l, periodic, keep) in
        [(Kind::Square, 4, 5, true, 0.7), (Kind::Tri, 3, 6, false, 0.4), (Kind::Honey, 4, 7, true, 0.9), (Kind::Tri, 2, 3, true, 0.5)]
    {
        let strip = Strip { kind, w, l, periodic };
        let cylinder = if periodic { "--cylinder" } else { "" };
        let line = format!("preview --kind {} --width {w} --length {l} {cylinder} --dilute {keep},-1,2,9 --beta 0.5", kind.name());
        for (more, floor, less) in [("", strip.graph().win, false), ("--floor 0 --less-room", 0, true), ("--floor 7", 7, false)] {
            let csv = printed(&format!("{line} {more} --drop all --format csv"));
            let mut found = columns(&csv, ["place", "window", "free_edges", "room"]);
            let shares: Vec<f64> = table(&csv).lines().skip(2).map(|line| line.split(',').nth(14).unwrap().parse().unwrap()).collect();
            assert!(shares.windows(2).all(|two| two[0] <= two[1]) && *shares.last().unwrap() <= 1.0, "{line} {more}: {shares:?}");
            found.sort_unstable();
            assert_eq!(found, answers(&strip, [keep, -1.0, 2.0], 9, floor, less), "{line} {more}");
        }
    }
}

/// The one edge of length 2 around a ring of three: without it the window is 1, and the room less.
#[test]
fn what_saves_most_stands_first() {
    let csv = printed("preview --kind square --width 3 --length 1 --cylinder --beta 0.5 --pairs 0-1 --floor 0 --drop 0,1,2 --format csv");
    let rows: Vec<String> = table(&csv).lines().map(String::from).collect();
    let expected = [
        "kind,boundary,width,length,place,u,v,magnitude,kept,forest,window,free_edges,room,bytes,time_share,refusal",
        "square,cyl,3,1,now,,,,,,2,1,22,176,1.0,",
        "square,cyl,3,1,2,0,2,1.0,kept,free,1,0,15,120,0.28125,",
        "square,cyl,3,1,0,0,1,1.0,kept,tree,2,0,21,168,0.5,",
        "square,cyl,3,1,1,1,2,1.0,kept,tree,2,0,21,168,0.5,",
    ];
    assert_eq!(rows, expected);
    assert_eq!(
        recorded(&csv, "command"),
        "sheet preview --kind square --width 3 --length 1 --cylinder --beta 0.5 --pairs 0-1 --floor 0 --drop 0,1,2"
    );
}

/// A floor above its window makes a fifth near edge of one vertex alone: any of its edges may go.
#[test]
fn what_is_refused_is_told_in_words() {
    let line = "preview --kind eight --width 3 --length 2 --cylinder --beta 0.3 --floor 6 --drop 0,6";
    let text = body(&printed(line));
    let lines: Vec<&str> = text.lines().filter(|line| line.contains("(refusal 7)")).collect();
    let words = "a vertex has over four back edges shorter than the window (refusal 7)";
    assert!(
        lines.len() == 2 && lines[0].starts_with("now ") && lines[1].starts_with("0 ") && lines.iter().all(|l| l.ends_with(words)),
        "{text}"
    );
    let csv = table(&printed(&format!("{line} --format csv")));
    let rows: Vec<&str> = csv.lines().skip(1).collect();
    assert_eq!(rows[0], "eight,cyl,3,2,now,,,,,,,,,,,7");
    assert!(rows[1].starts_with("eight,cyl,3,2,6,1,5,1.0,kept,tree,6,9,") && rows[1].ends_with(",,"), "{csv}");
    assert_eq!(rows[2], "eight,cyl,3,2,0,0,1,1.0,kept,tree,,,,,,7");
    assert!(printed("preview --kind sq --width 25 --length 2 --beta 1 --drop 3").contains("the window is above 24 (refusal 6)\n"));
}

#[test]
fn a_preview_verifies_until_a_cell_is_altered() {
    let file = folder("preview").join("preview.csv");
    let whole =
        printed("preview --kind tri --width 3 --length 4 --dilute 0.8,0.5,1.5,2 --beta 0.3 --less-room --drop all --format csv --bits");
    std::fs::write(&file, &whole).unwrap();
    let verified = || String::from_utf8(sheet(&format!("verify {}", file.display())).stdout).unwrap();
    assert!(verified().ends_with(" cells agree, bit for bit\n"));
    std::fs::write(&file, whole.replacen(",0.5,\n", ",0.25,\n", 1)).unwrap();
    let told = verified();
    assert!(told.contains("(edge ") && told.contains(", time_share: the sheet has 0.25, worked out 0.5\n"), "{told}");
}

#[test]
fn messages_name_the_value_and_the_limit() {
    let refused = |more: &str, message: &str| {
        let line = format!("preview --kind sq --width 3 --length 4 {more}");
        assert_eq!(told(&line), (format!("sheet: {message}\n"), Some(2)), "{line}");
    };
    let outside = "this strip has edges at places 0 to 16, --edges lists them (refusal 24)";
    refused("--beta 1 --drop 17", &format!("--drop 17: {outside}"));
    refused("--beta 1 --drop 3,99,0", &format!("--drop 99: {outside}"));
    refused("--beta 1,0.5 --drop 3", "beta 0.5 follows 1; betas must rise strictly: --beta 0.5,1 (refusal 21)");
    refused("--beta 1 --pairs 0-12 --drop 3", "pair 0-12: vertices are 0 to 11 (refusal 8)");
    refused("--drop 3", "--beta is required (inverse temperatures, as 0.44,0.6)");
    refused("--beta 1 --drop 3 --tester", "preview and --tester cannot be combined: the figures do not depend on it");
    let (none, status) = told("preview --kind sq --width 1 --length 1 --beta 1 --drop 0");
    assert_eq!((none.as_str(), status), ("sheet: --drop 0: this strip has no edge (refusal 24)\n", Some(2)));
    assert_eq!(without_times(&printed("preview --kind sq --width 1 --length 1 --beta 1 --drop all")).len(), 2);
}
