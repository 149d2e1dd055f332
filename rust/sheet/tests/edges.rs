//! `sheet --edges`: the edges of a strip by their places.

mod common;
use common::{body, folder, printed, sheet, table, told};
use oracle::lattice::{Kind, Strip};
use oracle::rules::dilution::drawn;
use oracle::rules::lists::Edges;

#[test]
fn the_settled_square() {
    let expected = "\
square strip, free, 2 by 2: 4 vertices, 4 kept edges, window 2
4 edges, by place in the strip's edge list

place  u  v  magnitude  kept  forest  bit
0      0  1        1.0  kept    tree    -
1      0  2        1.0  kept    tree    -
2      1  3        1.0  kept    tree    -
3      2  3        1.0  kept    free    0

a kept edge is in the spanning forest, or free: it is minus in configurations whose number has its bit set
";
    assert_eq!(body(&printed("--kind square --width 2 --length 2 --edges")), expected);
}

/// What each edge of a diluted strip is to be, written from document 01's rules.
fn rows(strip: &Strip, by: [f64; 3], seed: u64) -> Vec<String> {
    let raw = drawn(strip.raw_edges(), by, seed);
    let edges = Edges::new(strip.n(), &raw);
    let (places, bits) = (edges.places(), edges.bits());
    let row = |(place, &(u, v, m)): (usize, &(usize, usize, f64))| {
        let fate = match places.iter().position(|&kept| kept == place) {
            None => "dropped,,".to_string(),
            Some(kept) => bits[kept].map_or("kept,tree,".to_string(), |bit| format!("kept,free,{bit}")),
        };
        format!("{},{},{},{},{place},{u},{v},{m:?},0x{:016x},{fate}", strip.kind.name(), strip.bc(), strip.w, strip.l, m.to_bits())
    };
    raw.iter().enumerate().map(row).collect()
}

#[test]
fn every_edge_is_told_with_its_place() {
    for (kind, w, l, periodic, keep) in
        [(Kind::Square, 4, 5, true, 0.7), (Kind::Tri, 3, 6, false, 0.4), (Kind::Honey, 4, 7, true, 0.9), (Kind::Tri, 2, 3, true, 0.0)]
    {
        let strip = Strip { kind, w, l, periodic };
        let cylinder = if periodic { "--cylinder" } else { "" };
        let line = format!("--kind {} --width {w} --length {l} {cylinder} --dilute {keep},-1,2,9 --edges --format csv --bits", kind.name());
        let csv = table(&printed(&line));
        let head = "kind,boundary,width,length,place,u,v,magnitude,magnitude_bits,kept,forest,bit";
        let expected: String = [head.to_string()].into_iter().chain(rows(&strip, [keep, -1.0, 2.0], 9)).map(|row| row + "\n").collect();
        assert_eq!(csv, expected, "{line}");
    }
}

#[test]
fn a_list_verifies_until_a_cell_is_altered() {
    let file = folder("edges").join("edges.csv");
    let whole = printed("--kind tri --width 3 --length 4 --dilute 0.8,0.5,1.5,2 --edges --format csv");
    std::fs::write(&file, &whole).unwrap();
    let verified = || String::from_utf8(sheet(&format!("verify {}", file.display())).stdout).unwrap();
    assert!(verified().ends_with(" cells agree, digit by digit\n"));
    std::fs::write(&file, whole.replacen(",kept,free", ",kept,tree", 1)).unwrap();
    let told = verified();
    assert!(told.contains("(edge ") && told.contains(", forest: the sheet has tree, worked out free\n"), "{told}");
}

#[test]
fn what_no_edge_depends_on_is_not_asked() {
    let edges = "--kind square --width 2 --length 2 --edges";
    let (why, status) = told(&format!("{edges} --beta 1"));
    assert_eq!((why.as_str(), status), ("sheet: --edges and --beta cannot be combined: the edges do not depend on it\n", Some(2)));
    assert_eq!(told(&format!("{edges} --format svg")).0, "sheet: --edges is told as text or csv\n");
    assert_eq!(told("--kind square --width 33 --length 32 --edges").0, "sheet: 33 x 32 = 1056 vertices; at most 1,024 (refusal 15)\n");
}
