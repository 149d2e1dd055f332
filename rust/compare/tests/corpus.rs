//! The sheets that a fuzzer of the C entries found to differ in the way they are read (rust/copperhook/tests/fuzz/job_sheet.c), each cut at every
//! byte, with every bit turned and with a byte behind it: what the bindings read is what document 02's reader, written a second time, reads.

use copperhook::job_sheet::{read_record, Record};
use copperhook::JobSheet;
use oracle::rules::sheets;

/// One sheet a line, in hexadecimal digits.
const CORPUS: &str = include_str!("corpus.txt");

fn bytes(line: &str) -> Vec<u8> {
    (0..line.len() / 2).map(|i| u8::from_str_radix(&line[2 * i..2 * i + 2], 16).unwrap()).collect()
}

fn flat(record: Record) -> (Option<[usize; 2]>, Option<u64>) {
    match record {
        Record::Size { n, floor } => (Some([n, floor]), None),
        Record::Edge { a, b, m } => (Some([a, b]), Some(m.to_bits())),
        Record::Beta(beta) => (None, Some(beta.to_bits())),
        Record::Pair { u, v } => (Some([u, v]), None),
        Record::End => (None, None),
    }
}

fn same_records(sheet: &[u8]) {
    let (mut place, mut last) = (0, 0);
    loop {
        let found = read_record(sheet, place, last).map_err(|refusal| refusal.number());
        let expected = sheets::record(sheet, place, last);
        let told = found.map(|(record, kind, next)| (flat(record), kind, next));
        assert_eq!(told, expected.map(|r| ((r.numbers, r.bits), r.kind, r.next)), "place {place} behind {last} of {sheet:02x?}");
        match expected {
            Ok(r) if r.kind < 5 => (place, last) = (r.next, r.kind),
            _ => return,
        }
    }
}

fn same_sheet(sheet: &[u8]) -> bool {
    same_records(sheet);
    let bits = |xs: &[f64]| xs.iter().map(|x| x.to_bits()).collect::<Vec<_>>();
    let found = JobSheet::read(sheet).map_err(|refusal| refusal.number());
    let flat = found.as_ref().map(|s| {
        let (m, betas) = (bits(&s.edges.m), bits(&s.betas));
        let (a, b, us, vs) = (s.edges.a.clone(), s.edges.b.clone(), s.us.clone(), s.vs.clone());
        sheets::Sheet { n: s.n, floor: s.floor, a, b, m, us, vs, betas }
    });
    assert_eq!(flat.map_err(|number| *number), sheets::read(sheet), "{sheet:02x?}");
    // what the library writes of it again, where its job passes the checks, is the sheet itself
    if let Some(again) = found.as_ref().ok().and_then(|s| s.job().sheet_bytes(&s.betas).ok()) {
        assert_eq!(again, sheet);
    }
    found.is_ok()
}

#[test]
fn every_sheet_of_the_corpus_is_read_as_the_rules_read_it() {
    let sheets: Vec<Vec<u8>> = CORPUS.lines().map(bytes).collect();
    let whole = sheets.iter().filter(|sheet| same_sheet(sheet)).count();
    assert!(sheets.len() > 20 && whole >= 5, "{} sheets, {whole} whole", sheets.len());
    for sheet in &sheets {
        for cut in 0..sheet.len() {
            same_sheet(&sheet[..cut]);
        }
        for bit in 0..8 * sheet.len() {
            let mut turned = sheet.clone();
            turned[bit / 8] ^= 1 << (bit % 8);
            same_sheet(&turned);
        }
        for tail in 0..=6 {
            same_sheet(&[&sheet[..], &[tail]].concat());
        }
    }
}
