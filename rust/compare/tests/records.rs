//! The run records that a fuzzer of the C entries found to differ in the way they are read (rust/copperhook/tests/fuzz/run_record.c), two a line:
//! joined in either order and added up, whole, cut at every byte, with every bit turned and with bytes behind, as document 02's rules, written a
//! second time, have it.

use copperhook::run_record::check;
use copperhook::{record_join, record_totals};
use oracle::rules::records;

/// Two records a line, in hexadecimal digits; the second may be missing.
const CORPUS: &str = include_str!("records.txt");

fn bytes(digits: &str) -> Vec<u8> {
    (0..digits.len() / 2).map(|i| u8::from_str_radix(&digits[2 * i..2 * i + 2], 16).unwrap()).collect()
}

fn pairs() -> Vec<[Vec<u8>; 2]> {
    let pair = |line: &str| {
        let (one, two) = line.split_once(' ').unwrap_or((line, ""));
        [bytes(one), bytes(two)]
    };
    CORPUS.lines().map(pair).collect()
}

/// Returns the number of the join, which is the same in either order.
fn same_join(one: &[u8], two: &[u8]) -> usize {
    let expected = records::joined(one, two, (one.len() + two.len()).saturating_sub(32));
    for (one, two) in [(one, two), (two, one)] {
        assert_eq!(record_join(one, two).map_err(|refusal| refusal.number()), expected, "{one:02x?} and {two:02x?}");
    }
    expected.err().unwrap_or(0)
}

/// Returns whether it is a record.
fn same_totals(record: &[u8]) -> bool {
    let read = records::read(record);
    let sums = read.as_ref().map_or(0, |record| record.betas * record.pairs);
    let bits = |list: &[f64]| list.iter().map(|x| x.to_bits()).collect::<Vec<_>>();
    let found = record_totals(record).map_err(|refusal| refusal.number()).map(|t| (t.count, bits(&t.squares), bits(&t.fourths)));
    let expected = records::totals(record, [sums; 2]).map(|t| (t.count, bits(&t.squares), bits(&t.fourths)));
    assert_eq!(found, expected, "{record:02x?}");
    let head =
        check(record).map_err(|refusal| refusal.number()).map(|head| (head.by.seed, head.by.from, head.by.to, head.betas, head.pairs));
    assert_eq!(head, read.map(|r| (r.seed, r.start, r.end, r.betas, r.pairs)), "{record:02x?}");
    expected.is_ok()
}

#[test]
fn every_pair_of_the_corpus_is_joined_as_the_rules_join_it() {
    let pairs = pairs();
    let numbers: Vec<usize> = pairs.iter().map(|[one, two]| same_join(one, two)).collect();
    for number in [0, 11, 26, 27] {
        assert!(numbers.contains(&number), "no pair is answered by {number}");
    }
    assert!(pairs.len() > 50);
}

#[test]
fn every_record_of_the_corpus_is_read_as_the_rules_read_it() {
    let pairs = pairs();
    let whole = pairs.iter().flatten().filter(|record| same_totals(record)).count();
    assert!(whole >= 20, "{whole} whole records");
    for [one, two] in &pairs {
        for cut in 0..one.len() {
            same_totals(&one[..cut]);
        }
        for bit in 0..8 * one.len() {
            let mut turned = one.clone();
            turned[bit / 8] ^= 1 << (bit % 8);
            same_totals(&turned);
            same_join(&turned, two);
        }
        for more in [1, 27, 28] {
            same_totals(&[&one[..], &vec![18; more]].concat());
        }
    }
}
