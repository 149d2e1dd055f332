//! Job sheets as document 02 has them, read and written plainly: little-endian, each kind a byte.

use super::lists::{Edges, Pairs};
use super::refusals::{first, job_refusal, unless};

/// A record: its kind, its numbers, the bits of its double, and the place behind it.
#[derive(Clone, Copy, Debug, PartialEq)]
pub struct Record {
    pub kind: usize,
    pub numbers: Option<[usize; 2]>,
    pub bits: Option<u64>,
    pub next: usize,
}

/// The bytes of a body, field by field, of each kind.
const FIELDS: [&[usize]; 6] = [&[], &[2, 1], &[2, 2, 8], &[8], &[2, 2], &[]];

/// Which kinds may stand behind each kind, 0 at first.
const BEHIND: [&[usize]; 5] = [&[1], &[2, 3, 4, 5], &[2, 3, 4, 5], &[3, 4, 5], &[4, 5]];

/// The record at a place behind the kind read last, or 19 or 20.
pub fn record(sheet: &[u8], place: usize, last: usize) -> Result<Record, usize> {
    let rest = sheet.get(place..).unwrap_or_default();
    let (&kind, mut body) = rest.split_first().ok_or(19_usize)?;
    let kind = usize::from(kind);
    if !BEHIND.get(last).is_some_and(|kinds| kinds.contains(&kind)) {
        return Err(19);
    }
    let mut fields = Vec::new();
    for &width in FIELDS[kind] {
        if body.len() < width {
            return Err(19);
        }
        let (field, behind) = body.split_at(width);
        fields.push(field.iter().rev().fold(0, |word, &byte| word << 8 | u64::from(byte)));
        body = behind;
    }
    if kind == 5 && !body.is_empty() {
        return Err(20);
    }
    let numbers = if kind == 3 { None } else { fields.get(..2).map(|two| [two[0] as usize, two[1] as usize]) };
    let bits = [2, 3].contains(&kind).then(|| fields[fields.len() - 1]);
    Ok(Record { kind, numbers, bits, next: sheet.len() - body.len() })
}

/// A whole sheet's job, doubles by their bits.
#[derive(Clone, Debug, Default, PartialEq)]
pub struct Sheet {
    pub n: usize,
    pub floor: usize,
    pub a: Vec<usize>,
    pub b: Vec<usize>,
    pub m: Vec<u64>,
    pub us: Vec<usize>,
    pub vs: Vec<usize>,
    pub betas: Vec<u64>,
}

/// Reads a sheet from its first byte to its end, or returns 19 or 20.
pub fn read(sheet: &[u8]) -> Result<Sheet, usize> {
    let (mut job, mut place, mut last) = (Sheet::default(), 0, 0);
    loop {
        let Record { kind, numbers, bits, next } = record(sheet, place, last)?;
        match (kind, numbers, bits) {
            (1, Some([n, floor]), _) => (job.n, job.floor) = (n, floor),
            (2, Some([a, b]), Some(m)) => {
                job.a.push(a);
                job.b.push(b);
                job.m.push(m);
            }
            (3, _, Some(beta)) => job.betas.push(beta),
            (4, Some([u, v]), _) => {
                job.us.push(u);
                job.vs.push(v);
            }
            _ => return Ok(job),
        }
        (place, last) = (next, kind);
    }
}

/// The bytes of a job's sheet, as it is handed in.
pub fn written(edges: &Edges, pairs: &Pairs, betas: &[f64]) -> Vec<u8> {
    let two = |x: usize| (x as u16).to_le_bytes();
    let mut sheet = vec![1];
    sheet.extend(two(edges.n));
    sheet.push(edges.floor as u8);
    for (a, b, m) in edges.raw() {
        sheet.push(2);
        sheet.extend(two(a).into_iter().chain(two(b)).chain(m.to_le_bytes()));
    }
    for beta in betas {
        sheet.push(3);
        sheet.extend(beta.to_le_bytes());
    }
    for (u, v) in pairs.raw() {
        sheet.push(4);
        sheet.extend(two(u).into_iter().chain(two(v)));
    }
    sheet.push(5);
    sheet
}

/// Checks 1 to 8, then 12: the buffer is shorter than the sheet.
pub fn write_refusal(edges: &Edges, pairs: &Pairs, betas: &[f64], room: usize) -> usize {
    first(job_refusal(edges, pairs, betas), || unless(written(edges, pairs, betas).len() <= room, 12))
}
