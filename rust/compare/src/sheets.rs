//! Job sheets: what is written of drawn jobs, and what is read from sheets that are whole, cut, changed, put together anew or behind one another.

use crate::couplings::betas;
use crate::draw::Draw;
use crate::guarded::{equal, Guarded};
use crate::shapes::{any_graph, long_edge, pairs, short_edges, spoil_graph, swept_graph, Reach};
use copperhook::sys;
use oracle::rules::lists::{Edges, Pairs};
use oracle::rules::refusals::{first, unless};
use oracle::rules::sheets::{read, record, write_refusal, written, Sheet};

/// A job as it is lent.
struct Job {
    edges: Edges,
    pairs: Pairs,
    betas: Vec<f64>,
}

/// A job that is mostly sound, or with one thing or two that checks 1 to 8 refuse.
fn job(draw: &mut Draw) -> Job {
    let mut edges = if draw.once_in(6) { any_graph(draw) } else { swept_graph(draw, Reach { window: 24, n: 1024 }) };
    let count = draw.of(&[0, 1, 3, 18, 256]);
    let mut pairs = pairs(draw, edges.n, edges.window().min(24), count);
    for _ in 0..draw.of(&[0, 0, 0, 0, 1, 2]) {
        match draw.below(7) {
            0..=1 => spoil_graph(draw, &mut edges),
            2 => edges.floor = draw.of(&[24, 25, 255, 256, usize::MAX]),
            3 => long_edge(draw, &mut edges),
            4 => short_edges(draw, &mut edges),
            5 => drop(if draw.once_in(2) { pairs.us.pop() } else { pairs.vs.pop() }),
            _ => {
                pairs.us.push(draw.of(&[0, edges.n, usize::MAX]));
                pairs.vs.push(0);
            }
        }
    }
    Job { edges, pairs, betas: betas(draw) }
}

/// The writer, with a buffer that is exact, longer or shorter. Returns what it answers, and the sheet of an accepted call.
fn write(draw: &mut Draw, job: &Job) -> Result<(usize, Option<Vec<u8>>), String> {
    let Job { edges, pairs, betas } = job;
    let sheet = written(edges, pairs, betas);
    let room = draw.of(&[sheet.len(), sheet.len(), sheet.len() + 1, 2 * sheet.len() + 7, sheet.len().saturating_sub(1), 0]);
    let before: Vec<u8> = (0..room).map(|_| draw.word() as u8).collect();
    let (a, b, m) = (Guarded::new(&edges.a), Guarded::new(&edges.b), Guarded::new(&edges.m));
    let (us, vs, lent) = (Guarded::new(&pairs.us), Guarded::new(&pairs.vs), Guarded::new(betas));
    let (mut buffer, mut bytes) = (Guarded::new(&before), 0xb0_usize);
    let number = unsafe {
        let (a, a_len, b, b_len, m, m_len) = (a.pointer(), a.len(), b.pointer(), b.len(), m.pointer(), m.len());
        let (us, us_len, vs, vs_len, x, x_len) = (us.pointer(), us.len(), vs.pointer(), vs.len(), lent.pointer(), lent.len());
        let (n, floor, out) = (edges.n, edges.floor, buffer.pointer_mut());
        sys::copperhook_sheet_write(n, floor, a, a_len, b, b_len, m, m_len, us, us_len, vs, vs_len, x, x_len, out, room, &mut bytes)
    };
    let expected = write_refusal(edges, pairs, betas, room);
    equal("write: answer", number, expected)?;
    let after = if expected == 0 { [&sheet, &before[sheet.len()..]].concat() } else { before };
    buffer.holds("write: sheet", &after)?;
    equal("write: bytes", bytes, if expected == 0 { sheet.len() } else { 0xb0 })?;
    a.holds("a", &edges.a)?;
    b.holds("b", &edges.b)?;
    m.holds("m", &edges.m)?;
    us.holds("us", &pairs.us)?;
    vs.holds("vs", &pairs.vs)?;
    lent.holds("betas", betas)?;
    Ok((number, (expected == 0).then_some(sheet)))
}

/// The bytes of some records, in any order, doubles of any bits.
fn loose_records(draw: &mut Draw) -> Vec<u8> {
    let mut sheet = Vec::new();
    for _ in 0..draw.of(&[0, 1, 2, 4, 9]) {
        let kind = draw.of(&[1, 1, 2, 2, 3, 3, 4, 4, 5, 5, 0, 6, 255]);
        let body = [0, 3, 12, 8, 4, 0].get(usize::from(kind)).copied().unwrap_or(0);
        sheet.push(kind);
        sheet.extend((0..body).map(|_| draw.word() as u8));
    }
    sheet
}

/// One thing that may make a sheet another, or none.
fn change(draw: &mut Draw, sheet: &mut Vec<u8>) {
    let place = draw.below(sheet.len().max(1));
    match draw.below(6) {
        0 => sheet.truncate(place),
        1 if place < sheet.len() => sheet[place] ^= 1 << draw.below(8),
        2 if place < sheet.len() => sheet[place] = draw.of(&[0, 1, 2, 3, 4, 5, 6, 255]),
        3 => sheet.extend((0..draw.within(1, 14)).map(|_| draw.word() as u8 % 6)),
        4 => drop(sheet.splice(place..place, loose_records(draw))),
        _ => sheet.extend_from_within(..),
    }
}

/// One call of the reader.
fn read_one(sheet: &[u8], place: usize, last: usize) -> Result<usize, String> {
    let bytes = Guarded::new(sheet);
    let mut told = [0xb1, 0xb2, 0xb3, 0xb4_usize];
    let held = f64::from_bits(0x7ff0_dead_beef_0001);
    let mut value = held;
    let number = unsafe {
        let [kind, next, first, second] = told.each_mut().map(|word| word as *mut usize);
        sys::copperhook_sheet_read(bytes.pointer(), bytes.len(), place, last, kind, next, first, second, &mut value)
    };
    let expected = record(sheet, place, last);
    let (answer, numbers, bits) = match expected {
        Ok(r) => (0, [[r.kind, r.next], r.numbers.unwrap_or([0xb3, 0xb4])].concat(), r.bits.unwrap_or(held.to_bits())),
        Err(refusal) => (refusal, vec![0xb1, 0xb2, 0xb3, 0xb4], held.to_bits()),
    };
    equal("read: answer", number, answer)?;
    for (i, name) in ["kind", "next", "first", "second"].into_iter().enumerate() {
        equal(&format!("read: {name}"), told[i], numbers[i])?;
    }
    equal("read: value", value.to_bits(), bits)?;
    bytes.holds("read: sheet", sheet)?;
    Ok(number)
}

/// A whole sheet, into lists that are exact, longer or too short.
fn read_job(draw: &mut Draw, sheet: &[u8]) -> Result<usize, String> {
    let job = read(sheet);
    let (edges, pairs, betas) = job.as_ref().map_or((3, 3, 3), |job| (job.a.len(), job.us.len(), job.betas.len()));
    let mut length = |count: usize| if draw.once_in(16) { count.saturating_sub(1) } else { count + draw.of(&[0, 0, 1, 9]) };
    let lengths = [edges, edges, edges, pairs, pairs, betas].map(&mut length);
    let numbers = |length: usize| vec![0xb5_usize; length];
    let [mut a, mut b, mut us, mut vs] = [0, 1, 3, 4].map(|i| Guarded::new(&numbers(lengths[i])));
    let doubles = [2, 5].map(|i| draw.held(lengths[i]));
    let [mut m, mut x] = doubles.each_ref().map(|held| Guarded::new(held));
    let bytes = Guarded::new(sheet);
    let mut told = [0xb6_usize; 5];
    let number = unsafe {
        let [n, floor, edges, pairs, n_betas] = told.each_mut().map(|word| word as *mut usize);
        let (s, s_len) = (bytes.pointer(), bytes.len());
        let (a, b, us, vs) = (a.pointer_mut(), b.pointer_mut(), us.pointer_mut(), vs.pointer_mut());
        let (m, x, l) = (m.pointer_mut(), x.pointer_mut(), lengths);
        sys::copperhook_sheet_job(s, s_len, n, floor, a, l[0], b, l[1], m, l[2], us, l[3], vs, l[4], x, l[5], edges, pairs, n_betas)
    };
    let enough = lengths.iter().zip([edges, edges, edges, pairs, pairs, betas]).all(|(&length, count)| length >= count);
    let expected = first(job.as_ref().err().copied().unwrap_or(0), || unless(enough, 12));
    equal("job: answer", number, expected)?;
    let none = Sheet::default();
    let job = if expected == 0 { job.as_ref().unwrap_or(&none) } else { &none };
    let front = |new: &[usize], length: usize| [new, &numbers(length)[new.len()..]].concat();
    let doubled =
        |new: &[u64], held: &[f64]| [&new.iter().map(|&bits| f64::from_bits(bits)).collect::<Vec<_>>()[..], &held[new.len()..]].concat();
    a.holds("job: a", &front(&job.a, lengths[0]))?;
    b.holds("job: b", &front(&job.b, lengths[1]))?;
    us.holds("job: us", &front(&job.us, lengths[3]))?;
    vs.holds("job: vs", &front(&job.vs, lengths[4]))?;
    m.holds("job: m", &doubled(&job.m, &doubles[0]))?;
    x.holds("job: betas", &doubled(&job.betas, &doubles[1]))?;
    let counts = if expected == 0 { [job.n, job.floor, edges, pairs, betas] } else { [0xb6; 5] };
    for (i, name) in ["n", "floor", "edges", "pairs", "n_betas"].into_iter().enumerate() {
        equal(&format!("job: {name}"), told[i], counts[i])?;
    }
    bytes.holds("job: sheet", sheet)?;
    Ok(number)
}

pub fn try_one(draw: &mut Draw) -> Result<usize, String> {
    let job = job(draw);
    let (number, sheet) = write(draw, &job)?;
    if number != 0 && draw.once_in(2) {
        return Ok(number);
    }
    let mut sheet = sheet.unwrap_or_else(|| loose_records(draw));
    for _ in 0..draw.of(&[0, 0, 1, 1, 2]) {
        change(draw, &mut sheet);
    }
    let told = |why| format!("sheet {sheet:02x?}: {why}");
    let (mut place, mut last) = (0, 0);
    for _ in 0..draw.of(&[1, 5, 40]) {
        read_one(&sheet, place, last).map_err(told)?;
        (place, last) = match record(&sheet, place, last) {
            Ok(r) if !draw.once_in(8) => (r.next, r.kind),
            _ => (draw.of(&[draw_place(&sheet), 0, sheet.len(), usize::MAX]), draw.of(&[0, 1, 2, 3, 4, 5, 6, 255, usize::MAX])),
        };
    }
    read_job(draw, &sheet).map_err(told)
}

/// A place that goes by the sheet's own bytes.
fn draw_place(sheet: &[u8]) -> usize {
    sheet.iter().map(|&b| usize::from(b)).sum::<usize>() % (sheet.len() + 1)
}
