//! Job sheets: a job as bytes, read, written and shown.

use crate::board::{counted, Board};
use crate::explained;
use crate::options::Options;
use crate::output;
use crate::run_record;
use crate::trouble::Trouble;
use crate::values::spelled;
use copperhook::job_sheet::{Record, Records};
use copperhook::{JobSheet, Refusal};
use std::fs;
use std::path::Path;

/// What a file has.
pub fn bytes(file: &Path) -> Result<Vec<u8>, Trouble> {
    fs::read(file).map_err(|e| Trouble::Machine(format!("{}: {e}", file.display())))
}

/// The job of a file, whose records are asked for and no more.
pub fn read(file: &Path) -> Result<JobSheet, Trouble> {
    let bytes = bytes(file)?;
    JobSheet::read(&bytes).map_err(|refusal| explained::refused(format!("{}: {}", file.display(), stopped(&bytes, refusal)), refusal))
}

/// The board's job, with its betas and its own floor, to the file that is asked for, which is there whole or not at all.
pub fn write_if_asked(options: &Options, board: &Board) -> Result<(), Trouble> {
    let Some(file) = &options.write_job else { return Ok(()) };
    let sheet = board.lent_job().sheet_bytes(&board.betas).map_err(|refusal| board.refused(refusal))?;
    output::to_file(file, &sheet).map_err(|e| Trouble::Machine(format!("--write-job {}: {e}", file.display())))
}

/// What stands at a place where no record can, in words.
fn found(sheet: &[u8], place: usize, last: usize) -> String {
    const SIZES: [usize; 6] = [0, 4, 13, 9, 5, 1];
    let expected = match last {
        0 => "1",
        1 | 2 => "2, 3, 4 or 5",
        3 => "3, 4 or 5",
        _ => "4 or 5",
    };
    match sheet.get(place).copied().map(usize::from) {
        None => format!("the sheet ends there, without its end record; a record of kind {expected} may follow"),
        Some(kind @ 1..=5) if (kind == 1) != (last == 0) || kind < last => {
            format!("a record of kind {kind} is out of order; kind {expected} may stand there")
        }
        Some(kind @ 1..=5) => format!("a record of kind {kind} has {} bytes, and {} are left", SIZES[kind], sheet.len() - place),
        Some(kind) => format!("{kind} is no kind of record; kind {expected} may stand there"),
    }
}

/// Where it stops being a sheet: the byte, and why.
fn stopped(sheet: &[u8], refusal: Refusal) -> String {
    let mut records = Records::new(sheet);
    let (mut place, mut last) = (0, 0);
    while let Some(Ok(record)) = records.next() {
        (place, last) = (records.place(), kind(&record));
    }
    let why = match refusal {
        Refusal::SheetTail => format!("the end stands there, with {} behind it", counted(sheet.len() - place - 1, "byte", "bytes")),
        _ => found(sheet, place, last),
    };
    format!("byte {place}: {why}")
}

fn kind(record: &Record) -> usize {
    match record {
        Record::Size { .. } => 1,
        Record::Edge { .. } => 2,
        Record::Beta(_) => 3,
        Record::Pair { .. } => 4,
        Record::End => 5,
    }
}

/// A double, and its bits where its digits do not say all.
fn double(x: f64) -> String {
    match x.is_nan() {
        true => format!("NaN (0x{:016x})", x.to_bits()),
        false => spelled(x),
    }
}

fn line(place: usize, record: &Record) -> String {
    let told = match record {
        Record::Size { n, floor } => format!("{}, floor {floor}", counted(*n, "vertex", "vertices")),
        Record::Edge { a, b, m } => format!("edge {a}-{b}, magnitude {}", double(*m)),
        Record::Beta(beta) => format!("beta {}", double(*beta)),
        Record::Pair { u, v } => format!("pair {u}-{v}"),
        Record::End => "end".to_string(),
    };
    format!("{place:>6}  {}  {told}\n", kind(record))
}

/// What is told of a file, and whether it is a job sheet whose job the library takes, or a run record.
pub struct Shown {
    pub told: String,
    pub is_sheet: bool,
}

/// A line for each record: its byte, its kind, and what it has. Then whether it is a sheet, or the byte at which it stops being one and why; and
/// of a sheet whether its job passes the checks. Of a run record what its head says.
pub fn show(file: &Path) -> Result<Shown, Trouble> {
    let bytes = bytes(file)?;
    if bytes.first() == Some(&17) {
        return Ok(run_record::shown(file, &bytes));
    }
    let mut told = String::from("  byte  kind\n");
    let mut records = Records::new(&bytes);
    let mut place = 0;
    while let Some(Ok(record)) = records.next() {
        told += &line(place, &record);
        place = records.place();
    }
    let name = file.display();
    let verdict = match JobSheet::read(&bytes) {
        Err(refusal) => Err(format!("no job sheet: {} (refusal {})", stopped(&bytes, refusal), refusal.number())),
        Ok(sheet) => {
            let counts = [(sheet.edges.a.len(), "edge", "edges"), (sheet.betas.len(), "beta", "betas"), (sheet.us.len(), "pair", "pairs")];
            let counts = counts.map(|(count, one, many)| counted(count, one, many)).join(", ");
            match sheet.job().sheet_bytes(&sheet.betas) {
                Ok(_) => Ok(format!("a job sheet of {}: {counts}", counted(bytes.len(), "byte", "bytes"))),
                Err(refusal) => {
                    let why = explained::of_job(file, &sheet.job(), &sheet.betas, refusal);
                    Err(format!("a job sheet of {counts}, whose job is refused: {why}"))
                }
            }
        }
    };
    told += &match &verdict {
        Ok(verdict) | Err(verdict) => format!("{name}: {verdict}\n"),
    };
    Ok(Shown { told, is_sheet: verdict.is_ok() })
}
