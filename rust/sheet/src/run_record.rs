//! Run records: a sampling as a file, files of neighbouring chunks as one, the same sampled again, and the sheet of the totals.

use crate::accuracy::value;
use crate::board::{counted, Board};
use crate::cost::{has_memory, size, work_memory, Cost};
use crate::explained::{self, refused, stopped_record};
use crate::job_sheet::{self, bytes, Shown};
use crate::options::{Drawing, Format, Options, Wanted};
use crate::output::Target;
use crate::progress::{self, tell};
use crate::record::{build, lines, Field, Record};
use crate::sha256::sha256;
use crate::sheet::{bits, Sheet};
use crate::source::{Source, Values};
use crate::text::aligned;
use crate::totals::Sampled;
use crate::trouble::Trouble;
use crate::values::spelled;
use crate::verify::Verdict;
use copperhook::run_record::{check, rows, Head, Row};
use copperhook::{record_join, record_totals, Refusal};
use std::fs;
use std::path::{Path, PathBuf};

/// Records of neighbouring chunks in their order, joined as they come: a long one waits until what follows is as long.
#[derive(Default)]
pub struct Parts(Vec<Vec<u8>>);

impl Parts {
    pub fn add(&mut self, part: Vec<u8>) -> Result<(), Trouble> {
        self.0.push(part);
        while self.0.len() > 1 && self.0[self.0.len() - 2].len() <= self.0[self.0.len() - 1].len() {
            self.join_last()?;
        }
        Ok(())
    }

    fn join_last(&mut self) -> Result<(), Trouble> {
        if let (Some(two), Some(one)) = (self.0.pop(), self.0.pop()) {
            self.0.push(record_join(&one, &two).map_err(|refusal| refused(refusal.sentence().to_string(), refusal))?);
        }
        Ok(())
    }

    /// All of them as one; no byte where there is none.
    pub fn joined(mut self) -> Result<Vec<u8>, Trouble> {
        while self.0.len() > 1 {
            self.join_last()?;
        }
        Ok(self.0.pop().unwrap_or_default())
    }
}

/// The bytes of a file that is a run record, and what its head says.
fn read(file: &Path) -> Result<(Vec<u8>, Head), Trouble> {
    let bytes = bytes(file)?;
    match check(&bytes) {
        Ok(head) => Ok((bytes, head)),
        Err(refusal) => Err(refused(format!("{}: {}", file.display(), stopped_record(&bytes)), refusal)),
    }
}

/// As `--chunks` takes them.
fn chunks(head: &Head) -> String {
    format!("{}..{}", head.by.from, head.by.to)
}

/// A head on one line.
fn told(head: &Head) -> String {
    let (samples, betas) = (counted(head.by.samples, "sample", "samples"), counted(head.betas, "beta", "betas"));
    format!("chunks {} of {samples}, seed {}, {betas}, {}", chunks(head), head.by.seed, counted(head.pairs, "pair", "pairs"))
}

/// What two heads differ in but for their chunks: its name, and both numbers.
fn difference(one: &Head, two: &Head) -> Option<(&'static str, u64, u64)> {
    let numbers = |head: &Head| [head.by.seed, head.by.samples as u64, head.betas as u64, head.pairs as u64];
    let named = ["seed", "samples per chunk", "betas", "pairs"].into_iter().zip(numbers(one)).zip(numbers(two));
    named.map(|((name, one), two)| (name, one, two)).find(|(_, one, two)| one != two)
}

/// The head of the record that the options ask for, whose samples are checked here.
fn asked(by: &Drawing, board: &Board) -> Result<Head, Trouble> {
    if u32::try_from(by.samples).is_err() {
        let told = format!("--sample {}: a run record takes at most 4,294,967,295 in each chunk; take more chunks", by.samples);
        return Err(refused(told, Refusal::Record));
    }
    let by = copperhook::Sampling { seed: by.seed, from: by.from, to: by.to, samples: by.samples };
    Ok(Head { by, betas: board.betas.len(), pairs: board.pairs.len() })
}

/// Whether the file is the record of this run already. One that is no record is none that was left half-written: that is never put there.
fn is_there(file: &Path, head: &Head) -> Result<bool, Trouble> {
    let Ok(bytes) = fs::read(file) else { return Ok(false) };
    match check(&bytes) {
        Ok(found) if found == *head => Ok(true),
        Ok(found) => Err(Trouble::asked(format!(
            "--resume: {} is there, and is the record of another run: {}, and {} are asked for; take another file",
            file.display(),
            told(&found),
            told(head)
        ))),
        Err(_) => {
            tell(&format!("sheet: {} is there, and is no run record: {}; it is made anew\n", file.display(), stopped_record(&bytes)));
            Ok(false)
        }
    }
}

/// That the record fits the memory: while it is put together it is there twice.
fn fits(head: &Head) -> Result<(), Trouble> {
    let small = "sample fewer chunks, and join the files";
    match head.bytes().map(|bytes| 2.0 * bytes as f64) {
        None => Err(refused(format!("{}: more bytes than a file can have; {small}", told(head)), Refusal::Buffer)),
        Some(bytes) => has_memory(bytes).map_err(|lacking| {
            Trouble::Machine(format!(
                "the record is {}, twice that is taken while it is put together, {lacking}; {small}",
                size(bytes / 2.0)
            ))
        }),
    }
}

/// Samples, and writes the record to the file, which is there whole or not at all.
pub fn write(options: &Options, resume: bool) -> Result<(), Trouble> {
    let (Wanted::Sampled(by), Some(file)) = (&options.wanted, &options.output) else {
        return Err(Trouble::asked("--sample and --output are required"));
    };
    let mut board = Board::new(options)?;
    let source = Sampled::new(by)?;
    let head = asked(by, &board)?;
    if resume && is_there(file, &head)? {
        tell(&format!("sheet: {} is there, and is the record of this run; it stays\n", file.display()));
        return Ok(());
    }
    fits(&head)?;
    let target = Target::ready(Some(file))?;
    job_sheet::write_if_asked(options, &board)?;
    for warning in explained::warnings(options) {
        tell(&format!("sheet: warning: {warning}\n"));
    }
    target.take_bytes(&sampled(&mut board, &source)?)
}

/// The record of these samples, with a line on standard error that tells how long it takes.
fn sampled(board: &mut Board, source: &Sampled) -> Result<Vec<u8>, Trouble> {
    // what the factors are refused by is told before the first chunk
    source.bounds(board)?;
    let mut work = work_memory(board, source.threads())?;
    let cost = Cost::of(board, source);
    cost.say();
    if cost.is_long() {
        source.tried(board, &mut work)?;
    }
    progress::shown(&cost, |done| source.recorded(board, &mut work, done))
}

/// That a job has as many betas and pairs as the record in a file.
fn of_this_job(file: &Path, head: &Head, board: &Board) -> Result<(), Trouble> {
    let [ours, theirs] = [(board.betas.len(), board.pairs.len()), (head.betas, head.pairs)];
    if ours == theirs {
        return Ok(());
    }
    let counts = |(betas, pairs)| format!("{} and {}", counted(betas, "beta", "betas"), counted(pairs, "pair", "pairs"));
    let [ours, theirs] = [ours, theirs].map(counts);
    let what = "give the job that it was sampled from";
    Err(Trouble::asked(format!("{}: the record has {theirs}, and this job {ours}; {what}", file.display())))
}

/// Samples the chunks of a record again, or some of them, and tells which rows are others.
pub fn verify(file: &Path, options: &Options, asked: Option<(u64, u64)>, threads: usize) -> Result<Verdict, Trouble> {
    let (bytes, head) = read(file)?;
    let (from, to) = asked.unwrap_or((head.by.from, head.by.to));
    if from < head.by.from || to > head.by.to {
        return Err(Trouble::asked(format!("--chunks {from}..{to}: {} has chunks {}", file.display(), chunks(&head))));
    }
    let by = Drawing { from, to, threads, ..drawing(&head) };
    let mut board = Board::new(&Options { wanted: Wanted::Sampled(by), ..options.clone() })?;
    of_this_job(file, &head, &board)?;
    let again = sampled(&mut board, &Sampled::new(&by)?)?;
    let before = (from - head.by.from) as usize * head.rows_of_a_chunk();
    let bits = |row: &Row| [row.squares, row.fourths].map(f64::to_bits);
    let pairs = rows(&bytes).skip(before).zip(rows(&again)).filter(|(found, expected)| bits(found) != bits(expected));
    let different: Vec<(Row, Row)> = pairs.collect();
    let line = |(found, expected): &(Row, Row)| {
        let sums = |row: &Row| format!("{} and {}", spelled(row.squares), spelled(row.fourths));
        let Row { chunk, beta, pair, .. } = found;
        format!("chunk {chunk}, beta {beta}, pair {pair}: the record has {}, sampled {}\n", sums(found), sums(expected))
    };
    let mut told: String = different.iter().take(TOLD).map(line).collect();
    if different.len() > TOLD {
        told += &format!("and {} more\n", different.len() - TOLD);
    }
    let (name, all) = (file.display(), (to - from) as usize * head.rows_of_a_chunk());
    told += &match different.len() {
        0 => format!("{name}: all {all} rows of chunks {from}..{to} agree, bit for bit\n"),
        many => format!(
            "{name}: {many} of {all} rows of chunks {from}..{to} differ: another job, factors, manner, or a record that was altered\n"
        ),
    };
    Ok(Verdict { told, agrees: different.is_empty() })
}

/// A record that is to be joined, and its file.
struct Piece {
    file: PathBuf,
    bytes: Vec<u8>,
    head: Head,
}

impl Piece {
    /// Its file and its chunks, for people.
    fn named(&self) -> String {
        format!("{} ({})", self.file.display(), chunks(&self.head))
    }
}

/// How many missing ranges, chunks that are there twice, or rows that differ, are told one by one.
const TOLD: usize = 10;

/// What keeps these records, in the order of their chunks, from being one: what they differ in, chunks that two of them have, or those that are
/// missing between them.
fn apart(pieces: &[Piece]) -> Option<String> {
    let first = &pieces[0];
    for piece in pieces {
        if let Some((name, one, two)) = difference(&first.head, &piece.head) {
            let files = [first, piece].map(|piece| piece.file.display());
            return Some(format!("records of different runs: {name} {one} in {}, and {two} in {}", files[0], files[1]));
        }
    }
    let (mut last, mut missing, mut twice) = (first, Vec::new(), Vec::new());
    for piece in &pieces[1..] {
        let (end, start) = (last.head.by.to, piece.head.by.from);
        if start > end {
            missing.push(format!("{end}..{start}"));
        } else if start < end {
            let both = format!("{start}..{}", end.min(piece.head.by.to));
            twice.push(format!("{both} in {} and {}", last.named(), piece.named()));
        }
        last = if piece.head.by.to >= end { piece } else { last };
    }
    let listed = |list: &[String], between: &str| {
        let more = list.len().saturating_sub(TOLD);
        let list = list[..list.len().min(TOLD)].join(between);
        if more > 0 {
            format!("{list} and {more} more")
        } else {
            list
        }
    };
    match (&twice[..], &missing[..]) {
        ([], []) => None,
        ([], missing) => {
            Some(format!("chunks are missing: {}; sheet record --chunks {} .. makes the first of them", listed(missing, ", "), missing[0]))
        }
        (twice, _) => Some(format!("chunks are there twice: {}; leave one of the files out", listed(twice, "; "))),
    }
}

/// Joins the records of these files, in whichever order they are named, and writes one.
pub fn join(files: &[PathBuf], output: &Path) -> Result<(), Trouble> {
    let target = Target::ready(Some(output))?;
    let long: f64 = files.iter().filter_map(|file| fs::metadata(file).ok()).map(|file| file.len() as f64).sum();
    has_memory(3.0 * long).map_err(|lacking| {
        Trouble::Machine(format!("the records are {}, three times that is taken to join them, {lacking}", size(long)))
    })?;
    let piece = |file: &PathBuf| read(file).map(|(bytes, head)| Piece { file: file.clone(), bytes, head });
    let mut pieces = files.iter().map(piece).collect::<Result<Vec<_>, _>>()?;
    pieces.sort_by_key(|piece| (piece.head.by.from, piece.head.by.to));
    if let Some(why) = apart(&pieces) {
        return Err(refused(why, Refusal::Join));
    }
    let (first, last) = (pieces[0].head, pieces[pieces.len() - 1].head);
    let whole = Head { by: copperhook::Sampling { to: last.by.to, ..first.by }, ..first };
    let count = u128::from(whole.by.to - whole.by.from) * whole.by.samples as u128;
    if count > 1 << 32 {
        return Err(refused(format!("{}: {count} configurations; at most 4,294,967,296 (2^32)", told(&whole)), Refusal::Samples));
    }
    let mut parts = Parts::default();
    pieces.into_iter().try_for_each(|piece| parts.add(piece.bytes))?;
    target.take_bytes(&parts.joined()?)?;
    tell(&format!("sheet: {} joined: {}\n", counted(files.len(), "record", "records"), told(&whole)));
    Ok(())
}

/// What is told of a file that begins as a run record does.
pub fn shown(file: &Path, bytes: &[u8]) -> Shown {
    let name = file.display();
    match check(bytes) {
        Ok(head) => {
            Shown { told: format!("{name}: a run record of {}: {}\n", counted(bytes.len(), "byte", "bytes"), told(&head)), is_sheet: true }
        }
        Err(refusal) => {
            Shown { told: format!("{name}: no run record: {} (refusal {})\n", stopped_record(bytes), refusal.number()), is_sheet: false }
        }
    }
}

/// A record's totals as a source tells them: as if its configurations had been drawn here.
struct Totalled {
    source: Sampled,
    values: Values,
    sha256: String,
    head: Head,
}

fn totalled(file: &Path) -> Result<Totalled, Trouble> {
    let (bytes, head) = read(file)?;
    let named = |why: String, refusal: Refusal| refused(format!("{}: {why}", file.display()), refusal);
    let totals = record_totals(&bytes).map_err(|refusal| named(refusal.sentence().to_string(), refusal))?;
    if totals.count == 0 {
        return Err(named(format!("{}: no configuration, so no mean", told(&head)), Refusal::Sums));
    }
    let source = Sampled::new(&drawing(&head))?;
    let values = source.estimated(totals, head.pairs).map_err(|refusal| named(refusal.sentence().to_string(), refusal))?;
    Ok(Totalled { source, values, sha256: sha256(&bytes), head })
}

fn drawing(head: &Head) -> Drawing {
    let by = head.by;
    Drawing { seed: by.seed, from: by.from, to: by.to, samples: by.samples, threads: 1 }
}

/// The sheet of a record's totals, with the job that it was sampled from: that of a sampling of the same chunks. That the job is the one is the
/// caller's word, but for how many betas and pairs it has.
pub fn sheet(options: &Options, file: &Path) -> Result<Sheet, Trouble> {
    let Totalled { source, values, sha256, head } = totalled(file)?;
    let options = Options { wanted: Wanted::Sampled(drawing(&head)), ..options.clone() };
    let board = Board::new(&options)?;
    of_this_job(file, &head, &board)?;
    let bounds = source.bounds(&board)?;
    let mut sheet = Sheet::new(&options, &board, &source, bounds, values);
    sheet.record.0.push(("run_record_sha256", Field::text(sha256)));
    Ok(sheet)
}

/// The totals without a job: betas and pairs by their numbers.
pub fn numbered(options: &Options, file: &Path) -> Result<String, Trouble> {
    let Totalled { source, values, sha256, head } = totalled(file)?;
    let mut entries = build().to_vec();
    entries.push(("command", Field::text(format!("sheet totals {}", file.display()))));
    entries.extend(source.record());
    entries.extend([
        ("betas", Field::number(head.betas)),
        ("pairs", Field::number(head.pairs)),
        ("run_record_sha256", Field::text(sha256)),
    ]);
    let record = Record(entries);
    let csv = options.format == Format::Csv;
    let mut names: Vec<String> = ["beta", "pair"].map(String::from).to_vec();
    for column in source.columns() {
        names.push(column.to_string());
        names.extend(options.bits.then(|| if csv { format!("{column}_bits") } else { "bits".to_string() }));
    }
    let mut table = vec![names];
    for (beta, of_beta) in values.iter().enumerate() {
        for (pair, of_pair) in of_beta.iter().enumerate() {
            let mut cells = vec![beta.to_string(), pair.to_string()];
            for &x in of_pair {
                cells.push(if csv { format!("{x:?}") } else { value(x, None) });
                cells.extend(options.bits.then(|| bits(x)));
            }
            table.push(cells);
        }
    }
    if csv {
        let head: String = record.0.iter().map(|(key, field)| format!("# {key}: {}\n", field.shown())).collect();
        return Ok(head + &table.iter().map(|row| row.join(",") + "\n").collect::<String>());
    }
    let mut text = format!("run record {}: {}\n{}\n\n", file.display(), told(&head), source.title());
    text += &aligned(&table);
    text += "\nthe record has no job: betas and pairs are numbered from 0, and no bound is told; with the options of the strip, or --job, both are\n\n";
    text += &lines(&record, 120).into_iter().map(|line| line + "\n").collect::<String>();
    Ok(text)
}

#[cfg(test)]
mod tests {
    use super::*;
    use copperhook::Sampling;

    fn piece(name: &str, from: u64, to: u64) -> Piece {
        let by = Sampling { seed: 1, from, to, samples: 9 };
        Piece { file: PathBuf::from(name), bytes: Vec::new(), head: Head { by, betas: 2, pairs: 3 } }
    }

    #[test]
    fn neighbours_join() {
        assert_eq!(apart(&[piece("a", 0, 4)]), None);
        assert_eq!(apart(&[piece("a", 0, 4), piece("b", 4, 4), piece("c", 4, 7)]), None);
    }

    #[test]
    fn what_is_missing_is_named() {
        let missing = apart(&[piece("a", 0, 4), piece("b", 6, 7), piece("c", 9, 10)]);
        assert_eq!(missing.unwrap(), "chunks are missing: 4..6, 7..9; sheet record --chunks 4..6 .. makes the first of them");
        let many: Vec<Piece> = (0..13).map(|i| piece("a", 2 * i, 2 * i + 1)).collect();
        assert!(apart(&many).unwrap().contains("19..20 and 2 more;"));
    }

    #[test]
    fn what_is_there_twice_is_named() {
        let twice = apart(&[piece("a", 0, 4), piece("b", 2, 7), piece("c", 9, 10)]);
        assert_eq!(twice.unwrap(), "chunks are there twice: 2..4 in a (0..4) and b (2..7); leave one of the files out");
        // one within another, and what follows both
        let twice = apart(&[piece("a", 0, 8), piece("b", 2, 5), piece("c", 8, 9)]);
        assert_eq!(twice.unwrap(), "chunks are there twice: 2..5 in a (0..8) and b (2..5); leave one of the files out");
    }

    #[test]
    fn what_runs_differ_in_is_named() {
        let of = |change: fn(&mut Head)| {
            let mut other = piece("b", 4, 7);
            change(&mut other.head);
            apart(&[piece("a", 0, 4), other]).unwrap()
        };
        assert_eq!(of(|head| head.by.seed = 7), "records of different runs: seed 1 in a, and 7 in b");
        assert_eq!(of(|head| head.by.samples = 8), "records of different runs: samples per chunk 9 in a, and 8 in b");
        assert_eq!(of(|head| head.betas = 1), "records of different runs: betas 2 in a, and 1 in b");
        assert_eq!(of(|head| head.pairs = 1), "records of different runs: pairs 3 in a, and 1 in b");
    }
}
