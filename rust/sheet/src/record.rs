//! The record of a job: what a sheet says of itself, the same in every format.

use crate::board::Board;
use crate::options::{Options, Wanted};
use crate::sha256::sha256;
use crate::source::Source;
use crate::values::{spelled, spelled_dropped, spelled_signs};
use copperhook::Strip;

pub const VERSION: &str = env!("CARGO_PKG_VERSION");
pub const COMMIT: &str = env!("COPPERHOOK_COMMIT");
pub const ARCHIVE_SHA256: &str = env!("COPPERHOOK_ARCHIVE_SHA256");

#[derive(Clone, Debug, PartialEq)]
pub enum Field {
    Text(String),
    /// As it is spelled.
    Number(String),
    /// What the job does not have.
    Nothing,
}

impl Field {
    pub fn text(text: impl Into<String>) -> Field {
        Field::Text(text.into())
    }

    pub fn number(number: impl ToString) -> Field {
        Field::Number(number.to_string())
    }

    pub fn shown(&self) -> &str {
        match self {
            Field::Text(text) | Field::Number(text) => text,
            Field::Nothing => "none",
        }
    }
}

/// A key, which has no spaces, and what it has.
pub type Entry = (&'static str, Field);

pub struct Record(pub Vec<Entry>);

impl Record {
    pub fn new(options: &Options, board: &Board, source: &dyn Source) -> Record {
        let mut entries = build().to_vec();
        // only where it is so: sheets of the host's factors stay as they were
        entries.extend(options.house.then(|| ("factors", Field::text("house"))));
        entries.push(("factors_sha256", Field::text(factors_sha256(board))));
        entries.push(("command", Field::text(command(options, board.strip.as_ref()))));
        entries.extend(strip(board.strip.as_ref(), [board.n, board.kept, board.free, board.window]));
        entries.extend(dilution(options));
        // only where there is one: sheets of strips stay as they were
        entries.extend(board.job_sha256.clone().map(|sha| ("job_sha256", Field::text(sha))));
        entries.extend(source.record());
        entries.push(("manner", Field::text(manner(options))));
        Record(entries)
    }

    /// Of a list of edges, or of a preview, which no configuration enters: the strip, with its vertices, kept and free edges and window.
    pub fn of_edges(options: &Options, of: &Strip, figures: [usize; 4]) -> Record {
        let mut entries = build().to_vec();
        entries.push(("command", Field::text(command(options, Some(of)))));
        entries.extend(strip(Some(of), figures));
        entries.extend(dilution(options));
        Record(entries)
    }
}

/// What is told of this build.
pub fn build() -> [Entry; 3] {
    [("copperhook", Field::text(VERSION)), ("commit", Field::text(COMMIT)), ("archive_sha256", Field::text(ARCHIVE_SHA256))]
}

fn strip(strip: Option<&Strip>, [n, kept, free, window]: [usize; 4]) -> [Entry; 8] {
    let of = |field: &dyn Fn(&Strip) -> Field| strip.map_or(Field::Nothing, field);
    [
        ("kind", of(&|strip| Field::text(strip.kind.name()))),
        ("boundary", of(&|strip| Field::text(strip.boundary()))),
        ("width", of(&|strip| Field::number(strip.width))),
        ("length", of(&|strip| Field::number(strip.length))),
        ("vertices", Field::number(n)),
        ("kept_edges", Field::number(kept)),
        ("free_edges", Field::number(free)),
        ("window", Field::number(window)),
    ]
}

pub fn manner(options: &Options) -> &'static str {
    if options.per_element {
        "element"
    } else {
        "block"
    }
}

fn dilution(options: &Options) -> [Entry; 4] {
    let by = options.dilution;
    let double = |x: Option<f64>| x.map_or(Field::Nothing, |x| Field::number(spelled(x)));
    [
        ("dilution_keep", double(by.map(|by| by.keep))),
        ("dilution_low", double(by.map(|by| by.low))),
        ("dilution_high", double(by.map(|by| by.high))),
        ("dilution_seed", by.map_or(Field::Nothing, |by| Field::number(by.seed))),
    ]
}

/// Of the factors of both signs at each beta and kept edge, in the order in which the library is lent them, each as eight bytes, lowest
/// first. Where they are the host's exponentials, another host may have others.
fn factors_sha256(board: &Board) -> String {
    let bytes: Vec<u8> = board.factors.all.iter().flat_map(|x| x.to_le_bytes()).collect();
    sha256(&bytes)
}

/// The line that asks for the same numbers, however it was asked: nothing unsaid, in one order, and nothing that no number depends on.
fn command(options: &Options, strip: Option<&Strip>) -> String {
    let list = |items: Vec<String>| items.join(",");
    let subcommand = if options.dropped.is_some() { "preview" } else { "make" };
    let mut words = vec![format!("sheet {subcommand}")];
    words.extend(strip.map(|strip| format!("--kind {} --width {} --length {}", strip.kind.name(), options.width, options.length)));
    words.extend(options.job.as_ref().map(|file| format!("--job {}", file.display())));
    words.extend(options.cylinder.then(|| "--cylinder".to_string()));
    words.extend(options.dilution.map(|by| {
        let numbers = [by.keep, by.low, by.high].map(spelled).join(",");
        format!("--dilute {numbers},{}", by.seed)
    }));
    if options.edges {
        words.push("--edges".to_string());
        return words.join(" ");
    }
    words.extend(strip.map(|_| format!("--beta {}", list(options.betas.iter().map(|&b| spelled(b)).collect()))));
    words.extend(options.pairs.as_ref().map(|pairs| format!("--pairs {}", list(pairs.iter().map(|(u, v)| format!("{u}-{v}")).collect()))));
    if let Some(dropped) = &options.dropped {
        words.extend(options.floor.map(|floor| format!("--floor {floor}")));
        words.extend(options.less_room.then(|| "--less-room".to_string()));
        words.push(format!("--drop {}", spelled_dropped(dropped)));
        return words.join(" ");
    }
    words.push(match &options.wanted {
        Wanted::Unsaid | Wanted::Enumerated => "--enumerate".to_string(),
        Wanted::Plus => "--signs plus".to_string(),
        Wanted::Signs(minus) => format!("--signs {}", spelled_signs(minus)),
        Wanted::Drawn(seed) => format!("--seed {seed}"),
        Wanted::Sampled(by) => format!("--sample {} --chunks {}..{} --seed {}", by.samples, by.from, by.to, by.seed),
    });
    words.extend(options.shares.then(|| "--shares".to_string()));
    words.push(format!("--manner {}", manner(options)));
    words.extend(options.house.then(|| "--house".to_string()));
    words.join(" ")
}

/// The record for people, in lines of so many characters: `key: value`, what is too long for one on lines of its own, set in by four. What
/// the job does not have is left out.
pub fn lines(record: &Record, most: usize) -> Vec<String> {
    let mut lines = Vec::new();
    for (key, field) in record.0.iter().filter(|entry| entry.1 != Field::Nothing) {
        let whole = format!("{key}: {}", field.shown());
        if whole.chars().count() <= most {
            lines.push(whole);
        } else {
            lines.push(format!("{key}:"));
            lines.extend(wrapped(field.shown(), most - 4).into_iter().map(|line| format!("    {line}")));
        }
    }
    lines
}

/// In lines of so many characters, broken at spaces; a word that is longer, behind a comma, or where it has none anywhere.
pub fn wrapped(text: &str, most: usize) -> Vec<String> {
    let mut lines: Vec<String> = vec![String::new()];
    for piece in text.split(' ').flat_map(|word| pieces(word, most)) {
        match lines.last_mut() {
            Some(last) if last.is_empty() => *last = piece,
            Some(last) if last.chars().count() + 1 + piece.chars().count() <= most => *last += &format!(" {piece}"),
            _ => lines.push(piece),
        }
    }
    lines
}

fn pieces(word: &str, most: usize) -> Vec<String> {
    let mut letters: Vec<char> = word.chars().collect();
    let mut pieces = Vec::new();
    while letters.len() > most {
        let end = letters[..most].iter().rposition(|&c| c == ',').map_or(most, |comma| comma + 1);
        let rest = letters.split_off(end);
        pieces.push(letters.iter().collect());
        letters = rest;
    }
    pieces.push(letters.iter().collect());
    pieces
}

#[cfg(test)]
mod tests {
    use super::*;

    #[test]
    fn lines_are_no_longer_than_they_may_be() {
        assert_eq!(wrapped("one two three", 7), ["one two", "three"]);
        assert_eq!(wrapped("a abcdefghij", 4), ["a", "abcd", "efgh", "ij"]);
        assert_eq!(wrapped("1,23,456,7", 5), ["1,23,", "456,7"]);
        let record = Record(vec![("key", Field::text("a b")), ("signs", Field::text("+-+-+-+-+-"))]);
        assert_eq!(lines(&record, 10), ["key: a b", "signs:", "    +-+-+-", "    +-+-"]);
    }
}
