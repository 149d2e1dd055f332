//! A sheet: a table of values with what they are of.

use crate::board::Board;
use crate::cost::less_room;
use crate::options::{Options, Wanted};
use crate::record::Record;
use crate::source::{Bounds, Source, Values};
use crate::values::spelled;

pub struct Row {
    pub label: String,
    pub u: usize,
    pub v: usize,
    pub distance: Option<usize>,
    /// By beta, then by column.
    pub values: Vec<Vec<f64>>,
}

pub struct Sheet {
    pub record: Record,
    /// Kind, boundary, width and length of the strip, cell by cell; of a job sheet only that it is one.
    pub strip: String,
    /// Of the strip; 1 of a job sheet, whose vertices have no places across.
    pub width: usize,
    pub title: String,
    pub source: String,
    manner: &'static str,
    house: bool,
    /// As every format spells them.
    pub betas: Vec<String>,
    pub columns: &'static [&'static str],
    /// How far the first column's values can be from the exact ones, by beta, where that is proved.
    pub bounds: Bounds,
    pub rows: Vec<Row>,
    /// The work memory that was taken, and that of calls that keep all, where these take more.
    pub less_room: Option<[String; 2]>,
    pub bits: bool,
    drawn: bool,
    /// Whether the pairs are the standard ones, by their labels.
    pub standard: bool,
}

impl Sheet {
    pub fn new(options: &Options, board: &Board, source: &dyn Source, bounds: Bounds, values: Values) -> Sheet {
        let row = |i: usize| {
            let pair = &board.pairs[i];
            let values = values.iter().map(|of_beta| of_beta[i].clone()).collect();
            Row { label: pair.label.clone(), u: pair.u, v: pair.v, distance: board.distances[i], values }
        };
        Sheet {
            record: Record::new(options, board, source),
            strip: board.strip_cells(),
            width: board.strip.map_or(1, |strip| strip.width),
            title: board.title(),
            source: source.title(),
            manner: if board.options.manner == copperhook::Manner::Block { "block" } else { "element" },
            house: board.house,
            betas: board.betas.iter().map(|&b| spelled(b)).collect(),
            columns: source.columns(),
            bounds,
            rows: (0..board.pairs.len()).map(row).collect(),
            less_room: less_room(board, source.threads()),
            bits: options.bits,
            drawn: matches!(options.wanted, Wanted::Sampled(_)),
            standard: options.pairs.is_none() && board.strip.is_some(),
        }
    }

    /// Which configurations they are of, and how they were worked out.
    pub fn head(&self) -> String {
        format!("{}; manner {}{}", self.source, self.manner, if self.house { "; house factors" } else { "" })
    }

    /// Whether the second column is how far the squares spread over all configurations.
    pub fn spread(&self) -> bool {
        self.columns.get(1) == Some(&"spread")
    }

    /// Whether the second column is how far a mean of drawn configurations may be off.
    pub fn drawn(&self) -> bool {
        self.drawn && self.columns.len() > 1
    }
}

/// The bits of a double, as every format spells them.
pub fn bits(x: f64) -> String {
    format!("0x{:016x}", x.to_bits())
}
