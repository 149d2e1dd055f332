//! The edges of a strip by their places in its edge list: which of them a job keeps, and which of these are free, with their bits.

use crate::board::{counted, diluted, strip, title};
use crate::explained;
use crate::options::{Format, Options};
use crate::record::{lines, Record};
use crate::sheet::bits;
use crate::text::aligned;
use crate::trouble::Trouble;
use copperhook::{EdgeList, ForestEdge, Graph, Refusal, Strip};

/// What becomes of an edge.
#[derive(Clone, Copy, Debug, PartialEq)]
enum Fate {
    Dropped,
    Kept(ForestEdge),
}

impl Fate {
    fn kept(self) -> &'static str {
        if self == Fate::Dropped {
            "dropped"
        } else {
            "kept"
        }
    }

    /// Tree or free; nothing of a dropped edge.
    fn forest(self) -> Option<&'static str> {
        match self {
            Fate::Dropped => None,
            Fate::Kept(ForestEdge::Tree) => Some("tree"),
            Fate::Kept(ForestEdge::Bit(_)) => Some("free"),
        }
    }

    /// The bit of a free edge.
    fn bit(self) -> Option<usize> {
        match self {
            Fate::Dropped => None,
            Fate::Kept(edge) => edge.bit(),
        }
    }
}

/// The edges of a strip, with what becomes of each.
pub struct Listing {
    pub strip: Strip,
    pub edges: EdgeList,
    /// One for each edge.
    fates: Vec<Fate>,
    /// The number of vertices, of kept and of free edges, and the window.
    pub figures: [usize; 4],
    /// The least window, that of the whole strip where none is told.
    floor: usize,
    pub title: String,
    pub record: Record,
    bits: bool,
}

/// The kept edges are told by their raw places, the free ones by the spanning forest of the kept.
fn fates(edges: &EdgeList, n: usize) -> Result<Vec<Fate>, Refusal> {
    let graph = edges.graph(n);
    let raw = graph.kept_list()?.raw;
    let mut forest = vec![ForestEdge::Tree; raw.len()];
    graph.spanning_forest(&mut forest)?;
    let mut fates = vec![Fate::Dropped; edges.m.len()];
    for (place, edge) in raw.into_iter().zip(forest) {
        fates[place] = Fate::Kept(edge);
    }
    Ok(fates)
}

impl Listing {
    pub fn new(options: &Options) -> Result<Listing, Trouble> {
        let named = |refusal| explained::of_strip(options, refusal);
        let (strip, edges) = strip(options)?;
        let (n, whole) = (strip.n().map_err(named)?, strip.window().map_err(named)?);
        let floor = options.floor.unwrap_or(whole);
        let window = edges.graph(n).with_floor(floor).window().map_err(named)?;
        let fates = fates(&edges, n).map_err(named)?;
        let many = |wanted: fn(&Fate) -> bool| fates.iter().filter(|&fate| wanted(fate)).count();
        let (kept, free) = (many(|&fate| fate != Fate::Dropped), many(|&fate| fate.bit().is_some()));
        let title = title(&strip, diluted(options).as_deref(), [n, kept, window]);
        let figures = [n, kept, free, window];
        let record = Record::of_edges(options, &strip, figures);
        Ok(Listing { strip, edges, fates, figures, floor, title, record, bits: options.bits })
    }

    pub fn graph(&self) -> Graph<'_> {
        self.edges.graph(self.figures[0]).with_floor(self.floor)
    }

    /// Place, ends, magnitude, whether it is kept and whether it is free, cell by cell; `nothing` stands for what an edge has not.
    pub fn cells(&self, place: usize, nothing: &str) -> Vec<String> {
        let (magnitude, fate) = (self.edges.m[place], self.fates[place]);
        let mut cells = vec![place.to_string(), self.edges.a[place].to_string(), self.edges.b[place].to_string(), format!("{magnitude:?}")];
        cells.extend(self.bits.then(|| bits(magnitude)));
        cells.extend([fate.kept().to_string(), fate.forest().unwrap_or(nothing).to_string()]);
        cells
    }

    /// The names of these.
    pub fn names(&self) -> Vec<String> {
        let bits = self.bits.then_some("magnitude_bits");
        ["place", "u", "v", "magnitude"].into_iter().chain(bits).chain(["kept", "forest"]).map(String::from).collect()
    }

    /// A table under its head as comma-separated values, behind the record; the strip stands in every row.
    pub fn csv_of(&self, table: &[Vec<String>]) -> String {
        let (s, boundary) = (&self.strip, self.strip.boundary());
        let strip = format!("{},{boundary},{},{}", s.kind.name(), s.width, s.length);
        let mut text: String = self.record.0.iter().map(|(key, field)| format!("# {key}: {}\n", field.shown())).collect();
        for (i, row) in table.iter().enumerate() {
            let front = if i == 0 { "kind,boundary,width,length" } else { &strip };
            text += &format!("{front},{}\n", row.join(","));
        }
        text
    }

    /// The record as a text ends with it.
    pub fn recorded(&self) -> String {
        lines(&self.record, 120).into_iter().map(|line| line + "\n").collect()
    }

    /// A line for each edge under their head: its cells, and its bit.
    fn table(&self, nothing: &str) -> Vec<Vec<String>> {
        let bit = |fate: &Fate| fate.bit().map_or(nothing.to_string(), |bit| bit.to_string());
        let row = |(place, fate): (usize, &Fate)| [self.cells(place, nothing), vec![bit(fate)]].concat();
        let head = [self.names(), vec!["bit".to_string()]].concat();
        [head].into_iter().chain(self.fates.iter().enumerate().map(row)).collect()
    }

    fn text(&self) -> String {
        let count = counted(self.fates.len(), "edge", "edges");
        format!(
            "{}\n{count}, by place in the strip's edge list\n\n{}\na kept edge is in the spanning forest, or free: it is minus in configurations whose number has its bit set\n\n{}",
            self.title,
            aligned(&self.table("-")),
            self.recorded()
        )
    }
}

/// The edges as the options ask for them.
pub fn listed(options: &Options) -> Result<String, Trouble> {
    let listing = Listing::new(options)?;
    Ok(if options.format == Format::Csv { listing.csv_of(&listing.table("")) } else { listing.text() })
}
