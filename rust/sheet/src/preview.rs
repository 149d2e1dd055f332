//! What dropping edges of a strip, each alone, would do: the window, the free edges, the room and the time that would follow.

use crate::board::{counted, entries, pairs};
use crate::cost::{brief, bytes, seconds_of, size};
use crate::edges::Listing;
use crate::explained;
use crate::options::{Dropped, Format, Options};
use crate::text::aligned;
use crate::totals::MOST_FREE;
use crate::trouble::Trouble;
use copperhook::{Arrangement, Figures, Job, Manner, Refusal};
use std::cmp::Ordering;

/// What a job comes to, and the entries that the sweeps of one configuration step over.
#[derive(Clone, Copy)]
struct Costs {
    figures: Figures,
    entries: f64,
}

impl Costs {
    /// The entries of all configurations, by their power of two.
    fn work(&self) -> f64 {
        self.figures.free_edges as f64 + self.entries.log2()
    }

    /// What part of another's time the sweeps of all configurations take.
    fn share_of(&self, other: &Costs) -> f64 {
        let configurations = f64::powi(2.0, self.figures.free_edges as i32 - other.figures.free_edges as i32);
        configurations * self.entries / other.entries
    }
}

/// An edge, and what the job would come to without it.
struct Row {
    place: usize,
    then: Result<Costs, Refusal>,
}

impl Row {
    /// What saves more stands first, what would be refused last.
    fn order(&self, other: &Row) -> Ordering {
        let saving = match (&self.then, &other.then) {
            (Ok(one), Ok(two)) => one.work().total_cmp(&two.work()).then(one.figures.room.cmp(&two.figures.room)),
            (one, two) => one.is_err().cmp(&two.is_err()),
        };
        saving.then(self.place.cmp(&other.place))
    }
}

struct Preview {
    listing: Listing,
    now: Result<Costs, Refusal>,
    rows: Vec<Row>,
    betas: usize,
    /// The seconds of an entry of a sweep, by trials.
    rate: f64,
    /// Whether the window is that of the whole strip at least.
    whole: bool,
}

/// What the job comes to as it is.
fn present(job: &Job, arrangement: Arrangement) -> Result<Figures, Refusal> {
    let room = job.room_in(arrangement)?;
    Ok(Figures { window: job.graph.window()?, free_edges: job.graph.cyclomatic()?, room })
}

/// Bad pairs and betas are told as for a sheet: no edge that is dropped cures them.
fn checked(options: &Options, job: &Job) -> Result<(), Trouble> {
    job.graph.factors(&options.betas).map_err(|refusal| explained::of_betas(&options.betas, refusal))?;
    match job.room() {
        Err(refusal @ (Refusal::ListLengths | Refusal::PairEnds)) => Err(explained::of_strip(options, refusal)),
        _ => Ok(()),
    }
}

impl Preview {
    fn new(options: &Options, dropped: &Dropped) -> Result<Preview, Trouble> {
        let listing = Listing::new(options)?;
        let pairs = pairs(options, &listing.strip).map_err(|refusal| explained::of_strip(options, refusal))?;
        let (us, vs): (Vec<usize>, Vec<usize>) = pairs.iter().map(|p| (p.u, p.v)).unzip();
        let job = Job { graph: listing.graph(), us: &us, vs: &vs };
        checked(options, &job)?;
        let arrangement = if options.less_room { Arrangement::LessRoom } else { Arrangement::KeepAll };
        let costs = |figures: Figures| Costs { figures, entries: entries(&job, figures.window) };
        let now = present(&job, arrangement).map(costs);
        let count = listing.edges.m.len();
        let all: Vec<usize> = (0..count).collect();
        let places = if let Dropped::Places(places) = dropped { places } else { &all };
        let row = |&place: &usize| match job.preview(&options.betas, place, arrangement) {
            Err(Refusal::EdgePlace) => Err(explained::of_place(place, count)),
            told => Ok(Row { place, then: told.map(costs) }),
        };
        let mut rows = places.iter().map(row).collect::<Result<Vec<Row>, Trouble>>()?;
        rows.sort_by(Row::order);
        let calls = copperhook::Options::from(Manner::Block).arranged(arrangement);
        // where the job is refused as it is, by what any sweep takes
        let (room, swept) = now.map_or((0, 1e9), |now| (now.figures.room, now.entries));
        let (least, most) = seconds_of(&job, listing.figures[1], calls, room, swept);
        let rate = (least + most) / 2.0 / swept;
        Ok(Preview { listing, now, rows, betas: options.betas.len(), rate, whole: options.floor.is_none() })
    }

    /// Window, free edges, room in doubles and in bytes, and the time of one configuration and of all; what is refused has none.
    fn figures(&self, costs: &Result<Costs, Refusal>) -> Vec<String> {
        let Ok(Costs { figures, entries }) = costs else { return vec!["-".to_string(); 6] };
        let one = entries * self.betas as f64 * self.rate;
        let all = match figures.free_edges {
            free if free > MOST_FREE => "-".to_string(),
            free => brief(one * f64::powi(2.0, free as i32)),
        };
        let numbers = [figures.window, figures.free_edges, figures.room].map(|number| number.to_string());
        [&numbers[..], &[size(bytes(figures.room, 1)), brief(one), all]].concat()
    }

    fn text(&self) -> String {
        let words = |names: &[&str]| names.iter().map(|name| name.to_string()).collect::<Vec<_>>();
        let names = self.listing.names();
        let mut now = vec!["now".to_string()];
        now.resize(names.len(), "-".to_string());
        let mut table = vec![[names, words(&["window", "free", "room", "bytes", "one", "all"])].concat()];
        table.push([now, self.figures(&self.now)].concat());
        table.extend(self.rows.iter().map(|row| [self.listing.cells(row.place, "-"), self.figures(&row.then)].concat()));
        let answers: Vec<_> = [&self.now].into_iter().chain(self.rows.iter().map(|row| &row.then)).collect();
        if answers.iter().any(|answer| answer.is_err()) {
            table[0].push("refused".to_string());
            for (row, answer) in table[1..].iter_mut().zip(answers) {
                row.push(answer.err().map_or("-".to_string(), |refusal| refusal.to_string()));
            }
        }
        let edges = counted(self.rows.len(), "edge", "edges, each alone,");
        let betas = counted(self.betas, "beta", "betas");
        let floor = match self.whole {
            true => "the window is the whole strip's at least, as in a sheet; with --floor 0 it is that of the edges that are left\n",
            false => "",
        };
        format!(
            "{}\nwhat dropping {edges} would do, the most saving first\n\n{}\nroom in doubles and in bytes; one configuration and all (- where over {MOST_FREE} edges are free), at {betas}: times that trials here let expect\n{floor}\n{}",
            self.listing.title,
            aligned(&table),
            self.listing.recorded()
        )
    }

    /// What an answer is in comma-separated values: no time is measured for it, but for its share of what all configurations take now.
    fn csv_cells(&self, answer: &Result<Costs, Refusal>) -> Vec<String> {
        match answer {
            Ok(costs) => {
                let Figures { window, free_edges, room } = costs.figures;
                let share = self.now.as_ref().map_or(String::new(), |now| format!("{:?}", costs.share_of(now)));
                let numbers = [window, free_edges, room, 8 * room].map(|number| number.to_string());
                [&numbers[..], &[share, String::new()]].concat()
            }
            Err(refusal) => [vec![String::new(); 5], vec![refusal.number().to_string()]].concat(),
        }
    }

    fn csv(&self) -> String {
        let names = self.listing.names();
        let mut now = vec!["now".to_string()];
        now.resize(names.len(), String::new());
        let more = ["window", "free_edges", "room", "bytes", "time_share", "refusal"].map(String::from);
        let mut table = vec![[names, more.to_vec()].concat(), [now, self.csv_cells(&self.now)].concat()];
        table.extend(self.rows.iter().map(|row| [self.listing.cells(row.place, ""), self.csv_cells(&row.then)].concat()));
        self.listing.csv_of(&table)
    }
}

/// The preview as the options ask for it.
pub fn told(options: &Options, dropped: &Dropped) -> Result<String, Trouble> {
    let preview = Preview::new(options, dropped)?;
    Ok(if options.format == Format::Csv { preview.csv() } else { preview.text() })
}
