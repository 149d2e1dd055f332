//! Why a call is refused.

use crate::numbered::numbered;
use std::fmt;

numbered! {
    /// Why a call is refused. The numbers follow the order of the checks, but that 19 and 20 stand before 1, 24 right behind 2, 21 between
    /// 4 and 5, 22 right behind 6 for the window and right behind 9 for free edges, and 23 in the place of 10; strips check 15 to 17 before
    /// 12, 25 is that of shares alone, and 26 and 27 stand before 1 where run records are read, 26 right behind 11 where one is written. Of several reasons that fit, the first is returned.
    pub enum Refusal;

    /// Returns what is wrong, as a sentence without its full stop.
    pub fn sentence;

    VertexCount = 1, "the vertex count is 0 or above 1,024";
    ListLengths = 2, "lists of one kind differ in length, or there are over 4,096 edges, 256 pairs or 64 betas";
    EdgeEnds = 3, "an edge has equal ends or an end outside the graph";
    Magnitude = 4, "a magnitude or beta isn't finite, or its size is above 1,024";
    ParallelEdges = 5, "two kept edges join the same vertices";
    Window = 6, "the window is above 24";
    BackEdges = 7, "a vertex has over four back edges shorter than the window";
    PairEnds = 8, "a pair has equal ends or an end outside the graph";
    FreeEdges = 9, "free edges exceed 34 for enumerated totals, or 24 for stored correlations";
    Factors = 10, "the factor list has another length, or an entry isn't finite and above zero";
    Samples = 11, "chunks times samples per chunk exceed 2^32";
    Buffer = 12, "a result list isn't of its exact length, or is too short";
    WorkMemory = 13, "the work memory is shorter than the room";
    /// The only one that alters lent lists: results and the work memory's room are +0.0 after it.
    PartitionSum = 14, "some pair's partition sum Z isn't finite and above zero";
    StripSides = 15, "a strip side is 0, or the sides multiply above 1,024";
    OddCylinder = 16, "a honeycomb cylinder has odd width";
    Dilution = 17, "keep isn't finite, or a magnitude bound isn't finite or its size is above 1,024";
    Sums = 18, "the count is 0 or above 2^53, or of a complete enumeration no power of two up to 2^34, or 0 <= fourth powers <= squares <= count fails";
    SheetRecord = 19, "a record of the job sheet is missing, cut short, of unknown kind or out of order";
    SheetTail = 20, "bytes after the end of the job sheet";
    Betas = 21, "the betas don't rise strictly";
    TesterLimit = 22, "the window is above 12, or free edges exceed 16, the limits of the tester's calls";
    /// [`house::nearest`](crate::house::nearest) tells what could stand there instead.
    Couplings = 23, "the couplings for house factors have another length, or one isn't a multiple of 1/128 from -4 to 4";
    /// Places count from 0, dropped edges too: [`Job::preview`](crate::Job::preview).
    EdgePlace = 24, "no edge is at that place";
    Shares = 25, "there is no list or over 256, a list is empty or longer than 2^24, the lengths don't add up to what is lent, or an entry isn't from -1 to 1";
    /// [`run_record`](crate::run_record) has the format.
    Record = 26, "a run record isn't exactly as its format has it, or a run has its end below its start or over 2^32 - 1 samples per chunk";
    Join = 27, "two run records differ in seed, samples per chunk, betas or pairs, or neither range of chunks ends where the other starts";
}

impl Refusal {
    /// Reads the number that a call returns: 0 for accepted.
    pub(crate) fn told(number: usize) -> Result<(), Refusal> {
        match (number, Refusal::from_number(number)) {
            (0, _) => Ok(()),
            (_, Some(refusal)) => Err(refusal),
            (_, None) => unreachable!("the library returned {number}, which is no refusal"),
        }
    }
}

impl fmt::Display for Refusal {
    fn fmt(&self, f: &mut fmt::Formatter<'_>) -> fmt::Result {
        write!(f, "{} (refusal {})", self.sentence(), self.number())
    }
}

impl std::error::Error for Refusal {}

#[cfg(test)]
mod tests {
    use super::Refusal;

    #[test]
    fn a_call_returns_zero_or_a_refusal() {
        assert_eq!(Refusal::told(0), Ok(()));
        assert!(Refusal::ALL.iter().all(|&r| Refusal::told(r.number()) == Err(r)));
    }

    #[test]
    fn each_has_its_own_sentence() {
        for (i, r) in Refusal::ALL.iter().enumerate() {
            assert!(Refusal::ALL[..i].iter().all(|s| s.sentence() != r.sentence()));
        }
        assert_eq!(Refusal::Window.to_string(), "the window is above 24 (refusal 6)");
    }
}
