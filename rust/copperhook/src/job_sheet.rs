//! Job sheets: a job as bytes, little-endian, each record's kind a byte before its body.
//!
//! ```
//! use copperhook::{job_sheet, Graph, Job, JobSheet, Refusal};
//!
//! let job = Job { graph: Graph::new(3, &[0, 2], &[1, 1], &[1.0, -0.0]), us: &[2], vs: &[0] };
//! let bytes = job.sheet_bytes(&[0.5])?;
//! assert_eq!(bytes.len(), 5 + 13 * 2 + 9 + 5);
//! let read = JobSheet::read(&bytes)?;
//! assert_eq!((read.n, &read.edges.a[..], read.edges.m[1].to_bits()), (3, &[0, 2][..], 1 << 63));
//! assert_eq!(read.job().sheet_bytes(&read.betas)?, bytes);
//!
//! let why = JobSheet::read(&bytes[..20]).unwrap_err();
//! assert_eq!((why, job_sheet::Records::new(&bytes[..20]).stop()), (Refusal::SheetRecord, 17));
//! # Ok::<(), Refusal>(())
//! ```

use crate::call::{call, call_of_graph};
use crate::graph::Graph;
use crate::job::Job;
use crate::limits;
use crate::lists::EdgeList;
use crate::refusal::Refusal;

/// One record of a sheet.
#[derive(Clone, Copy, Debug, PartialEq)]
pub enum Record {
    /// Kind 1, the first.
    Size {
        /// The number of vertices.
        n: usize,
        /// The floor of the window.
        floor: usize,
    },
    /// Kind 2.
    Edge {
        /// One end.
        a: usize,
        /// The other end.
        b: usize,
        /// The magnitude, by its bits.
        m: f64,
    },
    /// Kind 3, a beta, by its bits.
    Beta(f64),
    /// Kind 4.
    Pair {
        /// One vertex.
        u: usize,
        /// The other.
        v: usize,
    },
    /// Kind 5, behind which there is nothing.
    End,
}

/// Reads the record at `place`, where `last` is the kind read last, 0 at first. Returns it with its kind and the place behind it.
pub fn read_record(sheet: &[u8], place: usize, last: usize) -> Result<(Record, usize, usize), Refusal> {
    let (mut kind, mut next, mut first, mut second, mut value) = (0, 0, 0, 0, 0.0);
    // SAFETY: the pointers are those of a slice and of variables of their own; the call is total.
    let number = unsafe {
        let out: [*mut usize; 4] = [&mut kind, &mut next, &mut first, &mut second];
        crate::sys::copperhook_sheet_read(sheet.as_ptr(), sheet.len(), place, last, out[0], out[1], out[2], out[3], &mut value)
    };
    Refusal::told(number)?;
    let record = match kind {
        1 => Record::Size { n: first, floor: second },
        2 => Record::Edge { a: first, b: second, m: value },
        3 => Record::Beta(value),
        4 => Record::Pair { u: first, v: second },
        _ => Record::End,
    };
    Ok((record, kind, next))
}

/// The records of a sheet, one after another: the last is its end, or the refusal that it meets.
#[derive(Clone, Debug)]
pub struct Records<'a> {
    sheet: &'a [u8],
    place: usize,
    last: usize,
    done: bool,
}

impl<'a> Records<'a> {
    /// Begins at the first byte.
    pub fn new(sheet: &'a [u8]) -> Records<'a> {
        Records { sheet, place: 0, last: 0, done: false }
    }

    /// Returns the place of the next record.
    pub fn place(&self) -> usize {
        self.place
    }

    /// Reads on to the end, and returns the place behind it, or of what is no record.
    pub fn stop(mut self) -> usize {
        while self.next().is_some() {}
        self.place
    }
}

impl Iterator for Records<'_> {
    type Item = Result<Record, Refusal>;

    fn next(&mut self) -> Option<Self::Item> {
        if self.done {
            return None;
        }
        let read = read_record(self.sheet, self.place, self.last);
        self.done = !matches!(read, Ok((_, 1..=4, _)));
        Some(read.map(|(record, kind, next)| {
            (self.place, self.last) = (next, kind);
            record
        }))
    }
}

/// A job in lists of its own, as a sheet has it. Any numbers may stand in it: the calls refuse what is bad.
#[derive(Clone, Debug, PartialEq)]
pub struct JobSheet {
    /// The number of vertices.
    pub n: usize,
    /// The floor of the window.
    pub floor: usize,
    /// The edges, dropped ones too, in their order and direction.
    pub edges: EdgeList,
    /// One vertex of each pair.
    pub us: Vec<usize>,
    /// The other vertex of each pair.
    pub vs: Vec<usize>,
    /// The betas.
    pub betas: Vec<f64>,
}

impl JobSheet {
    /// Reads a whole sheet, doubles by their bits. Order, kinds and lengths are asked for, and none of the checks of a job.
    pub fn read(sheet: &[u8]) -> Result<JobSheet, Refusal> {
        // As many of each as so many bytes can hold: the call asks for no more.
        let (mut a, mut b, mut m) = (vec![0; sheet.len() / 13], vec![0; sheet.len() / 13], vec![0.0; sheet.len() / 13]);
        let (mut us, mut vs, mut betas) = (vec![0; sheet.len() / 5], vec![0; sheet.len() / 5], vec![0.0; sheet.len() / 9]);
        let (mut n, mut floor, mut edges, mut pairs, mut n_betas) = (0, 0, 0, 0, 0);
        let (told_n, told_floor): (*mut usize, *mut usize) = (&mut n, &mut floor);
        Refusal::told(
            call!(copperhook_sheet_job(; read sheet; with told_n, told_floor; write a, b, m, us, vs, betas; tell edges, pairs, n_betas)),
        )?;
        a.truncate(edges);
        b.truncate(edges);
        m.truncate(edges);
        us.truncate(pairs);
        vs.truncate(pairs);
        betas.truncate(n_betas);
        Ok(JobSheet { n, floor, edges: EdgeList { a, b, m }, us, vs, betas })
    }

    /// Returns the graph, with its floor.
    pub fn graph(&self) -> Graph<'_> {
        self.edges.graph(self.n).with_floor(self.floor)
    }

    /// Returns the job, without its betas.
    pub fn job(&self) -> Job<'_> {
        Job { graph: self.graph(), us: &self.us, vs: &self.vs }
    }
}

impl Job<'_> {
    /// Writes the sheet of this job with these betas to the front of `sheet`, and returns its length; what lies behind it stays. The checks 1 to
    /// 8 are asked, 4 and 21 of the betas too; [`limits::SHEET_BYTES`] are always enough.
    pub fn write_sheet(&self, betas: &[f64], sheet: &mut [u8]) -> Result<usize, Refusal> {
        let mut bytes = 0;
        let number = call_of_graph!(copperhook_sheet_write(self.graph, floor; read self.us, self.vs, betas; write sheet; tell bytes));
        Refusal::told(number).map(|()| bytes)
    }

    /// As [`Job::write_sheet`], in a list of its own.
    pub fn sheet_bytes(&self, betas: &[f64]) -> Result<Vec<u8>, Refusal> {
        let mut sheet = vec![0; limits::SHEET_BYTES];
        let bytes = self.write_sheet(betas, &mut sheet)?;
        sheet.truncate(bytes);
        Ok(sheet)
    }
}

#[cfg(test)]
mod tests {
    use super::{read_record, JobSheet, Record, Records};
    use crate::{limits, Graph, Job, Refusal};

    const A: [usize; 2] = [1, 2];
    const B: [usize; 2] = [0, 1];
    const M: [f64; 2] = [-0.0, 2.5];

    fn job() -> Job<'static> {
        Job { graph: Graph::new(4, &A, &B, &M).with_floor(3), us: &[3, 0], vs: &[1, 2] }
    }

    #[test]
    fn the_bytes_are_document_02s() {
        let bytes = job().sheet_bytes(&[0.5]).unwrap();
        let expected: Vec<u8> = [
            &[1, 4, 0, 3][..],
            &[2, 1, 0, 0, 0, 0, 0, 0, 0, 0, 0, 0, 0x80],
            &[2, 2, 0, 1, 0, 0, 0, 0, 0, 0, 0, 4, 0x40],
            &[3, 0, 0, 0, 0, 0, 0, 0xe0, 0x3f],
            &[4, 3, 0, 1, 0],
            &[4, 0, 0, 2, 0],
            &[5],
        ]
        .concat();
        assert_eq!(bytes, expected);
        let read = JobSheet::read(&bytes).unwrap();
        assert_eq!((read.n, read.floor, &read.us[..], &read.vs[..], &read.betas[..]), (4, 3, &[3, 0][..], &[1, 2][..], &[0.5][..]));
        assert_eq!((&read.edges.a[..], &read.edges.b[..]), (&A[..], &B[..]));
        assert_eq!(read.edges.m.iter().map(|m| m.to_bits()).collect::<Vec<_>>(), M.map(f64::to_bits));
        assert_eq!(read.job().sheet_bytes(&read.betas), Ok(bytes));
    }

    #[test]
    fn what_lies_behind_a_sheet_stays() {
        let mut buffer = [0xa5; 60];
        let long = job().write_sheet(&[0.5], &mut buffer).unwrap();
        assert!(buffer[long..].iter().all(|&b| b == 0xa5));
        assert_eq!(job().write_sheet(&[0.5], &mut buffer[..long - 1]), Err(Refusal::Buffer));
        assert_eq!(job().write_sheet(&[0.5, 0.5], &mut buffer), Err(Refusal::Betas));
    }

    #[test]
    fn every_cut_and_every_tail_is_refused() {
        let bytes = job().sheet_bytes(&[0.5]).unwrap();
        for cut in 0..bytes.len() {
            assert_eq!(JobSheet::read(&bytes[..cut]), Err(Refusal::SheetRecord), "{cut}");
        }
        for tail in [&[0][..], &[5], &bytes] {
            assert_eq!(JobSheet::read(&[&bytes, tail].concat()), Err(Refusal::SheetTail));
        }
    }

    #[test]
    fn kinds_stand_in_their_order() {
        let bodies: [&[u8]; 5] = [&[1, 9, 0, 0], &[2; 13], &[3; 9], &[4; 5], &[5]];
        for last in 0..=7 {
            for (i, body) in bodies.iter().enumerate() {
                let may = match last {
                    0 => i == 0,
                    1..=4 => i >= 1 && i + 1 >= last,
                    _ => false,
                };
                assert_eq!(read_record(body, 0, last).is_ok(), may, "{} behind {last}", i + 1);
            }
        }
        assert_eq!(read_record(&[5, 0], 0, 0), Err(Refusal::SheetRecord));
        assert_eq!(read_record(&[5, 0], 0, 1), Err(Refusal::SheetTail));
        assert_eq!(read_record(&[5], usize::MAX, 1), Err(Refusal::SheetRecord));
        assert_eq!(read_record(&[5], 0, usize::MAX), Err(Refusal::SheetRecord));
    }

    #[test]
    fn a_nan_keeps_its_bits() {
        for bits in [0x7ff0_0000_0000_0001_u64, 0xfff8_1234_5678_9abc, u64::MAX] {
            let sheet = [&[1, 0, 0, 255, 3][..], &bits.to_le_bytes(), &[5]].concat();
            let Ok((Record::Beta(beta), 3, 13)) = read_record(&sheet, 4, 1) else { panic!("no beta") };
            assert_eq!(beta.to_bits(), bits);
            assert_eq!(JobSheet::read(&sheet).unwrap().betas[0].to_bits(), bits);
        }
    }

    #[test]
    fn the_records_end() {
        let bytes = job().sheet_bytes(&[]).unwrap();
        let records: Vec<_> = Records::new(&bytes).collect::<Result<_, _>>().unwrap();
        assert_eq!((records.len(), records[0], records[5]), (6, Record::Size { n: 4, floor: 3 }, Record::End));
        assert_eq!(Records::new(&bytes).stop(), bytes.len());
    }

    #[test]
    fn the_longest_sheet_is_the_limit() {
        assert_eq!(5 + 13 * limits::EDGES + 9 * limits::BETAS + 5 * limits::PAIRS, limits::SHEET_BYTES);
    }
}
