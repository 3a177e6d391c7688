//! Tracefiles read on both sides, with all that is returned and written.

use crate::listing::{rooms_near, row_of, Listing, Rows};
use crate::met::Met;
use crate::printed::front;
use crate::tracefiles::sections_of;
use quorum::{Refusal, StoppedRun};
use std::fmt;

/// How a reading ended.
#[derive(Clone, Copy, Debug, PartialEq, Eq, PartialOrd, Ord)]
pub enum End {
    /// Accepted with numbers.
    Numbers,
    /// Accepted with none.
    Nothing,
    /// Refusal 4.
    NotRising,
    /// Refusal 5.
    Full,
    /// Refusal 15.
    BadRecord,
    /// Refusal 16 in a section that was opened.
    NoEnd,
    /// Refusal 16 where there is no such section.
    NoSection,
}

/// All of them.
pub const ENDS: [End; 7] = [
    End::Numbers,
    End::Nothing,
    End::NotRising,
    End::Full,
    End::BadRecord,
    End::NoEnd,
    End::NoSection,
];

impl End {
    /// The end of a reading that returns this row; `is_opened` says whether the file
    /// has the section's opening line.
    fn of([refusal, _, written]: [u64; 3], is_opened: bool) -> End {
        match (refusal, is_opened) {
            (0, _) if written > 0 => End::Numbers,
            (0, _) => End::Nothing,
            (4, _) => End::NotRising,
            (5, _) => End::Full,
            (15, _) => End::BadRecord,
            (_, true) => End::NoEnd,
            (_, false) => End::NoSection,
        }
    }
}

/// A section of a file.
#[derive(Clone, Copy)]
pub struct Section<'a> {
    /// The file.
    pub file: &'a [u8],
    /// The index of the section.
    pub index: usize,
}

impl fmt::Debug for Section<'_> {
    fn fmt(&self, f: &mut fmt::Formatter<'_>) -> fmt::Result {
        write!(f, "section {}, {}", self.index, front(self.file))
    }
}

impl Listing for Section<'_> {
    type Stopped = StoppedRun;

    fn stopped(refusal: Refusal, written: usize) -> StoppedRun {
        StoppedRun { refusal, written }
    }

    fn expect(self, row: &mut [u32]) -> [u64; 3] {
        let reading = reference::lcov_run(self.file, self.index, row);
        row_of(reading.refusal, reading.written)
    }

    fn call(self, row: &mut [u32]) -> Result<usize, StoppedRun> {
        quorum::lcov_run(self.file, self.index, row)
    }

    fn call_row(self, row: &mut [u32]) -> [u64; 3] {
        quorum::ffi::lcov_run(self.file, self.index, row)
    }
}

/// Bytes before and after a lent file which would change the reading if they
/// were taken for its own.
const BEFORE: &[u8] = b"SF:before\nDA:";
const AFTER: &[u8] = b"7,1\nend_of_record\nSF:after\nDA:1,1\nend_of_record\n";

/// Reads on both sides, compares, and counts what was seen.
#[derive(Default)]
pub struct Comparer {
    rows: Rows,
    /// How the readings ended, with the places of refusals, else the counts
    /// written.
    pub seen: Met<End>,
    /// How many files were compared.
    pub files: u64,
}

impl Comparer {
    /// Reads every section of the file up to two past the last, into rows of
    /// every kind of length.
    pub fn compare(&mut self, seed: u64, file: &[u8]) {
        let lent = [BEFORE, file, AFTER].concat();
        let file = &lent[BEFORE.len()..][..file.len()];
        self.files += 1;
        let sections = sections_of(file);
        for index in (0..sections + 2).chain([usize::MAX]) {
            let section = Section { file, index };
            let enough = file.len() / 7;
            let row = self.rows.compare(seed, section, enough);
            let is_full = End::of(row, index < sections) == End::Full;
            assert!(!is_full, "seed {seed}: {section:?}");
            for room in rooms_near(row[2] as usize, enough) {
                let row = self.rows.compare(seed, section, room);
                let [refusal, place, written] = row;
                let place = if refusal == 0 { written } else { place };
                self.seen.count(End::of(row, index < sections), place);
            }
        }
    }
}
