//! Runs from LCOV tracefiles.

use crate::refusal::tell_count;
use crate::{ffi, listed, Refusal};
use std::error::Error;
use std::fmt;

/// Reads one section of an LCOV tracefile as one run: writes the line number of
/// each `DA:` record whose count is above 0 to `run`, in the order met, and
/// returns how many it wrote.
///
/// A section opens at a line that begins with `SF:` while none is open, and closes
/// at the next line that is exactly `end_of_record`; `section` is its index from 0.
/// Other sections, other records and a third value on a `DA:` line are passed
/// over, and the file is not read past the section's end. Lines end with byte 10,
/// which the last may lack. Byte 13 is a byte like any other, so `end_of_record`
/// followed by it closes nothing.
///
/// Places of `run` after what was written are unchanged, also of an accepted call.
///
/// # Errors
///
/// [`StoppedRun::written`] tells how many numbers were written before; these stand.
///
/// * [`BAD_RECORD`](Refusal::BAD_RECORD) for a `DA:` line of the section, whatever
///   its count, that is not digits for a number from 1 to 4294967295, a comma,
///   digits, then a comma or its end. Leading zeros are allowed, and a count may
///   have any number of digits.
/// * [`NOT_RISING`](Refusal::NOT_RISING) for a number that is not above the one
///   written before it. A record of count 0 is left out before this is tested.
/// * [`ANSWERS_FULL`](Refusal::ANSWERS_FULL) if one more number is due and `run`
///   is full. A row that is exactly filled is accepted.
/// * [`NO_SECTION`](Refusal::NO_SECTION) if the file ends before a section of that
///   index has closed.
///
/// # Buffers
///
/// A seventh of the file's length, `file.len() / 7`, is always enough: a record
/// that gives a number has at least the seven bytes of `DA:1,1` and its line end,
/// and the `SF:` line before it makes up for a line end that the last one lacks.
/// Refusal 5 then never occurs.
///
/// # The run in a question
///
/// What is written rises and is at least 1, after a refusal too. So a question
/// never refuses it as [`NOT_RISING`](Refusal::NOT_RISING), and it has no 0 that
/// would be passed over. But there may be more numbers than the
/// [`MAX_NUMBERS`](crate::MAX_NUMBERS) that a question takes for all its runs
/// together; the question then refuses them as [`BAD_ENDS`](Refusal::BAD_ENDS).
///
/// # Cost
///
/// One pass over the file up to the end of the section; nothing is copied but the
/// numbers.
///
/// # Example
///
/// The lines that both of two tests reached.
///
/// ```
/// use quorum::{enough_answers, enough_bytes, lcov_run, query, Refusal, ENOUGH_PROBES};
///
/// let first = b"TN:a\nSF:a.c\nDA:1,1\nDA:2,0\nDA:3,5,abc\nend_of_record\n";
/// let second = b"TN:b\nSF:a.c\nDA:1,0\nDA:2,4\nDA:3,2\nend_of_record\n";
/// let mut numbers = vec![0; (first.len() + second.len()) / 7];
/// let middle = lcov_run(first, 0, &mut numbers)?;
/// let last = middle + lcov_run(second, 0, &mut numbers[middle..])?;
/// numbers.truncate(last);
/// assert_eq!(numbers, [1, 3, 2, 3]);
///
/// let mut answers = vec![0; enough_answers(last)];
/// let mut certificate = vec![0; enough_bytes(last)];
/// let ends = [middle as u32, last as u32];
/// let counts = query(&numbers, &ends, 2, ENOUGH_PROBES, &mut answers, &mut certificate)?;
/// assert_eq!(answers[..counts.answers], [3]);
///
/// let stopped = lcov_run(first, 1, &mut []).unwrap_err();
/// assert_eq!(stopped.refusal, Refusal { number: Refusal::NO_SECTION, place: 51 });
/// # Ok::<(), Box<dyn std::error::Error>>(())
/// ```
pub fn lcov_run(file: &[u8], section: usize, run: &mut [u32]) -> Result<usize, StoppedRun> {
    let row = ffi::lcov_run(file, section, run);
    listed(row).map_err(|(refusal, written)| StoppedRun { refusal, written })
}

/// What a refused reading of a tracefile returns: why it stopped, and how many
/// numbers it wrote before.
///
/// `?` turns it into its [`Refusal`] where that is the error of the function.
///
/// ```
/// use quorum::{lcov_run, Refusal};
///
/// let mut run = [0; 3];
/// let stopped = lcov_run(b"SF:a.c\nDA:4,1\nDA:7,x\nend_of_record\n", 0, &mut run).unwrap_err();
/// assert_eq!(stopped.refusal, Refusal { number: Refusal::BAD_RECORD, place: 14 });
/// assert_eq!(run[..stopped.written], [4]);
/// assert_eq!(
///     stopped.to_string(),
///     "refusal 15 at 14: a DA: line is not a number from 1 to 4294967295, a comma, a count, \
///      and then a comma or the line's end; written before: numbers 1"
/// );
/// ```
#[derive(Clone, Copy, Debug, PartialEq, Eq, Hash)]
pub struct StoppedRun {
    /// Why the reading stopped.
    pub refusal: Refusal,
    /// How many numbers it wrote before, which stand.
    pub written: usize,
}

impl fmt::Display for StoppedRun {
    fn fmt(&self, f: &mut fmt::Formatter<'_>) -> fmt::Result {
        tell_count(f, self.refusal, "numbers", self.written)
    }
}

/// Its text has the refusal's, so the refusal is no source of its own.
impl Error for StoppedRun {}

impl From<StoppedRun> for Refusal {
    fn from(stopped: StoppedRun) -> Self {
        stopped.refusal
    }
}
