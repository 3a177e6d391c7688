//! Calls that write one row of numbers, made on both sides, with all that they
//! return and write.

use crate::lent::{noise, Lent};
use quorum::Refusal;
use std::fmt;

/// A call that writes one row of numbers. Its text tells it in a failure.
pub trait Listing: Copy + fmt::Debug {
    /// What the wrapper returns for a refused call.
    type Stopped: fmt::Debug + PartialEq;

    /// That for a refusal, and how many numbers were written before.
    fn stopped(refusal: Refusal, written: usize) -> Self::Stopped;

    /// Makes the call on the side of the reference. Returns the row of the C
    /// interface.
    fn expect(self, row: &mut [u32]) -> [u64; 3];

    /// Makes the library's.
    fn call(self, row: &mut [u32]) -> Result<usize, Self::Stopped>;

    /// The same with the row that the C interface writes.
    fn call_row(self, row: &mut [u32]) -> [u64; 3];
}

/// A refusal, its place and a count, which are 0, 0 and the count if there is none.
pub fn row_of(refusal: Option<reference::Refusal>, written: u64) -> [u64; 3] {
    match refusal {
        None => [0, 0, written],
        Some(refusal) => [refusal.number.into(), refusal.place, written],
    }
}

/// The row of the C interface in the terms of `quorum`.
pub fn result_of<L: Listing>([number, place, written]: [u64; 3]) -> Result<usize, L::Stopped> {
    let written = written as usize;
    match number {
        0 => Ok(written),
        _ => Err(L::stopped(Refusal { number, place }, written)),
    }
}

/// The row of each side.
#[derive(Default)]
pub struct Rows {
    expected: Lent<u32>,
    found: Lent<u32>,
}

impl Rows {
    /// Makes the call with a row of so many places, compares what both sides return
    /// and the whole of both rows with their margins, by the wrapper and by the C
    /// interface. Returns the row of the C interface.
    pub fn compare<L: Listing>(&mut self, seed: u64, call: L, room: usize) -> [u64; 3] {
        let context = || format!("seed {seed}: room {room}, {call:?}");
        let fill = |row: &mut Lent<u32>| row.fill(room, |i| noise(seed, i) as u32);
        fill(&mut self.expected);
        let expected = call.expect(self.expected.lend());

        fill(&mut self.found);
        let result = call.call(self.found.lend());
        assert_eq!(result, result_of::<L>(expected), "{}", context());
        let place = self.found.difference(&self.expected);
        assert_eq!(place, None, "{}", context());

        fill(&mut self.found);
        let row = call.call_row(self.found.lend());
        assert_eq!(row, expected, "{}", context());
        let place = self.found.difference(&self.expected);
        assert_eq!(place, None, "{}", context());
        expected
    }

    /// The row as the library left it in the last comparison.
    pub fn found(&self) -> &[u32] {
        self.found.read()
    }
}

/// Rows of every kind of length for a call that writes so many numbers, of which
/// `enough` are always enough.
pub fn rooms_near(exact: usize, enough: usize) -> Vec<usize> {
    let mut rooms = vec![0, exact.saturating_sub(1), exact, exact + 1, enough + 9];
    rooms.dedup();
    rooms
}
