//! Compares the library behind `quorum`, and the program `hits`, with
//! `reference`, which is written from the specification alone. The comparisons are in `tests`; here is what
//! they share.
//!
//! Every random case is made from its own seed, which a failure prints.

#![forbid(unsafe_code)]
#![warn(missing_docs)]

pub mod alone;
pub mod between;
pub mod broken;
pub mod certificates;
pub mod cuts;
pub mod lent;
pub mod listing;
pub mod many;
pub mod met;
pub mod pair;
pub mod printed;
pub mod program;
pub mod question;
pub mod readings;
pub mod shapes;
pub mod texts;
pub mod tracefiles;
pub mod verdicts;

use std::fmt;

/// The seeds of `count` cases. Different groups have different seeds.
pub fn seeds(group: u64, count: u64) -> impl Iterator<Item = u64> {
    (0..count).map(move |case| (group << 32) + case)
}

/// Prints the first numbers of a row and the length of it.
pub struct Row<'a>(pub &'a [u32]);

impl fmt::Debug for Row<'_> {
    fn fmt(&self, f: &mut fmt::Formatter<'_>) -> fmt::Result {
        const MOST: usize = 400;
        match self.0.get(..MOST) {
            None => write!(f, "{:?}", self.0),
            Some(front) => write!(f, "{front:?} and so on, {} in all", self.0.len()),
        }
    }
}
