//! What the program `hits` prints, compared with the reference.

use crate::met::Met;
use crate::program::{self, print_of};
use std::path::PathBuf;

/// Runs the program and counts its refusals; 0 stands for none.
pub struct Comparer {
    program: PathBuf,
    /// With the places of each; where there is none, the halving probes.
    seen: Met<u64>,
}

impl Comparer {
    /// The program that [`program::hits`] finds, with nothing compared yet.
    ///
    /// # Panics
    ///
    /// If it is missing.
    pub fn of_hits() -> Comparer {
        Comparer {
            program: program::hits(),
            seen: Met::default(),
        }
    }

    /// Compares what both print for the input.
    ///
    /// # Panics
    ///
    /// If they differ.
    pub fn compare(&mut self, name: &str, input: &[u8]) {
        self.compare_pieces(name, &[input], false);
    }

    /// The same for an input that is made from a seed.
    ///
    /// # Panics
    ///
    /// If they differ.
    pub fn compare_seed(&mut self, seed: u64, input: &[u8]) {
        self.compare(&format!("seed {seed}"), input);
    }

    /// The same for an input that is handed to the program in pieces, and
    /// after which a read fails if `failed` says so.
    ///
    /// # Panics
    ///
    /// If they differ.
    pub fn compare_pieces(&mut self, name: &str, pieces: &[&[u8]], failed: bool) {
        let input = pieces.concat();
        let printed = print_of(&self.program, pieces, failed);
        let expected = reference::hits(&input, failed);
        assert!(
            printed == expected,
            "{name}, failed {failed}: {} bytes, {}\nprinted {}\nexpected {}",
            input.len(),
            front(&input),
            front(&printed),
            front(&expected)
        );
        let text = String::from_utf8(expected).expect("it is ASCII");
        let mut words = text.split_whitespace();
        let number = |word: Option<&str>| -> u64 {
            let number = word.and_then(|word| word.parse().ok());
            number.expect("a number")
        };
        let (refusal, place) = match words.next() {
            Some("refuse") => (number(words.next()), number(words.next())),
            _ => (0, number(words.last())),
        };
        self.seen.count(refusal, place);
    }

    /// Each of these refusals was met so often, and at several places.
    ///
    /// # Panics
    ///
    /// If one was not.
    pub fn met(&self, refusals: &[(u64, usize, usize)]) {
        self.seen.met("by refusal", refusals);
    }
}

/// The first bytes, for a failure's message.
pub fn front(bytes: &[u8]) -> String {
    const MOST: usize = 600;
    match bytes.get(..MOST) {
        None => format!("\"{}\"", bytes.escape_ascii()),
        Some(front) => format!("\"{}\" and so on", front.escape_ascii()),
    }
}
