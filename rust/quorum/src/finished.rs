//! What each finished question of a call wrote.

use std::iter::FusedIterator;

/// Hands out the answers and the certificate of each finished question, in the
/// order of the questions, from the rows that
/// [`query_many()`](crate::query_many()) wrote to.
///
/// `results` are the places of the finished questions: two for each question
/// after a call that was accepted, the first `2 * stopped.finished()` after one
/// that was [stopped](crate::StoppedMany::finished). Other rows are split as
/// they say; where a result is below the one before or beyond its buffer, the
/// piece is empty.
///
/// # Example
///
/// ```
/// use quorum::{check_chosen, finished, query_many};
///
/// // {7, 9} and {7}: what both hold, and what the first holds.
/// let (numbers, ends) = ([7, 9, 7], [2, 3]);
/// let (masks, thresholds) = ([0b11, 0b01], [2, 1]);
/// let (mut answers, mut certificate, mut results) = ([0; 6], [0; 242], [0; 4]);
/// query_many(
///     &numbers, &ends, &masks, &thresholds, 0, &mut answers, &mut certificate, &mut results,
/// )?;
///
/// let all: Vec<_> = finished(&results, &answers, &certificate).collect();
/// assert_eq!(all[0].answers, [7]);
/// assert_eq!(all[1].answers, [7, 9]);
/// for (question, (&mask, &threshold)) in all.iter().zip(masks.iter().zip(&thresholds)) {
///     check_chosen(&numbers, &ends, mask, threshold, question.certificate)?;
/// }
/// # Ok::<(), quorum::Refusal>(())
/// ```
pub const fn finished<'a>(
    results: &'a [u64],
    answers: &'a [u32],
    certificate: &'a [u8],
) -> Finished<'a> {
    Finished {
        results,
        answers,
        certificate,
        reached: [0; 2],
    }
}

/// What one question of a call wrote; [`finished()`] hands it out.
#[derive(Clone, Copy, Debug, PartialEq, Eq, Hash)]
pub struct Answered<'a> {
    /// Its answers, rising.
    pub answers: &'a [u32],
    /// Its certificate.
    pub certificate: &'a [u8],
}

/// What each finished question wrote; what [`finished()`] returns, with an
/// example.
#[derive(Clone, Debug)]
#[must_use = "iterators are lazy and do nothing unless consumed"]
pub struct Finished<'a> {
    /// The results of the questions to come.
    results: &'a [u64],
    answers: &'a [u32],
    certificate: &'a [u8],
    /// The results of the question before.
    reached: [u64; 2],
}

impl<'a> Iterator for Finished<'a> {
    type Item = Answered<'a>;

    fn next(&mut self) -> Option<Self::Item> {
        let (&reached, rest) = self.results.split_first_chunk()?;
        let [from, to] = [self.reached, reached];
        self.results = rest;
        self.reached = reached;
        Some(Answered {
            answers: piece(self.answers, from[0], to[0]),
            certificate: piece(self.certificate, from[1], to[1]),
        })
    }

    fn size_hint(&self) -> (usize, Option<usize>) {
        let count = self.results.len() / 2;
        (count, Some(count))
    }
}

impl ExactSizeIterator for Finished<'_> {}

impl FusedIterator for Finished<'_> {}

/// The places of a row from one to the one before another; none if they are
/// not there.
fn piece<T>(row: &[T], from: u64, to: u64) -> &[T] {
    row.get(from as usize..to as usize).unwrap_or_default()
}
