//! The limits of a query, and what is always enough for one.

use crate::certificate::{ANSWER_SIZE, GAP_SIZE};

/// The most runs of a query: one for each bit of a mask.
///
/// ```
/// assert_eq!(quorum::MAX_RUNS, 64);
/// ```
pub const MAX_RUNS: usize = 64;

/// The most numbers of all runs together.
///
/// ```
/// assert_eq!(quorum::MAX_NUMBERS, 1_048_576);
/// ```
pub const MAX_NUMBERS: usize = 1_048_576;

/// The largest weight of a run; the smallest is 1.
///
/// ```
/// assert_eq!(quorum::MAX_WEIGHT, 255);
/// ```
pub const MAX_WEIGHT: u32 = 255;

/// The first bin. 0 is none: at the start of a run zeros mark hits that could not
/// be mapped, and elsewhere a 0 is refused.
///
/// ```
/// assert_eq!(quorum::FIRST_BIN, 1);
/// ```
pub const FIRST_BIN: u32 = 1;

/// The last bin, which is the largest number that a run can hold. The parts of
/// a certificate cover the bins from [`FIRST_BIN`] to this one.
///
/// ```
/// assert_eq!(quorum::LAST_BIN, 4_294_967_295);
/// ```
pub const LAST_BIN: u32 = u32::MAX;

/// An allowance that is enough for one question about any runs, with weights or
/// without: refusal [`ALLOWANCE_SPENT`](crate::Refusal::ALLOWANCE_SPENT) never occurs
/// with it, nor with a larger one such as `u32::MAX`. Many questions in one call
/// need at most this for each of them, and [`query_alone()`](crate::query_alone())
/// needs at most this too.
///
/// A search moves its run on by at least one number. So in a run of n bins
/// there are at most n searches, each of at most 2 × b probes, b being the
/// binary digits of n: the sum of 2 × n × b over the runs is enough (proved). So
/// is 2 × n × b for the n numbers of all runs together, which is no smaller; this
/// is that number for [`MAX_NUMBERS`].
///
/// ```
/// use quorum::{ENOUGH_PROBES, MAX_NUMBERS};
///
/// let digits = usize::BITS - MAX_NUMBERS.leading_zeros();
/// assert_eq!(ENOUGH_PROBES, 2 * MAX_NUMBERS as u32 * digits);
/// ```
pub const ENOUGH_PROBES: u32 = 44_040_192;

/// A length of the answer buffer that is enough for any runs of so many
/// numbers, with weights or without: refusal
/// [`ANSWERS_FULL`](crate::Refusal::ANSWERS_FULL) never occurs (proved). Many
/// questions in one call need at most this for each of them.
/// [`query_alone()`](crate::query_alone()) needs at most this for the numbers of the
/// first run, and [`pair()`](crate::pair()) for those of the shorter run (proved).
///
/// ```
/// assert_eq!(quorum::enough_answers(9), 9);
/// ```
pub const fn enough_answers(numbers: usize) -> usize {
    numbers
}

/// A length of the certificate buffer that is enough for any runs of so many
/// numbers, with weights or without, 34 × `numbers` + 19: refusal
/// [`CERTIFICATE_FULL`](crate::Refusal::CERTIFICATE_FULL) never occurs (proved).
/// `usize::MAX` stands for a length above it, of more numbers than a query
/// takes.
///
/// There may be a gap and an answer for each number, and a gap at the end. Many
/// questions in one call need at most this for each of them.
/// [`query_alone()`](crate::query_alone()) needs at most this for the numbers of the
/// other runs.
///
/// ```
/// let mut certificate = [0; quorum::enough_bytes(9)];
/// assert_eq!(certificate.len(), 325);
/// ```
pub const fn enough_bytes(numbers: usize) -> usize {
    numbers
        .saturating_mul(GAP_SIZE + ANSWER_SIZE)
        .saturating_add(GAP_SIZE)
}

/// The length of the row of results that so many questions need: two places for
/// each. `usize::MAX` stands for a length above it.
///
/// ```
/// let mut results = [0; quorum::enough_results(3)];
/// assert_eq!(results.len(), 6);
/// ```
pub const fn enough_results(questions: usize) -> usize {
    questions.saturating_mul(2)
}
