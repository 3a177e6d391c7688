//! What both of two runs hold.

use crate::refusal::tell_count;
use crate::{ffi, listed, Refusal};
use std::error::Error;
use std::fmt;

/// Writes the bins that both of two runs hold to `answers`, rising, and returns how
/// many there are. They are the answers of [`query()`](crate::query()) with
/// threshold 2; no certificate is written, and no probe counted.
///
/// The runs are split by mutual partition: the middle number of the shorter one is
/// sought in the longer one by halving, and what lies below it in both, and then what
/// lies above it, is treated in the same manner. The order of the runs does not change
/// the answers. Places of `answers` after what was written are unchanged.
///
/// # Errors
///
/// [`BAD_RUN_COUNT`](Refusal::BAD_RUN_COUNT) for any number of runs but two,
/// [`BAD_ENDS`](Refusal::BAD_ENDS) and [`NOT_RISING`](Refusal::NOT_RISING), in this
/// order, which leave `answers` as it was.
///
/// And [`ANSWERS_FULL`](Refusal::ANSWERS_FULL) if one more answer is due and `answers`
/// is full. Then the least answers fill it, their number being the place. Answers that
/// exactly fill it are accepted.
///
/// # Buffers
///
/// There are at most as many answers as numbers in the shorter run, so
/// [`enough_answers(n)`](crate::enough_answers) is always enough for its n numbers, and
/// for those of both.
///
/// # Cost
///
/// One pass over `numbers` for the first checks. Then, for m bins in the shorter run
/// and n in the longer one, at most m × (b + 1) comparisons, b being the binary digits
/// of n: m pivots at most are sought, each by at most b comparisons, and one more tells
/// whether it was found. It is of the order of m × (1 + log2(n / m)). It nests no
/// deeper than m has binary digits, so at most 20 calls deep on the stack for
/// [`MAX_NUMBERS`](crate::MAX_NUMBERS) numbers in all.
///
/// # Example
///
/// ```
/// use quorum::{enough_answers, pair, Refusal};
///
/// // {2, 5, 9} and {5, 7, 9, 12}.
/// let (numbers, ends) = ([2, 5, 9, 5, 7, 9, 12], [3, 7]);
/// let mut answers = [0; enough_answers(3)];
/// let count = pair(&numbers, &ends, &mut answers)?;
/// assert_eq!(answers[..count], [5, 9]);
///
/// // There is room for one of two answers.
/// let stopped = pair(&numbers, &ends, &mut answers[..1]).unwrap_err();
/// assert_eq!(stopped.refusal, Refusal { number: Refusal::ANSWERS_FULL, place: 1 });
/// assert_eq!(answers[..stopped.answers], [5]);
///
/// // {0, 0, 5} and {0, 5}: zeros at the start of a run are no bins.
/// let count = pair(&[0, 0, 5, 0, 5], &[3, 5], &mut answers)?;
/// assert_eq!(answers[..count], [5]);
///
/// // One run is no pair.
/// let stopped = pair(&[2, 5, 9], &[3], &mut answers).unwrap_err();
/// assert_eq!(stopped.refusal, Refusal { number: Refusal::BAD_RUN_COUNT, place: 1 });
/// # Ok::<(), quorum::StoppedPair>(())
/// ```
pub fn pair(numbers: &[u32], ends: &[u32], answers: &mut [u32]) -> Result<usize, StoppedPair> {
    let row = ffi::pair(numbers, ends, answers);
    listed(row).map_err(|(refusal, answers)| StoppedPair { refusal, answers })
}

/// What a refused [`pair()`] returns: why it stopped, and how many answers it wrote
/// before.
///
/// `?` turns it into its [`Refusal`] where that is the error of the function.
///
/// ```
/// use quorum::{pair, Refusal};
///
/// let mut answers = [0; 1];
/// // {2, 4} and {2, 4}.
/// let stopped = pair(&[2, 4, 2, 4], &[2, 4], &mut answers).unwrap_err();
/// assert_eq!((stopped.answers, answers), (1, [2]));
/// assert_eq!(
///     stopped.to_string(),
///     "refusal 5 at 1: one more answer, or number of a section, is due and the buffer for it \
///      is full; written before: answers 1"
/// );
///
/// fn count(numbers: &[u32], ends: &[u32]) -> Result<usize, Refusal> {
///     Ok(pair(numbers, ends, &mut [0; 1])?)
/// }
/// assert_eq!(count(&[2, 4, 2, 4], &[2, 4]), Err(stopped.refusal));
/// ```
#[derive(Clone, Copy, Debug, PartialEq, Eq, Hash)]
pub struct StoppedPair {
    /// Why the call stopped.
    pub refusal: Refusal,
    /// How many answers it wrote before, which stand: none but for refusal 5.
    pub answers: usize,
}

impl fmt::Display for StoppedPair {
    fn fmt(&self, f: &mut fmt::Formatter<'_>) -> fmt::Result {
        tell_count(f, self.refusal, "answers", self.answers)
    }
}

/// Its text has the refusal's, so the refusal is no source of its own.
impl Error for StoppedPair {}

impl From<StoppedPair> for Refusal {
    fn from(stopped: StoppedPair) -> Self {
        stopped.refusal
    }
}
