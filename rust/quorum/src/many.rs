//! Many questions about the same runs in one call.

use crate::refusal::tell_written;
use crate::{counted, ffi, Counts, Refusal};
use std::error::Error;
use std::fmt;

/// Asks many questions about the same runs: question `q` is which bins at least
/// `thresholds[q]` of the runs that `masks[q]` names hold.
///
/// The answers of the questions follow each other in `answers`, and so do their
/// certificates in `certificate`. Each certificate is the one that the chosen
/// runs alone would give, its masks in the numbering of all runs;
/// [`check_chosen()`](crate::check_chosen()) checks it with the question's mask.
///
/// For each question `q` that is finished, `results` gets at `2 * q` the answers
/// and at `2 * q + 1` the certificate bytes written so far in the whole call;
/// [`finished()`](crate::finished()) hands out each question's own. Places of the
/// three rows after what was written are unchanged. No questions at all are
/// accepted, with all counts 0.
///
/// # Errors
///
/// First [`BAD_RUN_COUNT`](Refusal::BAD_RUN_COUNT), [`BAD_ENDS`](Refusal::BAD_ENDS),
/// [`NOT_RISING`](Refusal::NOT_RISING) and [`BAD_ROWS`](Refusal::BAD_ROWS), then
/// for each question [`BAD_CHOICE`](Refusal::BAD_CHOICE) and
/// [`BAD_THRESHOLD`](Refusal::BAD_THRESHOLD). All of this is tested before
/// anything is written, and of all runs, chosen or not.
///
/// Then 5 to 7 of [`Refusal`] as of [`query()`](crate::query()), as soon as
/// something more is due for which nothing is left. What was written before
/// stands: that of the questions before it whole, and of the question itself the
/// first parts and answers.
///
/// # Buffers
///
/// For questions about n numbers in all, [`enough_answers(n)`](crate::enough_answers)
/// answers and [`enough_bytes(n)`](crate::enough_bytes) bytes for each question
/// are always enough, and [`enough_results`](crate::enough_results) result places
/// are needed.
///
/// # Allowance
///
/// It is one for the whole call, and no question fills it up again.
/// [`ENOUGH_PROBES`](crate::ENOUGH_PROBES) for each question are always enough; for
/// more than 97 questions that is more than an allowance's 32 bits hold. So is the
/// sum over the questions of
/// [`probe_bound_chosen(ends, mask, d)`](crate::probe_bound_chosen()), d being for
/// each question the parts of any true certificate of its chosen runs.
///
/// # Cost
///
/// One pass over `numbers`, zeros at the start of runs among them, for the first
/// checks of all questions, where a [`query()`](crate::query()) for each makes one
/// for each. Then for each question, in a chosen run whose number of bins has b
/// binary digits, at most 2 × d × b probes, d being the parts of any true
/// certificate of the chosen runs.
///
/// # Example
///
/// Of {2, 5, 9}, {5, 7, 9, 12} and {1, 9}: what two of the three hold, what both
/// of the first two hold, and what the first or the last holds.
///
/// ```
/// use quorum::{enough_results, finished, query_many, Refusal, ENOUGH_PROBES};
///
/// let (numbers, ends) = ([2, 5, 9, 5, 7, 9, 12, 1, 9], [3, 7, 9]);
/// let (masks, thresholds) = ([0b111, 0b011, 0b101], [2, 2, 1]);
/// let (mut answers, mut certificate) = ([0; 3 * 9], [0; 3 * 325]);
/// let mut results = [0; enough_results(3)];
/// let counts = query_many(
///     &numbers,
///     &ends,
///     &masks,
///     &thresholds,
///     3 * ENOUGH_PROBES,
///     &mut answers,
///     &mut certificate,
///     &mut results,
/// )?;
/// assert_eq!(answers[..counts.answers], [5, 9, 5, 9, 1, 2, 5, 9]);
/// assert_eq!((counts.parts, counts.bytes, counts.probes()), (18, 310, 5));
/// assert_eq!(results, [2, 106, 4, 193, 8, 310]);
///
/// // The first question needs 3 probes and the second 2 more.
/// let refused = query_many(
///     &numbers,
///     &ends,
///     &masks,
///     &thresholds,
///     4,
///     &mut answers,
///     &mut certificate,
///     &mut results,
/// );
/// let stopped = refused.unwrap_err();
/// assert_eq!(stopped.refusal.number, Refusal::ALLOWANCE_SPENT);
/// assert_eq!((stopped.question, stopped.refusal.place), (1, 3));
///
/// let results = &results[..enough_results(stopped.finished())];
/// let first = finished(results, &answers, &certificate).next().unwrap();
/// assert_eq!(first.answers, [5, 9]);
/// # Ok::<(), quorum::StoppedMany>(())
/// ```
#[allow(clippy::too_many_arguments)]
pub fn query_many(
    numbers: &[u32],
    ends: &[u32],
    masks: &[u64],
    thresholds: &[u32],
    allowance: u32,
    answers: &mut [u32],
    certificate: &mut [u8],
    results: &mut [u64],
) -> Result<Counts, StoppedMany> {
    let [number, place, question, written @ ..] = ffi::query_many(
        numbers,
        ends,
        masks,
        thresholds,
        allowance,
        answers,
        certificate,
        results,
    );
    let counts = counted(written);
    match number {
        0 => Ok(counts),
        _ => Err(StoppedMany {
            refusal: Refusal { number, place },
            question: question as usize,
            counts,
        }),
    }
}

/// What a refused call of many questions returns: why and at which question it
/// stopped, and what it wrote before.
///
/// `?` turns it into its [`Refusal`] where that is the error of the function.
///
/// ```
/// use quorum::{query_many, Refusal};
///
/// // {7, 9} and {7}: the second question asks for three of two runs.
/// let (mut answers, mut certificate, mut results) = ([0; 6], [0; 242], [0; 4]);
/// let refused = query_many(
///     &[7, 9, 7],
///     &[2, 3],
///     &[0b01, 0b11],
///     &[1, 3],
///     0,
///     &mut answers,
///     &mut certificate,
///     &mut results,
/// );
/// let stopped = refused.unwrap_err();
/// assert_eq!(stopped.refusal, Refusal { number: Refusal::BAD_THRESHOLD, place: 2 });
/// assert_eq!((stopped.question, stopped.finished()), (1, 0));
/// assert_eq!(
///     stopped.to_string(),
///     "question 1: refusal 2 at 2: the threshold is 0 or above the number of runs that the \
///      question is about; or the wanted weight is 0 or above that of all runs"
/// );
/// ```
#[derive(Clone, Copy, Debug, PartialEq, Eq, Hash)]
pub struct StoppedMany {
    /// Why the call stopped.
    pub refusal: Refusal,
    /// The index of the question that the refusal belongs to; 0 if it belongs to
    /// none, which holds of refusals 1, 3, 4 and 14.
    pub question: usize,
    /// What the whole call wrote and probed before, which stands: nothing for
    /// refusals 1 to 4, 13 and 14.
    pub counts: Counts,
}

impl StoppedMany {
    /// Returns how many questions were finished: those before the one that
    /// refusal 5, 6 or 7 stopped, and none for the other refusals, which are
    /// tested before the first question is asked.
    pub const fn finished(&self) -> usize {
        match self.refusal.number {
            Refusal::ANSWERS_FULL | Refusal::CERTIFICATE_FULL | Refusal::ALLOWANCE_SPENT => {
                self.question
            }
            _ => 0,
        }
    }
}

impl fmt::Display for StoppedMany {
    fn fmt(&self, f: &mut fmt::Formatter<'_>) -> fmt::Result {
        let of_all = [
            Refusal::BAD_RUN_COUNT,
            Refusal::BAD_ENDS,
            Refusal::NOT_RISING,
            Refusal::BAD_ROWS,
        ];
        if !of_all.contains(&self.refusal.number) {
            write!(f, "question {}: ", self.question)?;
        }
        write!(f, "{}", self.refusal)?;
        tell_written(f, &self.counts)
    }
}

/// Its text has the refusal's, so the refusal is no source of its own.
impl Error for StoppedMany {}

impl From<StoppedMany> for Refusal {
    fn from(stopped: StoppedMany) -> Self {
        stopped.refusal
    }
}
