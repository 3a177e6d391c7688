//! What the first run holds alone.

use crate::{ffi, queried, Counts, Stopped};

/// Writes the bins of run 0 that fewer than `threshold` of the other runs hold to
/// `answers`, rising: what a new test, lent as run 0, found alone.
///
/// They are the bins of run 0 that are no answer of the question about runs 1 to
/// k − 1, and `certificate` gets the certificate of that question. So its parts of
/// kind answer are the bins that at least `threshold` of the other runs hold, and no
/// mask names run 0; run `i` is bit `i`. [`check_chosen()`](crate::check_chosen()) checks it with a
/// mask of all runs but run 0. No true certificate of the other runs has fewer
/// parts. Places of both buffers after what was written are unchanged.
///
/// # Errors
///
/// Refusals 1 to 4 of [`Refusal`](crate::Refusal), which leave both buffers as they
/// were: 2 if `threshold` is 0 or above the number of the other runs, so always of
/// one run; 3 and 4 for run 0 too.
///
/// Then 6 and 7 as of [`query()`](crate::query()), as soon as the walk of the other
/// runs has something more due for which nothing is left. The parts written before
/// stand. The answers are written after the walk, so there are none:
/// [`Counts::answers`] is 0, and the answer buffer is as it was.
///
/// Last 5 if not all answers fit. Then the whole certificate stands, the place being
/// the number of its parts, and the answer buffer is full of the least ones.
///
/// # Buffers
///
/// [`enough_answers(n)`](crate::enough_answers) answers are always enough for the n
/// numbers of run 0, and [`enough_bytes(n)`](crate::enough_bytes) bytes for the n
/// numbers of the other runs. So are those for the numbers of all.
///
/// # Allowance
///
/// It is held against the probes in the other runs; reading run 0 is no probe. What
/// is enough for a question about the other runs is enough here:
/// [`ENOUGH_PROBES`](crate::ENOUGH_PROBES), and
/// [`probe_bound_chosen(ends, mask, d)`](crate::probe_bound_chosen()), the mask
/// naming all runs but run 0, if a true certificate of the other runs has d parts.
///
/// # Cost
///
/// One pass over `numbers` for the first checks, those of run 0 included. Then the
/// walk of the other runs as for a [`query()`](crate::query()) about them alone: in
/// a run whose number of bins has b binary digits, at most 2 × d × b probes, d being
/// the parts of any true certificate of the other runs. Then one pass over the
/// certificate, up to run 0's last bin, and run 0 together.
///
/// # Example
///
/// The new test reached {2, 5, 8, 9}; the others reached {2, 5, 9}, {5, 7, 9, 12}
/// and {1, 9}. Which of its bins do fewer than two of these hold?
///
/// ```
/// use quorum::{check_chosen, probe_bound_chosen, query_alone, Refusal, ENOUGH_PROBES};
///
/// let numbers = [2, 5, 8, 9, 2, 5, 9, 5, 7, 9, 12, 1, 9];
/// let ends = [4, 7, 11, 13];
/// let others = 0b1110;
/// let (mut answers, mut certificate) = ([0; 4], [0; 325]);
/// let mut ask = |allowance, room| {
///     let answers = &mut answers[..room];
///     query_alone(&numbers, &ends, 2, allowance, answers, &mut certificate)
/// };
/// // There is room for one of two answers: all parts are written.
/// let stopped = ask(ENOUGH_PROBES, 1).unwrap_err();
/// let refusal = Refusal { number: Refusal::ANSWERS_FULL, place: 6 };
/// assert_eq!((stopped.refusal, stopped.counts.answers), (refusal, 1));
///
/// // The third probe is one too many: no answer is written.
/// let stopped = ask(2, 4).unwrap_err();
/// let refusal = Refusal { number: Refusal::ALLOWANCE_SPENT, place: 4 };
/// assert_eq!((stopped.refusal, stopped.counts.answers), (refusal, 0));
///
/// let allowance = probe_bound_chosen(&ends, others, 6)?;
/// assert_eq!(allowance, 2 * 6 * (2 + 3 + 2));
/// let counts = ask(allowance as u32, 4)?;
/// assert_eq!(answers[..counts.answers], [2, 8]);
/// assert_eq!((counts.parts, counts.bytes, counts.probes()), (6, 106, 3));
///
/// // Two of the other runs hold 5, and two hold 9.
/// let checked = check_chosen(&numbers, &ends, others, 2, &certificate[..counts.bytes])?;
/// assert_eq!((checked.answers, checked.parts), (2, 6));
/// # Ok::<(), Box<dyn std::error::Error>>(())
/// ```
pub fn query_alone(
    numbers: &[u32],
    ends: &[u32],
    threshold: u32,
    allowance: u32,
    answers: &mut [u32],
    certificate: &mut [u8],
) -> Result<Counts, Stopped> {
    queried(ffi::query_alone(
        numbers,
        ends,
        threshold,
        allowance,
        answers,
        certificate,
    ))
}
