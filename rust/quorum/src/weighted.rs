//! Calls about runs that count for more than one.

use crate::{checked, ffi, queried, Checked, Counts, Refusal, Stopped};

/// Writes the bins that runs hold which together weigh at least `wanted` to
/// `answers`, rising, and to `certificate` the parts that show them to be all. Run
/// `i` weighs `weights[i]`, from 1 to [`MAX_WEIGHT`](crate::MAX_WEIGHT).
///
/// An answer's mask names all the runs that hold it; a gap's names runs that have
/// no number in it, and those that it leaves out weigh less than `wanted`. No
/// certificate that is true for these weights has fewer parts. Places of both
/// buffers after what was written are unchanged. With all weights 1 this is
/// [`query()`](crate::query()), result, answers and certificate.
///
/// # Errors
///
/// Refusals 1, [`BAD_WEIGHTS`](Refusal::BAD_WEIGHTS), 2, 3 and 4 of [`Refusal`], in
/// this order, which leave both buffers as they were; 2 if `wanted` is 0 or above
/// the weight of all runs. And 5 to 7 as of [`query()`](crate::query()), as soon as
/// something more is due for which nothing is left.
///
/// # Buffers and allowance
///
/// What is enough for [`query()`](crate::query()) is enough here, whatever the
/// weights: [`enough_answers`](crate::enough_answers),
/// [`enough_bytes`](crate::enough_bytes) and [`ENOUGH_PROBES`](crate::ENOUGH_PROBES),
/// and [`probe_bound(ends, d)`](crate::probe_bound()) if a certificate that is true
/// for these weights has d parts.
///
/// # Cost
///
/// As [`query()`](crate::query()): one pass over `numbers` for the first checks,
/// then, in a run whose number of bins has b binary digits, at most 2 × d × b probes,
/// d being the parts of any certificate that is true for these weights. In each
/// round the weights of the runs that stand lowest are added up until they are
/// enough, and then those of the runs that hold the bin so found. What the runs that
/// have a bin left weigh, by which the walk ends, is carried from round to round and
/// not added up anew.
///
/// # Example
///
/// {2, 5, 9} is a run at gate level that counts for three, {5, 7, 9, 12} and {1, 9}
/// are plain ones. A weight of three is wanted.
///
/// ```
/// use quorum::{check_weighted, enough_answers, enough_bytes, parts, query_weighted};
/// use quorum::{Refusal, ENOUGH_PROBES};
///
/// let (numbers, ends) = ([2, 5, 9, 5, 7, 9, 12, 1, 9], [3, 7, 9]);
/// let weights = [3, 1, 1];
/// let mut answers = [0; enough_answers(9)];
/// let mut certificate = [0; enough_bytes(9)];
/// let mut ask = |weights: &[u32], wanted| {
///     query_weighted(
///         &numbers,
///         &ends,
///         weights,
///         wanted,
///         ENOUGH_PROBES,
///         &mut answers,
///         &mut certificate,
///     )
/// };
/// // The weights of all runs together are 5.
/// let refusal = Refusal { number: Refusal::BAD_THRESHOLD, place: 6 };
/// assert_eq!(ask(&weights, 6).unwrap_err().refusal, refusal);
/// let refusal = Refusal { number: Refusal::BAD_WEIGHTS, place: 1 };
/// assert_eq!(ask(&[3, 256, 1], 3).unwrap_err().refusal, refusal);
///
/// let counts = ask(&weights, 3)?;
/// assert_eq!(answers[..counts.answers], [2, 5, 9]);
/// assert_eq!((counts.parts, counts.bytes, counts.probes()), (7, 121, 2));
///
/// let certificate = &certificate[..counts.bytes];
/// let checked = check_weighted(&numbers, &ends, &weights, 3, certificate)?;
/// assert_eq!((checked.answers, checked.parts), (3, 7));
/// // Run 0 alone holds 2.
/// let second = parts(certificate).nth(1).unwrap()?;
/// assert_eq!(second.to_string(), "hit 2 1");
/// # Ok::<(), Box<dyn std::error::Error>>(())
/// ```
pub fn query_weighted(
    numbers: &[u32],
    ends: &[u32],
    weights: &[u32],
    wanted: u32,
    allowance: u32,
    answers: &mut [u32],
    certificate: &mut [u8],
) -> Result<Counts, Stopped> {
    queried(ffi::query_weighted(
        numbers,
        ends,
        weights,
        wanted,
        allowance,
        answers,
        certificate,
    ))
}

/// Decides whether `certificate` is true for the runs, their weights and `wanted`,
/// whoever wrote it.
///
/// It is judged by weight: the runs that an answer names weigh at least `wanted`
/// together, and those that a gap does not name weigh less. A certificate that is
/// true for some weights may be false for others, and for runs without weights.
/// With all weights 1 this is [`check()`](crate::check()).
///
/// # Errors
///
/// Refusals 1, [`BAD_WEIGHTS`](Refusal::BAD_WEIGHTS), 2, 3 and 4 of [`Refusal`], in
/// this order. And 8 to 11 if the certificate is not true: the first field that is
/// wrong, each being settled before the next. An answer whose runs weigh too little,
/// and a gap that leaves out too much, is [`BAD_MASK`](Refusal::BAD_MASK), and a
/// certificate that begins at bin 0 is [`NOT_COVERING`](Refusal::NOT_COVERING) at
/// place 0, as of [`check()`](crate::check()).
///
/// # Cost
///
/// As [`check()`](crate::check()), one pass over `numbers` for the first checks, then
/// at most one more and parts × runs steps; and at most one step more for each run
/// that a part names.
///
/// # Example
///
/// ```
/// use quorum::{check, check_weighted, Refusal};
///
/// // {} and {7}; one gap from 1 to 4294967295 in which run 0 has no number.
/// let (numbers, ends) = ([7], [0, 1]);
/// let certificate = [2, 16, 0, 1, 0, 0, 0, 255, 255, 255, 255, 1, 0, 0, 0, 0, 0, 0, 0];
///
/// // Run 1 weighs 1, which is less than 2.
/// let checked = check_weighted(&numbers, &ends, &[3, 1], 2, &certificate)?;
/// assert_eq!((checked.answers, checked.parts), (0, 1));
///
/// // Here it weighs enough for 7 to be an answer.
/// let refusal = Refusal { number: Refusal::BAD_MASK, place: 0 };
/// let verdict = check_weighted(&numbers, &ends, &[3, 2], 2, &certificate);
/// assert_eq!(verdict, Err(refusal));
///
/// // Two of two runs is what the weights 1 and 1 come to.
/// let plain = check(&numbers, &ends, 2, &certificate);
/// assert_eq!(plain, check_weighted(&numbers, &ends, &[1, 1], 2, &certificate));
/// # Ok::<(), Refusal>(())
/// ```
pub fn check_weighted(
    numbers: &[u32],
    ends: &[u32],
    weights: &[u32],
    wanted: u32,
    certificate: &[u8],
) -> Result<Checked, Refusal> {
    checked(ffi::check_weighted(
        numbers,
        ends,
        weights,
        wanted,
        certificate,
    ))
}
