//! Calls about those of the runs that a mask chooses.

use crate::{bounded, checked, ffi, Checked, Refusal};

/// Decides whether `certificate` is true for the runs that `mask` names and
/// `threshold`, whoever wrote it.
///
/// The certificate is judged by the chosen runs alone: an answer names at least
/// `threshold` of them, a gap so many that the other chosen ones are fewer than
/// `threshold`, and no part names a run that is not chosen. Its masks are in the
/// numbering of all runs, as [`query_many()`](crate::query_many()) and
/// [`query_alone()`](crate::query_alone()) write them; that of the latter is true for
/// all runs but run 0. With all runs chosen this is [`check()`](crate::check()).
///
/// # Errors
///
/// Refusals 1, [`BAD_CHOICE`](Refusal::BAD_CHOICE), 2, 3 and 4 of [`Refusal`],
/// in this order; the numbers of all runs must rise, chosen or not. And 8 to 11
/// if the certificate is not true: the first field that is wrong, each being
/// settled before the next. A part that names a run that is not chosen is
/// [`BAD_MASK`](Refusal::BAD_MASK), and a certificate that begins at bin 0 is
/// [`NOT_COVERING`](Refusal::NOT_COVERING) at place 0, as of
/// [`check()`](crate::check()).
///
/// # Cost
///
/// One pass over `numbers` for the first checks, then at most one more over
/// those of the chosen runs and parts × runs steps.
///
/// # Example
///
/// ```
/// use quorum::{check_chosen, Refusal};
///
/// // {7}, {} and {9}; one gap from 1 to 4294967295 in which run 1 has no number.
/// let (numbers, ends) = ([7, 9], [1, 1, 2]);
/// let certificate = [2, 16, 0, 1, 0, 0, 0, 255, 255, 255, 255, 2, 0, 0, 0, 0, 0, 0, 0];
///
/// // No number is in both of runs 0 and 1.
/// let checked = check_chosen(&numbers, &ends, 0b011, 2, &certificate)?;
/// assert_eq!((checked.answers, checked.parts), (0, 1));
///
/// // Of runs 0 and 2 it says nothing.
/// let refusal = Refusal { number: Refusal::BAD_MASK, place: 0 };
/// assert_eq!(check_chosen(&numbers, &ends, 0b101, 2, &certificate), Err(refusal));
/// # Ok::<(), Refusal>(())
/// ```
pub fn check_chosen(
    numbers: &[u32],
    ends: &[u32],
    mask: u64,
    threshold: u32,
    certificate: &[u8],
) -> Result<Checked, Refusal> {
    checked(ffi::check_chosen(
        numbers,
        ends,
        mask,
        threshold,
        certificate,
    ))
}

/// Returns the sum, over the runs that `mask` names, of 2 × `parts` × the binary
/// digits of the run's length. If a true certificate of the chosen runs has so
/// many parts, an allowance of this many probes is enough for a question about
/// them.
///
/// An allowance of the sum of the bounds of all its questions is enough for
/// [`query_many()`](crate::query_many()), and one of the bound with all runs chosen
/// but run 0 for [`query_alone()`](crate::query_alone()). The numbers are counted as
/// lent, as by [`probe_bound()`](crate::probe_bound()), which this is with all runs
/// chosen.
///
/// # Errors
///
/// [`BAD_RUN_COUNT`](Refusal::BAD_RUN_COUNT), [`BAD_CHOICE`](Refusal::BAD_CHOICE)
/// and [`BAD_ENDS`](Refusal::BAD_ENDS), in this order; the last for any end that
/// is below the one before, of a chosen run or not, or a last end above
/// [`MAX_NUMBERS`](crate::MAX_NUMBERS).
///
/// # Cost
///
/// One pass over `ends`.
///
/// # Example
///
/// ```
/// use quorum::{probe_bound_chosen, Refusal};
///
/// // Runs of 3, 4 and 2 numbers have lengths of 2, 3 and 2 digits.
/// let ends = [3, 7, 9];
/// assert_eq!(probe_bound_chosen(&ends, 0b011, 5)?, 2 * 5 * (2 + 3));
/// assert_eq!(probe_bound_chosen(&ends, 0b101, 8)?, 2 * 8 * (2 + 2));
///
/// let refusal = Refusal { number: Refusal::BAD_CHOICE, place: 0 };
/// assert_eq!(probe_bound_chosen(&ends, 0b1000, 5), Err(refusal));
/// # Ok::<(), Refusal>(())
/// ```
pub fn probe_bound_chosen(ends: &[u32], mask: u64, parts: u32) -> Result<u64, Refusal> {
    bounded(ffi::probe_bound_chosen(ends, mask, parts))
}
