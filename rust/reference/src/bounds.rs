//! The bound on the probes of a walk.

use crate::first_checks::{check_order, check_run_count, last_end, Refusal, MAX_NUMBERS};
use crate::mask::{all_runs, named_runs};
use crate::weights::is_choice;

/// Returns the count of binary digits of `n`: the least `b` for which `n` is
/// below 2 to the power `b`, so 0 for 0.
pub fn digits(n: u64) -> u32 {
    u64::BITS - n.leading_zeros()
}

/// Returns the sum over the runs of 2 × `parts` × the digits of the run's
/// length. If some true certificate has `parts` parts, an allowance of this
/// many probes is enough, whatever the runs weigh. Refusals 1 and 3; of the
/// numbers' length only its limit is known here.
///
/// The ends do not tell how many zeros a run begins with, so the length counts
/// the numbers as lent: the sum is never below that over the runs' bins.
pub fn probe_bound(ends: &[u32], parts: u32) -> Result<u64, Refusal> {
    probe_bound_chosen(ends, all_runs(ends.len()), parts)
}

/// The same over the runs that `mask` chooses, with 13 between 1 and 3. All
/// ends are looked at.
pub fn probe_bound_chosen(ends: &[u32], mask: u64, parts: u32) -> Result<u64, Refusal> {
    check_run_count(ends)?;
    if !is_choice(mask, ends.len()) {
        return Err(Refusal::new(13, 0));
    }
    check_order(ends)?;
    if last_end(ends) > MAX_NUMBERS {
        return Err(Refusal::new(3, ends.len()));
    }
    let length = |i: usize| match i {
        0 => ends[0],
        _ => ends[i] - ends[i - 1],
    };
    let bound = |i| 2 * u64::from(parts) * u64::from(digits(length(i).into()));
    Ok(named_runs(mask).map(bound).sum())
}
