//! Masks of runs: bit `i` speaks of run `i`.

use crate::first_checks::MAX_RUNS;

/// Returns the mask of run `i`.
pub(crate) fn bit(i: usize) -> u64 {
    1 << i
}

/// Returns the mask of all `k` runs. With 64 runs, or more, every bit names
/// one.
pub fn all_runs(k: usize) -> u64 {
    let beyond = MAX_RUNS.saturating_sub(k) as u32;
    // With no run at all every bit would be shifted out, which `>>` does not do.
    u64::MAX.checked_shr(beyond).unwrap_or(0)
}

/// Returns the mask of all `k` runs but the first.
pub fn other_runs(k: usize) -> u64 {
    all_runs(k) & !bit(0)
}

/// Returns the runs that a mask names, in rising order.
pub fn named_runs(mut mask: u64) -> impl Iterator<Item = usize> {
    std::iter::from_fn(move || {
        if mask == 0 {
            return None;
        }
        let i = mask.trailing_zeros() as usize;
        mask &= mask - 1;
        Some(i)
    })
}
