//! The checks that come before a walk and before a certificate's fields.

use crate::bins::{bins, first_not_rising};
use crate::weights::{Weighting, Weights};

/// The largest number of runs: one for each bit of a mask.
pub const MAX_RUNS: usize = 64;

/// The largest count of numbers in all runs together.
pub const MAX_NUMBERS: usize = 1_048_576;

/// A refusal: its number in docs/SPECIFICATION.md, 'The refusals', and its place.
#[derive(Clone, Copy, Debug, PartialEq, Eq)]
pub struct Refusal {
    /// The number of the refusal.
    pub number: u8,
    /// What the place counts depends on the number.
    pub place: u64,
}

impl Refusal {
    pub(crate) fn new(number: u8, place: usize) -> Self {
        Refusal {
            number,
            place: place as u64,
        }
    }
}

/// Returns `Ok` if the runs and the threshold pass the first checks, else the
/// first refusal, of number 1 to 4, in the order of the table.
pub fn first_checks(numbers: &[u32], ends: &[u32], threshold: u32) -> Result<(), Refusal> {
    first_checks_by(numbers, ends, Weighting::Plain, threshold)
}

/// The same for any weighting, with 13 of a mask or 17 of weights between 1 and
/// 2. Runs that are not chosen are looked at too, but for the threshold.
pub fn first_checks_by(
    numbers: &[u32],
    ends: &[u32],
    weighting: Weighting,
    threshold: u32,
) -> Result<(), Refusal> {
    checked_weights(numbers, ends, weighting, threshold)?;
    Ok(())
}

/// Returns the weights if the first checks pass.
pub(crate) fn checked_weights(
    numbers: &[u32],
    ends: &[u32],
    weighting: Weighting,
    threshold: u32,
) -> Result<Weights, Refusal> {
    check_run_count(ends)?;
    let weights = weighting.weights(ends.len())?;
    if !weights.allow(threshold) {
        return Err(Refusal::new(2, threshold as usize));
    }
    check_ends(ends, numbers.len())?;
    check_rising(numbers, ends)?;
    Ok(weights)
}

/// Refusal 1.
pub(crate) fn check_run_count(ends: &[u32]) -> Result<(), Refusal> {
    match ends.len() {
        1..=MAX_RUNS => Ok(()),
        k => Err(Refusal::new(1, k)),
    }
}

/// Refusal 3, for ends of so many numbers.
pub(crate) fn check_ends(ends: &[u32], numbers: usize) -> Result<(), Refusal> {
    check_order(ends)?;
    let fits = last_end(ends) == numbers && numbers <= MAX_NUMBERS;
    fits.then_some(()).ok_or(Refusal::new(3, ends.len()))
}

/// Refusal 3 as far as an end falls.
pub(crate) fn check_order(ends: &[u32]) -> Result<(), Refusal> {
    // The first end has none before it and cannot fall.
    match ends.windows(2).position(|pair| pair[1] < pair[0]) {
        Some(i) => Err(Refusal::new(3, i + 1)),
        None => Ok(()),
    }
}

/// The last end; 0 if there is none.
pub(crate) fn last_end(ends: &[u32]) -> usize {
    ends.last().map_or(0, |&end| end as usize)
}

/// Refusal 4, for ends that fit the numbers. Its place is among the numbers as
/// lent, so the zeros that runs begin with count in it.
pub(crate) fn check_rising(numbers: &[u32], ends: &[u32]) -> Result<(), Refusal> {
    let mut start = 0;
    for &end in ends {
        let end = end as usize;
        if let Some(i) = first_not_rising(&numbers[start..end]) {
            return Err(Refusal::new(4, start + i));
        }
        start = end;
    }
    Ok(())
}

/// Returns the bins of the runs as slices of `numbers`. Those from `ends.len()`
/// on are empty, and so are those of a run whose ends do not fit the numbers,
/// which the first checks refuse.
pub fn split_runs<'a>(numbers: &'a [u32], ends: &[u32]) -> [&'a [u32]; MAX_RUNS] {
    let mut runs: [&[u32]; MAX_RUNS] = [&[]; MAX_RUNS];
    let mut start = 0;
    for (run, &end) in runs.iter_mut().zip(ends) {
        let end = end as usize;
        *run = bins(numbers.get(start..end).unwrap_or(&[]));
        start = end;
    }
    runs
}
