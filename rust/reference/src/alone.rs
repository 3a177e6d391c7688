//! What the first run holds alone.

use crate::first_checks::{check_ends, check_rising, check_run_count, split_runs, Refusal};
use crate::mask::other_runs;
use crate::query::Outcome;
use crate::walk::walk;
use crate::weights::Weights;
use crate::writer::{append, Writer, Written};

/// Writes the bins of run 0 that fewer than `threshold` of the other runs hold to
/// `answers`, rising, and the certificate of the other runs to `certificate`,
/// making at most `allowance` probes in these.
///
/// Returns the counts of what was written and probed, with the first refusal if
/// there is one. The answers are written after the walk: 6 and 7 leave its first
/// parts and no answer, 5 leaves the whole certificate and the answers that fit.
/// All later places of both buffers are unchanged.
pub fn query_alone(
    numbers: &[u32],
    ends: &[u32],
    threshold: u32,
    allowance: u32,
    answers: &mut [u32],
    certificate: &mut [u8],
) -> Outcome {
    let others = match checked_others(numbers, ends, threshold) {
        Ok(others) => others,
        Err(refusal) => return Outcome::refused_first(refusal),
    };
    let runs = split_runs(numbers, ends);
    // What the other runs answer are numbers of theirs, so this is never full.
    let mut held = vec![0; numbers.len()];
    let mut writer = Writer::new(allowance, &mut held, certificate);
    let end = walk(&runs, &others, threshold, &mut writer);
    let written = writer.written();
    let with_answers = |answers| Written { answers, ..written };
    if end.is_err() {
        return Outcome::of_walk(end, with_answers(0));
    }

    // They rise.
    let held = &held[..written.answers as usize];
    let mut alone = runs[0].iter().filter(|x| held.binary_search(x).is_err());
    let mut count = 0;
    let end = alone.try_for_each(|&x| append(answers, &mut count, x));
    let end = end.map_err(|full| full.number);
    Outcome::of_walk(end, with_answers(count as u64))
}

/// The first checks: 1, 2 for the threshold of all runs but the first, 3 and 4 for
/// all. Returns what the other runs weigh.
fn checked_others(numbers: &[u32], ends: &[u32], threshold: u32) -> Result<Weights, Refusal> {
    check_run_count(ends)?;
    let others = Weights::ones(other_runs(ends.len()));
    if !others.allow(threshold) {
        return Err(Refusal::new(2, threshold as usize));
    }
    check_ends(ends, numbers.len())?;
    check_rising(numbers, ends)?;
    Ok(others)
}
