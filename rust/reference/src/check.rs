//! The checker of certificates.

use crate::bins::FIRST_BIN;
use crate::certificate::{read_field, Part};
use crate::first_checks::{checked_weights, split_runs, Refusal};
use crate::mask::named_runs;
use crate::weights::{Weighting, Weights};

/// What [`check()`] returns.
#[derive(Clone, Copy, Debug, PartialEq, Eq)]
pub enum Verdict {
    /// The certificate is true.
    Valid {
        /// How many of its parts are answers.
        answers: u64,
        /// How many parts it has.
        parts: u64,
    },
    /// The runs, the mask, the weights or the threshold fail the first checks,
    /// or the certificate is not true.
    Invalid {
        /// The number of the refusal: 1 to 4, 8 to 11, 13 or 17.
        number: u8,
        /// The place that the table gives for it: for 8 to 11 an offset in
        /// the certificate.
        place: u64,
    },
}

/// Returns `Valid` if the runs and the threshold pass the first checks and
/// the certificate is true for them, else the first refusal. Each field is
/// settled fully before the next.
pub fn check(numbers: &[u32], ends: &[u32], threshold: u32, certificate: &[u8]) -> Verdict {
    check_by(numbers, ends, Weighting::Plain, threshold, certificate)
}

/// The same for the runs that `mask` chooses, with 13 among the first checks.
/// A part that names another run is refused as 10.
pub fn check_chosen(
    numbers: &[u32],
    ends: &[u32],
    mask: u64,
    threshold: u32,
    certificate: &[u8],
) -> Verdict {
    check_by(
        numbers,
        ends,
        Weighting::Chosen(mask),
        threshold,
        certificate,
    )
}

/// The same for runs that have weights, with 17 among the first checks. What a
/// part names, or leaves out, is weighed.
pub fn check_weighted(
    numbers: &[u32],
    ends: &[u32],
    weights: &[u32],
    wanted: u32,
    certificate: &[u8],
) -> Verdict {
    check_by(
        numbers,
        ends,
        Weighting::Given(weights),
        wanted,
        certificate,
    )
}

/// The same for any weighting.
pub fn check_by(
    numbers: &[u32],
    ends: &[u32],
    weighting: Weighting,
    threshold: u32,
    certificate: &[u8],
) -> Verdict {
    match check_fields(numbers, ends, weighting, threshold, certificate) {
        Ok((answers, parts)) => Verdict::Valid { answers, parts },
        Err(Refusal { number, place }) => Verdict::Invalid { number, place },
    }
}

fn check_fields(
    numbers: &[u32],
    ends: &[u32],
    weighting: Weighting,
    threshold: u32,
    certificate: &[u8],
) -> Result<(u64, u64), Refusal> {
    let weights = checked_weights(numbers, ends, weighting, threshold)?;
    // What is left of each run. Parts rise, so bins below one are done with.
    let mut unseen = split_runs(numbers, ends);
    let (mut answers, mut parts) = (0, 0);
    // The first bin not covered; 2^32 once all are covered, which no field's
    // first number equals.
    let mut next = u64::from(FIRST_BIN);
    let mut rest = certificate;
    while !rest.is_empty() {
        let offset = certificate.len() - rest.len();
        let Some((part, after)) = read_field(rest) else {
            return Err(Refusal::new(8, offset));
        };
        if u64::from(part.first()) != next || part.last() < part.first() {
            return Err(Refusal::new(9, offset));
        }
        if !names_enough(&part, &weights, threshold) {
            return Err(Refusal::new(10, offset));
        }
        if named_runs(part.mask()).any(|i| contradicts(&mut unseen[i], &part)) {
            return Err(Refusal::new(11, offset));
        }
        next = u64::from(part.last()) + 1;
        answers += u64::from(matches!(part, Part::Answer { .. }));
        parts += 1;
        rest = after;
    }
    if next <= u64::from(u32::MAX) {
        return Err(Refusal::new(9, certificate.len()));
    }
    Ok((answers, parts))
}

/// Whether the part names only chosen runs, and those that it names (an answer)
/// weigh enough or those that it leaves out (a gap) do not.
fn names_enough(part: &Part, weights: &Weights, threshold: u32) -> bool {
    let (chosen, named) = (weights.chosen(), part.mask());
    let is_enough = match part {
        Part::Answer { .. } => weights.of(named) >= threshold,
        Part::Gap { .. } => weights.of(chosen & !named) < threshold,
    };
    named & !chosen == 0 && is_enough
}

/// Whether a run named by the part contradicts it. Drops the bins of the run
/// that are below the part.
fn contradicts(unseen: &mut &[u32], part: &Part) -> bool {
    while unseen.first().is_some_and(|&x| x < part.first()) {
        *unseen = &unseen[1..];
    }
    let has_one = unseen.first().is_some_and(|&x| x <= part.last());
    match part {
        Part::Answer { .. } => !has_one,
        Part::Gap { .. } => has_one,
    }
}
