//! The query, which the specification calls a question.

use crate::first_checks::{checked_weights, split_runs, Refusal};
use crate::walk::walk;
use crate::weights::Weighting;
use crate::writer::{Writer, Written};

/// What [`query()`], [`query_weighted()`] and
/// [`query_alone()`](crate::query_alone()) return.
#[derive(Clone, Copy, Debug, PartialEq, Eq)]
pub enum Outcome {
    /// The walk reached its end.
    Accepted {
        /// How many answers were written.
        answers: u64,
        /// How many parts were written.
        parts: u64,
        /// How many certificate bytes were written.
        bytes: u64,
        /// How many probes were made by doubling.
        doublings: u64,
        /// How many probes were made by halving.
        halvings: u64,
    },
    /// The first checks or the walk met a refusal.
    Refused {
        /// The number of the refusal: 1 to 7 or 17.
        number: u8,
        /// The place that the table gives for it: for 5 to 7 the number of
        /// parts written.
        place: u64,
        /// How many answers were written.
        answers: u64,
        /// How many certificate bytes were written.
        bytes: u64,
        /// How many probes were made by doubling.
        doublings: u64,
        /// How many probes were made by halving.
        halvings: u64,
    },
}

impl Outcome {
    /// What the first checks refuse: nothing was written or probed.
    pub(crate) fn refused_first(refusal: Refusal) -> Self {
        let Refusal { number, place } = refusal;
        Outcome::Refused {
            number,
            place,
            answers: 0,
            bytes: 0,
            doublings: 0,
            halvings: 0,
        }
    }

    /// What comes of a walk, with the number of the refusal if there is one.
    pub(crate) fn of_walk(end: Result<(), u8>, written: Written) -> Self {
        let Written {
            answers,
            parts,
            bytes,
            doublings,
            halvings,
        } = written;
        match end {
            Ok(()) => Outcome::Accepted {
                answers,
                parts,
                bytes,
                doublings,
                halvings,
            },
            Err(number) => Outcome::Refused {
                number,
                place: parts,
                answers,
                bytes,
                doublings,
                halvings,
            },
        }
    }
}

/// Writes the bins that at least `threshold` of the runs hold to `answers`
/// and the certificate to `certificate`, making at most `allowance` probes.
///
/// Returns the counts of what was written and probed, with the first refusal
/// if there is one. What was written before a refusal stands; all later
/// places of both buffers are unchanged.
pub fn query(
    numbers: &[u32],
    ends: &[u32],
    threshold: u32,
    allowance: u32,
    answers: &mut [u32],
    certificate: &mut [u8],
) -> Outcome {
    let weighting = Weighting::Plain;
    query_by(
        numbers,
        ends,
        weighting,
        threshold,
        allowance,
        answers,
        certificate,
    )
}

/// The same for runs that have weights, with 17 among the first checks: those
/// that hold an answer weigh at least `wanted`.
pub fn query_weighted(
    numbers: &[u32],
    ends: &[u32],
    weights: &[u32],
    wanted: u32,
    allowance: u32,
    answers: &mut [u32],
    certificate: &mut [u8],
) -> Outcome {
    let weighting = Weighting::Given(weights);
    query_by(
        numbers,
        ends,
        weighting,
        wanted,
        allowance,
        answers,
        certificate,
    )
}

/// The same for any weighting.
pub fn query_by(
    numbers: &[u32],
    ends: &[u32],
    weighting: Weighting,
    threshold: u32,
    allowance: u32,
    answers: &mut [u32],
    certificate: &mut [u8],
) -> Outcome {
    let weights = match checked_weights(numbers, ends, weighting, threshold) {
        Ok(weights) => weights,
        Err(refusal) => return Outcome::refused_first(refusal),
    };
    let runs = split_runs(numbers, ends);
    let mut writer = Writer::new(allowance, answers, certificate);
    let end = walk(&runs, &weights, threshold, &mut writer);
    Outcome::of_walk(end, writer.written())
}
