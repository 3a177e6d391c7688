//! Many questions over the same runs in one call.

use crate::first_checks::{check_ends, check_rising, check_run_count, split_runs, Refusal};
use crate::walk::walk;
use crate::weights::{Weighting, Weights};
use crate::writer::{Writer, Written};

/// What [`query_many()`] returns. The counts are those of the whole call.
#[derive(Clone, Copy, Debug, PartialEq, Eq)]
pub enum ManyOutcome {
    /// Every walk reached its end.
    Accepted {
        /// How many answers were written.
        answers: u64,
        /// How many parts were written.
        parts: u64,
        /// How many certificate bytes were written.
        bytes: u64,
        /// How many probes were made by doubling.
        doublings: u64,
        /// How many probes were made by halving.
        halvings: u64,
    },
    /// The first checks or a walk met a refusal.
    Refused {
        /// The number of the refusal: 1 to 7, 13 or 14.
        number: u8,
        /// The place that the table gives for it: for 5 to 7 the number of
        /// parts of its own question.
        place: u64,
        /// The index of the question that it belongs to; 0 if it belongs to
        /// none.
        question: u64,
        /// How many answers were written.
        answers: u64,
        /// How many parts were written.
        parts: u64,
        /// How many certificate bytes were written.
        bytes: u64,
        /// How many probes were made by doubling.
        doublings: u64,
        /// How many probes were made by halving.
        halvings: u64,
    },
}

/// Asks questions one after another: question `q` about the runs that
/// `masks[q]` chooses, with the threshold `thresholds[q]`. All are checked
/// before the first walk. Answers and certificates follow each other in the
/// two buffers, and `allowance` is for all walks together.
///
/// For each question whose walk reached its end, `results` gets at `2 * q` the
/// answers and at `2 * q + 1` the certificate bytes written so far in the
/// whole call. All later places of the three rows are unchanged.
#[allow(clippy::too_many_arguments)]
pub fn query_many(
    numbers: &[u32],
    ends: &[u32],
    masks: &[u64],
    thresholds: &[u32],
    allowance: u32,
    answers: &mut [u32],
    certificate: &mut [u8],
    results: &mut [u64],
) -> ManyOutcome {
    if let Err(refusal) = check_rows(numbers, ends, masks, thresholds, results) {
        return refused(refusal, 0, Written::default());
    }
    if let Err((question, refusal)) = check_questions(ends.len(), masks, thresholds) {
        return refused(refusal, question, Written::default());
    }
    let runs = split_runs(numbers, ends);
    let mut writer = Writer::new(allowance, answers, certificate);
    let questions = masks
        .iter()
        .zip(thresholds)
        .zip(results.chunks_exact_mut(2));
    for (question, ((&mask, &threshold), reached)) in questions.enumerate() {
        let before = writer.written().parts;
        let end = walk(&runs, &Weights::ones(mask), threshold, &mut writer);
        let written = writer.written();
        if let Err(number) = end {
            let place = written.parts - before;
            return refused(Refusal { number, place }, question, written);
        }
        reached.copy_from_slice(&[written.answers, written.bytes]);
    }
    let Written {
        answers,
        parts,
        bytes,
        doublings,
        halvings,
    } = writer.written();
    ManyOutcome::Accepted {
        answers,
        parts,
        bytes,
        doublings,
        halvings,
    }
}

/// The checks that belong to no question: 1, 3, 4 and 14, in this order.
fn check_rows(
    numbers: &[u32],
    ends: &[u32],
    masks: &[u64],
    thresholds: &[u32],
    results: &[u64],
) -> Result<(), Refusal> {
    check_run_count(ends)?;
    check_ends(ends, numbers.len())?;
    check_rising(numbers, ends)?;
    if masks.len() != thresholds.len() || results.len() / 2 < masks.len() {
        return Err(Refusal::new(14, masks.len()));
    }
    Ok(())
}

/// The checks of each question: 13, then 2. The error has the index of the
/// first question that one of them refuses.
fn check_questions(k: usize, masks: &[u64], thresholds: &[u32]) -> Result<(), (usize, Refusal)> {
    for (question, (&mask, &threshold)) in masks.iter().zip(thresholds).enumerate() {
        let Ok(weights) = Weighting::Chosen(mask).weights(k) else {
            return Err((question, Refusal::new(13, question)));
        };
        if !weights.allow(threshold) {
            let runs = weights.total() as usize;
            return Err((question, Refusal::new(2, runs)));
        }
    }
    Ok(())
}

fn refused(refusal: Refusal, question: usize, written: Written) -> ManyOutcome {
    ManyOutcome::Refused {
        number: refusal.number,
        place: refusal.place,
        question: question as u64,
        answers: written.answers,
        parts: written.parts,
        bytes: written.bytes,
        doublings: written.doublings,
        halvings: written.halvings,
    }
}
