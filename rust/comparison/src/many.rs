//! Calls of many questions made on both sides, with all that they return and
//! write.

use crate::lent::{noise, Lent};
use crate::met::Refusals;
use crate::question::{counts_of, limits_near, needed, written, Buffers, Limits, Written};
use crate::Row;
use quorum::{finished, Answered, Counts, Refusal, Stopped, StoppedMany};
use reference::testing::{lay_out, many_row, Random};
use reference::{all_runs, trace_by, Weighting};
use std::fmt;

/// The runs and the questions of a call.
pub struct Call {
    /// All runs, one after another.
    pub numbers: Vec<u32>,
    /// Where each run ends.
    pub ends: Vec<u32>,
    /// The runs that each question is about.
    pub masks: Vec<u64>,
    /// How many of these must hold an answer.
    pub thresholds: Vec<u32>,
}

impl Call {
    /// Questions about some runs.
    pub fn new<R: AsRef<[u32]>>(runs: &[R], masks: &[u64], thresholds: &[u32]) -> Self {
        let (numbers, ends) = lay_out(runs);
        Call {
            numbers,
            ends,
            masks: masks.to_vec(),
            thresholds: thresholds.to_vec(),
        }
    }

    /// So many questions about some runs, each about any of them, with any
    /// threshold that fits.
    pub fn any<R: AsRef<[u32]>>(random: &mut Random, runs: &[R], questions: usize) -> Self {
        let mut call = Call::new(runs, &[], &[]);
        for _ in 0..questions {
            let mask = any_choice(random, runs.len().max(1));
            let ones = mask.count_ones() as usize;
            call.masks.push(mask);
            call.thresholds.push(random.from_to(1, ones) as u32);
        }
        call
    }

    /// How many result places there are for its questions.
    pub fn results(&self) -> usize {
        2 * self.masks.len()
    }
}

impl fmt::Debug for Call {
    fn fmt(&self, f: &mut fmt::Formatter<'_>) -> fmt::Result {
        let Call {
            numbers,
            ends,
            masks,
            thresholds,
        } = self;
        write!(
            f,
            "masks {masks:?}, thresholds {thresholds:?}, ends {:?}, numbers {:?}",
            Row(ends),
            Row(numbers)
        )
    }
}

/// A row of results in the terms of `quorum`.
pub fn result_of(row: [u64; 8]) -> Result<Counts, StoppedMany> {
    let [number, place, question, counts @ ..] = row;
    let counts = counts_of(counts);
    match number {
        0 => Ok(counts),
        _ => Err(StoppedMany {
            refusal: Refusal { number, place },
            question: question as usize,
            counts,
        }),
    }
}

/// The rows of one side.
#[derive(Default)]
struct Rows {
    buffers: Buffers,
    results: Lent<u64>,
}

impl Rows {
    fn fill(&mut self, limits: Limits, results: usize, seed: u64) {
        self.buffers.fill(limits, seed);
        self.results.fill(results, |i| noise(seed, i));
    }
}

/// Makes calls on both sides, compares, and counts what was seen.
#[derive(Default)]
pub struct Comparer {
    found: Rows,
    expected: Rows,
    /// How many calls ended with each refusal.
    pub seen: Refusals,
    /// Compare the rows of the C interface and not the results.
    rows: bool,
}

impl Comparer {
    /// Compares what [`quorum::query_many`] returns.
    pub fn new() -> Self {
        Comparer::default()
    }

    /// Compares the rows that the C interface writes.
    pub fn of_rows() -> Self {
        Comparer {
            rows: true,
            ..Comparer::default()
        }
    }

    /// How many calls were made.
    pub fn asked(&self) -> u64 {
        self.seen.all()
    }

    /// Each of the outcomes was met often enough.
    pub fn met(&self, outcomes: &[usize], times: u64) {
        self.seen.met("calls", outcomes, times);
    }

    /// Makes the call on both sides, with `results` result places, and compares
    /// what they return and the whole of the three rows with their margins.
    /// Returns the row of the outcome.
    pub fn compare(&mut self, seed: u64, call: &Call, limits: Limits, results: usize) -> [u64; 8] {
        let Call {
            numbers,
            ends,
            masks,
            thresholds,
        } = call;
        self.found.fill(limits, results, seed);
        self.expected.fill(limits, results, seed);
        let allowance = limits.allowance;
        let expected = many_row(reference::query_many(
            numbers,
            ends,
            masks,
            thresholds,
            allowance,
            self.expected.buffers.answers.lend(),
            self.expected.buffers.certificate.lend(),
            self.expected.results.lend(),
        ));
        let answers = self.found.buffers.answers.lend();
        let certificate = self.found.buffers.certificate.lend();
        let lent = self.found.results.lend();
        let context = || format!("seed {seed}: {limits:?}, {results} result places, {call:?}");
        if self.rows {
            let row = quorum::ffi::query_many(
                numbers,
                ends,
                masks,
                thresholds,
                allowance,
                answers,
                certificate,
                lent,
            );
            assert_eq!(row, expected, "{}", context());
        } else {
            let result = quorum::query_many(
                numbers,
                ends,
                masks,
                thresholds,
                allowance,
                answers,
                certificate,
                lent,
            );
            assert_eq!(result, result_of(expected), "{}", context());
        }
        self.found.buffers.compare(&self.expected.buffers, context);
        let place = self.found.results.difference(&self.expected.results);
        assert_eq!(place, None, "results, {}", context());
        self.seen.count(expected[0]);
        expected
    }

    /// Compares with limits of every kind: exact, one short, one more, tiny,
    /// ample and random ones. If the first checks refuse, once.
    pub fn compare_limits(&mut self, seed: u64, random: &mut Random, call: &Call) {
        let exact = call.results();
        let Some(whole) = whole(call) else {
            let limits = Limits {
                allowance: random.pick(&[0, 1, u32::MAX]),
                answers: random.below(4),
                bytes: random.below(40),
            };
            self.compare(seed, call, limits, exact + random.below(3));
            return;
        };
        for limits in limits_near(random, whole) {
            self.compare(seed, call, limits, exact + random.pick(&[0, 0, 1, 2, 7]));
        }
    }

    /// What each of the first `questions` of the last call wrote, which are
    /// finished.
    pub fn finished(&self, questions: usize) -> Vec<Answered<'_>> {
        let results = &self.found.results.read()[..2 * questions];
        let answers = self.found.buffers.answers.read();
        finished(results, answers, self.found.buffers.certificate.read()).collect()
    }
}

/// Exactly what the whole walks need; `None` if the first checks refuse, those
/// of the row of results left out.
pub fn whole(call: &Call) -> Option<Limits> {
    let Call {
        numbers,
        ends,
        masks,
        thresholds,
    } = call;
    if masks.len() != thresholds.len() {
        return None;
    }
    // Without a question the runs are looked at all the same.
    reference::first_checks(numbers, ends, 1).ok()?;
    let mut whole = Limits {
        allowance: 0,
        answers: 0,
        bytes: 0,
    };
    for (&mask, &threshold) in masks.iter().zip(thresholds) {
        let walk = trace_by(numbers, ends, Weighting::Chosen(mask), threshold).ok()?;
        let own = needed(&walk);
        whole.allowance += own.allowance;
        whole.answers += own.answers;
        whole.bytes += own.bytes;
    }
    Some(whole)
}

/// Asks the library one question about the runs that the mask chooses, in a call of
/// many and in buffers of its own.
///
/// # Panics
///
/// If the row of results or the question's index is wrong.
pub fn ask_one<R: AsRef<[u32]>>(runs: &[R], mask: u64, threshold: u32, limits: Limits) -> Written {
    const FILLER: [u64; 2] = [7; 2];
    let (numbers, ends) = lay_out(runs);
    let mut results = FILLER;
    let found = written(limits, |answers, certificate| {
        let result = quorum::query_many(
            &numbers,
            &ends,
            &[mask],
            &[threshold],
            limits.allowance,
            answers,
            certificate,
            &mut results,
        );
        result.map_err(|stopped| {
            assert_eq!(stopped.question, 0);
            Stopped {
                refusal: stopped.refusal,
                counts: stopped.counts,
            }
        })
    });
    let expected = match found.0 {
        Ok(counts) => [counts.answers as u64, counts.bytes as u64],
        Err(_) => FILLER,
    };
    assert_eq!(results, expected);
    found
}

/// A mask of at least one of `k` runs, `k` above 0: of all, of one, of all but
/// one, of few or of any.
pub fn any_choice(random: &mut Random, k: usize) -> u64 {
    let (all, one) = (all_runs(k), 1 << random.below(k.min(64)));
    let mask = match random.below(6) {
        0 => all,
        1 => one,
        2 => all & !one,
        3 => all & random.bits() & random.bits() & random.bits(),
        _ => all & random.bits(),
    };
    match mask {
        0 => one,
        mask => mask,
    }
}

/// Breaks the questions in one way. They may still pass the first checks.
pub fn break_questions(random: &mut Random, call: &mut Call) {
    let Call {
        ends,
        masks,
        thresholds,
        ..
    } = call;
    let k = ends.len();
    let i = random.below(masks.len().max(1));
    let ones = masks.get(i).map_or(0, |mask| mask.count_ones());
    let beyond = !all_runs(k) & (1 << random.from_to(k.min(63), 63));
    match (masks.get_mut(i), thresholds.get_mut(i), random.below(9)) {
        // No run, or runs that do not exist.
        (Some(mask), _, 0) => *mask = 0,
        (Some(mask), _, 1) => *mask |= beyond,
        (Some(mask), _, 2) => *mask = random.pick(&[u64::MAX, 1 << 63, beyond, all_runs(k)]),
        // A threshold that does not fit its mask.
        (_, Some(threshold), 3) => *threshold = 0,
        (_, Some(threshold), 4) => *threshold = ones + 1,
        (_, Some(threshold), 5) => *threshold = random.pick(&[u32::MAX, ones, k as u32]),
        // Rows of other lengths.
        (_, _, 6) => drop(masks.pop()),
        (_, _, 7) => drop(thresholds.pop()),
        _ if random.one_in(2) => masks.push(random.bits() & all_runs(k)),
        _ => thresholds.push(random.below(4) as u32),
    }
}
