//! Times many questions in one call beside as many calls of one question.

use crate::cases::{self, Case};
use crate::inputs::Input;
use crate::{median, ordered, timed};
use quorum::{enough_answers, enough_bytes, enough_results, Counts};
use std::time::Duration;

/// The questions of a call, each about all runs and with the same threshold.
pub const QUESTIONS: usize = 20;

/// Prints the table of the cases.
pub fn report(cases: &[Case], repetitions: usize) {
    println!(
        "{:<16} {:>3} {:>3} {:>9} {:>9} {:>10} {:>10} {:>9} {:>9}",
        "case", "k", "t", "questions", "parts", "one ms", "calls ms", "one/calls", "one/same"
    );
    for (group, input) in cases::with_inputs(cases) {
        for case in group {
            let (k, t) = (case.runs, case.threshold);
            let (parts, times) = measure(&input, t, repetitions);
            let [one, calls, same] = times.map(|time| time.as_secs_f64() * 1e3);
            println!(
                "{:<16} {k:>3} {t:>3} {QUESTIONS:>9} {parts:>9} {one:>10.2} {calls:>10.2} {:>9.3} {:>9.2}",
                case.shape,
                one / calls,
                one / same
            );
        }
    }
}

/// Runs all three ways in turn, `repetitions` times, and checks that they agree.
/// Returns the parts of all questions and the medians.
fn measure(input: &Input, threshold: usize, repetitions: usize) -> (usize, [Duration; 3]) {
    let [mut one, mut calls, mut same] = Row::equal(input, threshold);
    let mut times: [Vec<Duration>; 3] = Default::default();
    let mut parts = 0;
    for _ in 0..repetitions {
        let (time, counts) = one.ask(input, threshold);
        times[0].push(time);
        parts = counts.parts;

        let (time, sums) = timed(&input.numbers, || calls.ask_each(input, threshold));
        assert_eq!(sums, counts);
        times[1].push(time);

        let (time, result) = same.ask_same(input, threshold);
        assert_eq!(result, counts.into());
        times[2].push(time);
    }
    assert!(one == calls && one == same);
    (parts, times.map(median))
}

/// What one way writes to, exactly as much as it needs.
#[derive(Clone, PartialEq)]
pub struct Row {
    answers: Vec<u32>,
    certificate: Vec<u8>,
    results: Vec<u64>,
}

impl Row {
    /// Allocates one for each way and writes to each place, so that no repetition
    /// meets a page for the first time.
    pub fn equal<const N: usize>(Input { numbers, ends }: &Input, threshold: usize) -> [Self; N] {
        let mut answers = vec![1; enough_answers(numbers.len())];
        let mut certificate = vec![1; enough_bytes(numbers.len())];
        let counts = quorum::query(
            numbers,
            ends,
            threshold as u32,
            u32::MAX,
            &mut answers,
            &mut certificate,
        );
        let counts = counts.expect("no limit is reached");
        let row = Row {
            answers: vec![1; QUESTIONS * counts.answers],
            certificate: vec![1; QUESTIONS * counts.bytes],
            results: vec![1; enough_results(QUESTIONS)],
        };
        std::array::from_fn(|_| row.clone())
    }

    /// Times one call for all questions.
    pub fn ask(&mut self, Input { numbers, ends }: &Input, threshold: usize) -> (Duration, Counts) {
        let masks = [all_runs(ends); QUESTIONS];
        let thresholds = [threshold as u32; QUESTIONS];
        let (time, result) = timed(numbers, || {
            quorum::query_many(
                numbers,
                ends,
                &masks,
                &thresholds,
                u32::MAX,
                &mut self.answers,
                &mut self.certificate,
                &mut self.results,
            )
        });
        (time, result.expect("no limit is reached"))
    }

    /// Times the same in the library's own way in Rust.
    pub fn ask_same(
        &mut self,
        Input { numbers, ends }: &Input,
        threshold: usize,
    ) -> (Duration, ordered::Counts) {
        let questions = [(all_runs(ends), threshold); QUESTIONS];
        let (time, result) = timed(numbers, || {
            ordered::query_many(
                numbers,
                ends,
                &questions,
                &mut self.answers,
                &mut self.certificate,
                &mut self.results,
            )
        });
        (time, result.expect("the runs rise"))
    }

    /// Makes one call for each question, which writes where the one before it
    /// ended. Returns the sums of what they return.
    fn ask_each(&mut self, Input { numbers, ends }: &Input, threshold: usize) -> Counts {
        let mut sums = Counts::default();
        for reached in self.results.chunks_exact_mut(2) {
            let answers = &mut self.answers[sums.answers..];
            let certificate = &mut self.certificate[sums.bytes..];
            let t = threshold as u32;
            let result = quorum::query(numbers, ends, t, u32::MAX, answers, certificate);
            let counts = result.expect("no limit is reached");
            sums.answers += counts.answers;
            sums.parts += counts.parts;
            sums.bytes += counts.bytes;
            sums.doublings += counts.doublings;
            sums.halvings += counts.halvings;
            reached.copy_from_slice(&[sums.answers as u64, sums.bytes as u64]);
        }
        sums
    }
}

/// The mask of all runs.
fn all_runs(ends: &[u32]) -> u64 {
    u64::MAX >> (64 - ends.len())
}
