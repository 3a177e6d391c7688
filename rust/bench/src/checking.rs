//! Times a check of the walk's own certificate beside the query that wrote it.

use crate::cases::{self, Case};
use crate::inputs::{Input, NUMBERS};
use crate::{median, timed};
use quorum::{enough_answers, enough_bytes, Checked};
use std::time::Duration;

/// Prints the table of the cases.
pub fn report(cases: &[Case], repetitions: usize) {
    println!(
        "{:<16} {:>3} {:>3} {:>9} {:>10} {:>10} {:>11}",
        "case", "k", "t", "parts", "query ms", "check ms", "check/query"
    );
    let mut answers = vec![1; enough_answers(NUMBERS)];
    let mut certificate = vec![1; enough_bytes(NUMBERS)];
    for (group, input) in cases::with_inputs(cases) {
        for case in group {
            let (k, t) = (case.runs, case.threshold);
            let (parts, times) = measure(&input, t, repetitions, &mut answers, &mut certificate);
            let [query, check] = times.map(|time| time.as_secs_f64() * 1e3);
            println!(
                "{:<16} {k:>3} {t:>3} {parts:>9} {query:>10.2} {check:>10.2} {:>11.2}",
                case.shape,
                check / query
            );
        }
    }
}

/// The number of parts, and the medians of the query and of the check.
fn measure(
    Input { numbers, ends }: &Input,
    threshold: usize,
    repetitions: usize,
    answers: &mut [u32],
    certificate: &mut [u8],
) -> (usize, [Duration; 2]) {
    let t = threshold as u32;
    let mut times: [Vec<Duration>; 2] = Default::default();
    let mut parts = 0;
    for _ in 0..repetitions {
        let (time, result) = timed(numbers, || {
            quorum::query(numbers, ends, t, u32::MAX, answers, certificate)
        });
        let counts = result.expect("no limit is reached");
        times[0].push(time);

        let written = &certificate[..counts.bytes];
        let (time, result) = timed(numbers, || quorum::check(numbers, ends, t, written));
        let expected = Checked {
            answers: counts.answers,
            parts: counts.parts,
        };
        assert_eq!(result, Ok(expected));
        times[1].push(time);
        parts = counts.parts;
    }
    (parts, times.map(median))
}
