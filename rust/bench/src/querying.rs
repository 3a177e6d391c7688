//! Times a query beside other ways to its answers.

use crate::cases::{self, Case};
use crate::inputs::{Input, NUMBERS};
use crate::{baselines, median, ordered, timed};
use quorum::{enough_answers, enough_bytes};
use std::time::Duration;

/// Prints the table of the cases.
pub fn report(cases: &[Case], repetitions: usize) {
    println!(
        "{:<16} {:>3} {:>3} {:>9} {:>10} {:>13} {:>9} {:>9} {:>9} {:>9} {:>15}",
        "case",
        "k",
        "t",
        "parts",
        "ns/number",
        "lib/reference",
        "lib/same",
        "lib/heap",
        "lib/top",
        "lib/sort",
        "keys/(k log k)"
    );
    let mut buffers = Buffers::new();
    for (group, input) in cases::with_inputs(cases) {
        for case in group {
            let (k, t) = (case.runs, case.threshold);
            let times = buffers.measure(&input, t, repetitions);
            let library = times.library.as_secs_f64();
            let ratio = |other: Duration| library / other.as_secs_f64();
            println!(
                "{:<16} {k:>3} {t:>3} {:>9} {:>10.2} {:>13.2} {:>9.2} {:>9.3} {:>9.3} {:>9.3} {:>15.2}",
                case.shape,
                times.parts,
                library * 1e9 / NUMBERS as f64,
                ratio(times.reference),
                ratio(times.same),
                ratio(times.heap),
                ratio(times.top),
                ratio(times.sort),
                times.compared / (k as f64 * (k as f64).log2())
            );
        }
    }
}

/// Medians of one case.
struct Times {
    parts: usize,
    library: Duration,
    reference: Duration,
    same: Duration,
    heap: Duration,
    /// The heap merge that replaces the head at the top.
    top: Duration,
    sort: Duration,
    /// Comparisons of keys in a round, the mean.
    compared: f64,
}

/// What the six ways write to: large enough for every case.
struct Buffers {
    answers: [Vec<u32>; 6],
    certificates: [Vec<u8>; 3],
    scratch: Vec<u32>,
}

impl Buffers {
    /// Allocates all and writes to each place, so that no repetition meets a
    /// page for the first time.
    fn new() -> Self {
        let (answers, bytes) = (enough_answers(NUMBERS), enough_bytes(NUMBERS));
        Buffers {
            answers: std::array::from_fn(|_| vec![1; answers]),
            certificates: std::array::from_fn(|_| vec![1; bytes]),
            scratch: vec![1; NUMBERS],
        }
    }

    /// Runs all six in turn, `repetitions` times, and checks that they agree.
    fn measure(&mut self, input: &Input, threshold: usize, repetitions: usize) -> Times {
        let Input { numbers, ends } = input;
        let t = threshold as u32;
        let [library_answers, reference_answers, same_answers, heap_answers, top_answers, sort_answers] =
            &mut self.answers;
        let [library_bytes, reference_bytes, same_bytes] = &mut self.certificates;
        let mut times: [Vec<Duration>; 6] = Default::default();
        let mut counts = None;
        for _ in 0..repetitions {
            let (time, result) = timed(numbers, || {
                quorum::query(numbers, ends, t, u32::MAX, library_answers, library_bytes)
            });
            let library = result.expect("no limit is reached");
            times[0].push(time);

            let (time, outcome) = timed(numbers, || {
                reference::query(
                    numbers,
                    ends,
                    t,
                    u32::MAX,
                    reference_answers,
                    reference_bytes,
                )
            });
            let expected = reference::Outcome::Accepted {
                answers: library.answers as u64,
                parts: library.parts as u64,
                bytes: library.bytes as u64,
                doublings: library.doublings,
                halvings: library.halvings,
            };
            assert_eq!(outcome, expected);
            times[1].push(time);

            let (time, same) = timed(numbers, || {
                ordered::query(numbers, ends, threshold, same_answers, same_bytes, &mut ())
            });
            assert_eq!(same, Some(library.into()));
            times[2].push(time);

            let (time, written) = timed(numbers, || {
                baselines::heap_merge(numbers, ends, threshold, heap_answers)
            });
            assert_eq!(written, library.answers);
            times[3].push(time);

            let (time, written) = timed(numbers, || {
                baselines::heap_merge_replacing(numbers, ends, threshold, top_answers)
            });
            assert_eq!(written, library.answers);
            times[4].push(time);

            let scratch = &mut self.scratch;
            let (time, written) = timed(numbers, || {
                baselines::sort_and_count(numbers, threshold, scratch, sort_answers)
            });
            assert_eq!(written, library.answers);
            times[5].push(time);

            counts = Some(library);
        }
        let counts = counts.expect("at least one repetition");
        let answers = &library_answers[..counts.answers];
        assert!(answers == &reference_answers[..counts.answers]);
        assert!(answers == &same_answers[..counts.answers]);
        assert!(answers == &heap_answers[..counts.answers]);
        assert!(answers == &top_answers[..counts.answers]);
        assert!(answers == &sort_answers[..counts.answers]);
        assert!(library_bytes[..counts.bytes] == reference_bytes[..counts.bytes]);
        assert!(library_bytes[..counts.bytes] == same_bytes[..counts.bytes]);
        let mut comparisons = ordered::Comparisons::default();
        ordered::query(
            numbers,
            ends,
            threshold,
            same_answers,
            same_bytes,
            &mut comparisons,
        );
        let [library, reference, same, heap, top, sort] = times.map(median);
        Times {
            parts: counts.parts,
            library,
            reference,
            same,
            heap,
            top,
            sort,
            compared: comparisons.keys as f64 / comparisons.rounds as f64,
        }
    }
}
