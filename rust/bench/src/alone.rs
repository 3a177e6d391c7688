//! Times what the first run holds alone beside a query of the other runs and beside
//! the library's own way in Rust.

use crate::cases::{self, Alone};
use crate::inputs::Input;
use crate::row::Row;
use crate::{median, ordered, timed};
use quorum::{Counts, Part};
use std::time::Duration;

/// Prints the table of the cases.
pub fn report(cases: &[Alone], repetitions: usize) {
    println!(
        "{:<16} {:>3} {:>3} {:>9} {:>9} {:>10} {:>10} {:>11} {:>10}",
        "case", "k", "t", "answers", "parts", "alone ms", "plain ms", "alone/plain", "alone/same"
    );
    let mut rows = std::array::from_fn(|_| Row::new());
    for (group, input) in cases::with_inputs(cases) {
        for Alone(case) in group {
            let (k, t) = (case.runs, case.threshold);
            let (counts, times) = measure(&input, t, repetitions, &mut rows);
            let [alone, plain, same] = times.map(|time| time.as_secs_f64() * 1e3);
            println!(
                "{:<16} {k:>3} {t:>3} {:>9} {:>9} {alone:>10.2} {plain:>10.2} {:>11.3} {:>10.2}",
                case.shape,
                counts.answers,
                counts.parts,
                alone / plain,
                alone / same
            );
        }
    }
}

/// Runs all three ways in turn, `repetitions` times, and checks that they agree.
/// Returns what the question wrote and the medians: of the question, of the query of
/// the other runs, and of the library's own way in Rust.
fn measure(
    input: &Input,
    threshold: usize,
    repetitions: usize,
    [found, plain, same]: &mut [Row; 3],
) -> (Counts, [Duration; 3]) {
    let Input { numbers, ends } = input;
    let others = input.without_first();
    let t = threshold as u32;
    let mut times: [Vec<Duration>; 3] = Default::default();
    let mut counts = Counts::default();
    let mut of_others = counts;
    for _ in 0..repetitions {
        let (a, c) = (&mut found.answers, &mut found.certificate);
        let (time, result) = timed(numbers, || {
            quorum::query_alone(numbers, ends, t, u32::MAX, a, c)
        });
        counts = result.expect("no limit is reached");
        times[0].push(time);

        let (a, c) = (&mut plain.answers, &mut plain.certificate);
        let (time, result) = timed(&others.numbers, || {
            quorum::query(&others.numbers, &others.ends, t, u32::MAX, a, c)
        });
        of_others = result.expect("no limit is reached");
        times[1].push(time);

        let (a, c) = (&mut same.answers, &mut same.certificate);
        let (time, result) = timed(numbers, || {
            ordered::query_alone(numbers, ends, threshold, a, c)
        });
        assert_eq!(result, Some(counts.into()));
        times[2].push(time);
    }
    assert!(same.written(counts) == found.written(counts));
    let answers = counts.answers;
    assert_eq!(
        Counts {
            answers,
            ..of_others
        },
        counts
    );
    let (_, certificate) = found.written(counts);
    let (_, of_others) = plain.written(of_others);
    assert!(
        quorum::parts(certificate).eq(quorum::parts(of_others).map(|part| part.map(renumbered)))
    );
    (counts, times.map(median))
}

/// A part of the other runs alone with its mask in the numbering of all runs.
fn renumbered(part: Part) -> Part {
    let mask = part.mask() << 1;
    match part {
        Part::Answer { value, .. } => Part::Answer { value, mask },
        Part::Gap { first, last, .. } => Part::Gap { first, last, mask },
    }
}
