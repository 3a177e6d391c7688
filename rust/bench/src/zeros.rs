//! Times many questions about runs that begin with zeros beside the same
//! questions about the runs without them.

use crate::cases::HalfZeros;
use crate::inputs::{Input, NUMBERS};
use crate::many::{Row, QUESTIONS};
use crate::{median, timed};
use std::time::Duration;

/// Prints the table of the cases.
pub fn report(cases: &[HalfZeros], repetitions: usize) {
    println!(
        "{:<16} {:>3} {:>3} {:>9} {:>9} {:>10} {:>10} {:>8} {:>10} {:>10} {:>10}",
        "case",
        "k",
        "t",
        "questions",
        "parts",
        "zeros ms",
        "bins ms",
        "pass ms",
        "zeros/bins",
        "less pass",
        "zeros/same"
    );
    for HalfZeros(case) in cases {
        let (k, t) = (case.runs, case.threshold);
        let bins = case.input(NUMBERS / 2).raised();
        let (parts, times) = measure(&bins, t, repetitions);
        let [zeros, bins, pass, same] = times.map(|time| time.as_secs_f64() * 1e3);
        println!(
            "{:<16} {k:>3} {t:>3} {QUESTIONS:>9} {parts:>9} {zeros:>10.2} {bins:>10.2} {pass:>8.3} {:>10.3} {:>10.3} {:>10.2}",
            case.shape,
            zeros / bins,
            (zeros - pass) / bins,
            zeros / same
        );
    }
}

/// Asks about the runs after zeros and about the runs as they are in turn,
/// `repetitions` times, and checks that the answers and certificates are the same.
/// Returns the parts of all questions and the medians: of the call after zeros, of
/// that without, of the pass over the zeros, and of the library's own way in Rust
/// after zeros.
fn measure(bins: &Input, threshold: usize, repetitions: usize) -> (usize, [Duration; 4]) {
    let zeros = bins.after_zeros();
    let [mut found, mut expected, mut same] = Row::equal(bins, threshold);
    let mut times: [Vec<Duration>; 5] = Default::default();
    let mut parts = 0;
    for _ in 0..repetitions {
        let (time, counts) = found.ask(&zeros, threshold);
        times[0].push(time);
        parts = counts.parts;

        let (time, result) = expected.ask(bins, threshold);
        assert_eq!(result, counts);
        times[1].push(time);

        times[2].push(no_question(&zeros));
        times[3].push(no_question(bins));

        let (time, result) = same.ask_same(&zeros, threshold);
        assert_eq!(result, counts.into());
        times[4].push(time);
    }
    assert!(found == expected && found == same);
    let [zeros, bins, over_zeros, over_bins, same] = times.map(median);
    let pass = over_zeros.saturating_sub(over_bins);
    (parts, [zeros, bins, pass, same])
}

/// Times a call with no question, which makes the first checks and finds where the
/// bins of each run begin.
fn no_question(Input { numbers, ends }: &Input) -> Duration {
    let (time, result) = timed(numbers, || {
        quorum::query_many(numbers, ends, &[], &[], 0, &mut [], &mut [], &mut [])
    });
    assert!(result.is_ok());
    time
}
