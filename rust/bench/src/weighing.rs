//! Times queries and checks by weight beside those without weights and beside the
//! library's own way in Rust.

use crate::cases::{self, Weighted, Weights};
use crate::inputs::Input;
use crate::row::Row;
use crate::{median, ordered, timed};
use quorum::Checked;
use std::time::Duration;

/// Prints the table of the cases.
pub fn report(cases: &[Weighted], repetitions: usize) {
    println!(
        "{:<16} {:>3} {:>8} {:>6} {:>9} {:>10} {:>11} {:>10} {:>10} {:>11} {:>11}",
        "case",
        "k",
        "weights",
        "wanted",
        "parts",
        "query ms",
        "query/plain",
        "query/same",
        "check ms",
        "check/plain",
        "check/query"
    );
    let mut rows = std::array::from_fn(|_| Row::new());
    for (group, input) in cases::with_inputs(cases) {
        for weighted in group {
            let times = measure(&input, weighted, repetitions, &mut rows);
            let [query, same, check] = times.weighted.map(|time| time.as_secs_f64());
            let beside_plain = |time: f64, way: usize| match times.plain {
                Some(plain) => format!("{:.3}", time / plain[way].as_secs_f64()),
                None => "-".to_string(),
            };
            println!(
                "{:<16} {:>3} {:>8} {:>6} {:>9} {:>10.2} {:>11} {:>10.2} {:>10.2} {:>11} {:>11.2}",
                weighted.case.shape,
                weighted.case.runs,
                weighted.weights,
                weighted.wanted(),
                times.parts,
                query * 1e3,
                beside_plain(query, 0),
                query / same,
                check * 1e3,
                beside_plain(check, 1),
                check / query
            );
        }
    }
}

/// Medians of one case.
struct Times {
    parts: usize,
    /// The query, the library's own way in Rust, and the check.
    weighted: [Duration; 3],
    /// The query and the check without weights, where the question is the same.
    plain: Option<[Duration; 2]>,
}

/// Runs all ways in turn, `repetitions` times, and checks that they agree.
fn measure(
    Input { numbers, ends }: &Input,
    case: &Weighted,
    repetitions: usize,
    [found, same, plain]: &mut [Row; 3],
) -> Times {
    let (weights, wanted) = (case.row(), case.wanted());
    let is_plain = case.weights == Weights::Ones;
    let mut weighted: [Vec<Duration>; 3] = Default::default();
    let mut without: [Vec<Duration>; 2] = Default::default();
    let mut parts = 0;
    for _ in 0..repetitions {
        let (a, c) = (&mut found.answers, &mut found.certificate);
        let (time, result) = timed(numbers, || {
            quorum::query_weighted(numbers, ends, &weights, wanted, u32::MAX, a, c)
        });
        let counts = result.expect("no limit is reached");
        let (_, certificate) = found.written(counts);
        weighted[0].push(time);
        parts = counts.parts;

        let (a, c) = (&mut same.answers, &mut same.certificate);
        let (time, result) = timed(numbers, || {
            ordered::query_weighted(numbers, ends, &weights, wanted, a, c)
        });
        assert_eq!(result, Some(counts.into()));
        assert!(same.written(counts) == found.written(counts));
        weighted[1].push(time);

        let (time, result) = timed(numbers, || {
            quorum::check_weighted(numbers, ends, &weights, wanted, certificate)
        });
        let checked = Ok(Checked {
            answers: counts.answers,
            parts: counts.parts,
        });
        assert_eq!(result, checked);
        weighted[2].push(time);

        if is_plain {
            let (a, c) = (&mut plain.answers, &mut plain.certificate);
            let (time, result) = timed(numbers, || {
                quorum::query(numbers, ends, wanted, u32::MAX, a, c)
            });
            assert_eq!(result, Ok(counts));
            assert!(plain.written(counts) == found.written(counts));
            without[0].push(time);

            let (time, result) = timed(numbers, || {
                quorum::check(numbers, ends, wanted, certificate)
            });
            assert_eq!(result, checked);
            without[1].push(time);
        }
    }
    Times {
        parts,
        weighted: weighted.map(median),
        plain: is_plain.then(|| without.map(median)),
    }
}
