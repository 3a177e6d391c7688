//! Times what both of two runs hold beside a query of them, beside the library's own
//! way in Rust and beside a merge.

use crate::cases::Pair;
use crate::inputs::{Input, NUMBERS};
use crate::row::Row;
use crate::{median, partition, timed};
use quorum::enough_answers;
use std::time::Duration;

/// Prints the table of the cases.
pub fn report(cases: &[Pair], repetitions: usize) {
    println!(
        "{:<41} {:>9} {:>9} {:>9} {:>10} {:>10} {:>10} {:>9} {:>10}",
        "case",
        "first",
        "second",
        "answers",
        "pair ms",
        "query ms",
        "pair/query",
        "pair/same",
        "pair/merge"
    );
    let mut buffers = Buffers::new();
    for case in cases {
        let input = case.input();
        let (answers, times) = buffers.measure(&input, repetitions);
        let [pair, query, same, merge] = times.map(|time| time.as_secs_f64() * 1e3);
        let (first, all) = (input.ends[0], input.ends[1]);
        println!(
            "{:<41} {first:>9} {:>9} {answers:>9} {pair:>10.2} {query:>10.2} {:>10.3} {:>9.2} {:>10.3}",
            case.0.shape,
            all - first,
            pair / query,
            pair / same,
            pair / merge
        );
    }
}

/// What the four ways write to: large enough for every case.
struct Buffers {
    query: Row,
    answers: [Vec<u32>; 3],
}

impl Buffers {
    /// Allocates all and writes to each place, so that no repetition meets a page for
    /// the first time.
    fn new() -> Self {
        Buffers {
            query: Row::new(),
            answers: std::array::from_fn(|_| vec![1; enough_answers(NUMBERS)]),
        }
    }

    /// Runs all four in turn, `repetitions` times, and checks that they agree. Returns
    /// the number of answers and the medians: of the pair, of the query, of the
    /// library's own way in Rust, and of the merge.
    fn measure(
        &mut self,
        Input { numbers, ends }: &Input,
        repetitions: usize,
    ) -> (usize, [Duration; 4]) {
        let [pair, same, merge] = &mut self.answers;
        let query = &mut self.query;
        let mut times: [Vec<Duration>; 4] = Default::default();
        let mut count = 0;
        for _ in 0..repetitions {
            let (time, result) = timed(numbers, || quorum::pair(numbers, ends, pair));
            count = result.expect("no limit is reached");
            times[0].push(time);

            let (a, c) = (&mut query.answers, &mut query.certificate);
            let (time, result) = timed(numbers, || quorum::query(numbers, ends, 2, u32::MAX, a, c));
            assert_eq!(result.expect("no limit is reached").answers, count);
            times[1].push(time);

            let (time, result) = timed(numbers, || partition::pair(numbers, ends, same));
            assert_eq!(result, Some(count));
            times[2].push(time);

            let (time, result) = timed(numbers, || partition::merge(numbers, ends, merge));
            assert_eq!(result, Some(count));
            times[3].push(time);
        }
        let answers = &pair[..count];
        for others in [&query.answers, same, merge] {
            assert!(answers == &others[..count]);
        }
        (count, times.map(median))
    }
}
