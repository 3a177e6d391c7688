//! Calls of many questions whose limits are cut everywhere, and calls with very
//! many questions or numbers.

use comparison::many::{whole, Call, Comparer};
use comparison::question::Limits;
use comparison::seeds;
use comparison::shapes::{any_runs, shaped_runs, SHAPES};
use reference::all_runs;
use reference::testing::{small_inputs, Random, M};

/// The allowance cut at every value from 0 to what is needed and one more, and
/// so each buffer.
#[test]
fn every_limit() {
    let mut comparer = Comparer::new();
    for seed in seeds(88, 400) {
        let mut random = Random(seed);
        let k = random.from_to(1, 6);
        let runs = any_runs(&mut random, k, 6);
        let questions = random.from_to(1, 5);
        let call = Call::any(&mut random, &runs, questions);
        let whole = whole(&call).unwrap();
        let mut compare = |limits, refusal| {
            let row = comparer.compare(seed, &call, limits, call.results());
            assert_eq!(row[0], refusal, "seed {seed}");
            row
        };
        for allowance in 0..=whole.allowance + 1 {
            let refusal = if allowance < whole.allowance { 7 } else { 0 };
            let row = compare(Limits { allowance, ..whole }, refusal);
            assert_eq!(row[6] + row[7], allowance.min(whole.allowance).into());
        }
        for answers in 0..=whole.answers + 1 {
            let refusal = if answers < whole.answers { 5 } else { 0 };
            compare(Limits { answers, ..whole }, refusal);
        }
        for bytes in 0..=whole.bytes + 1 {
            let refusal = if bytes < whole.bytes { 6 } else { 0 };
            compare(Limits { bytes, ..whole }, refusal);
        }
    }
    comparer.met(&[0, 5, 6, 7], 500);
}

/// All runs over the first bin and the last two, each after up to two marks, up
/// to three runs, with every choice of them and every threshold in one call.
#[test]
fn all_small_inputs() {
    let mut comparer = Comparer::new();
    for k in 1..=3 {
        let masks = 1..1_u64 << k;
        let questions = masks.flat_map(|mask| (1..=mask.count_ones()).map(move |t| (mask, t)));
        let (masks, thresholds): (Vec<u64>, Vec<u32>) = questions.unzip();
        for (seed, runs) in (0..).zip(small_inputs(k)) {
            let call = Call::new(&runs, &masks, &thresholds);
            let whole = whole(&call).unwrap();
            comparer.compare(seed, &call, whole, call.results());
            let mut random = Random(seed);
            let limits = Limits {
                allowance: random.below(whole.allowance as usize + 1) as u32,
                answers: random.below(whole.answers + 1),
                bytes: random.below(whole.bytes + 1),
            };
            comparer.compare(seed, &call, limits, call.results());
        }
    }
    comparer.met(&[0, 5, 6, 7], 200);
}

/// Many more questions than runs.
#[test]
fn many_questions() {
    let mut comparer = Comparer::new();
    for seed in seeds(89, 20) {
        let mut random = Random(seed);
        let k = random.pick(&[3, 20, 64]);
        let runs = any_runs(&mut random, k, 6);
        let questions = random.from_to(100, 2_000);
        let mut call = Call::any(&mut random, &runs, questions);
        let whole = whole(&call).unwrap();
        comparer.compare(seed, &call, whole, call.results());
        for limits in [
            Limits {
                allowance: whole.allowance / 2,
                ..whole
            },
            Limits {
                answers: whole.answers / 2,
                ..whole
            },
            Limits {
                bytes: whole.bytes - 1,
                ..whole
            },
        ] {
            comparer.compare(seed, &call, limits, call.results() + 1);
        }
        // The last is the only one that is broken, and nothing is written.
        call.thresholds[questions - 1] = 65;
        let row = comparer.compare(seed, &call, whole, call.results());
        assert_eq!((row[0], row[2], row[4]), (2, questions as u64 - 1, 0));
    }
    comparer.met(&[0, 2, 5, 6, 7], 10);
}

/// Exactly as many numbers as are allowed, and one more.
#[test]
fn most_numbers() {
    const MOST: usize = 1_048_576;
    let mut comparer = Comparer::new();
    for (seed, shape) in seeds(90, 6).zip(SHAPES) {
        let mut random = Random(seed);
        let k = random.pick(&[2, 7, 64]);
        let mut runs = shaped_runs(&mut random, shape, k, 3 * MOST / (4 * k));
        let others: usize = runs[..k - 1].iter().map(Vec::len).sum();
        runs[k - 1] = (0..).step_by(3).take(MOST - others).collect();
        // One run, the others, and all, each with the number of them.
        let (all, one) = (all_runs(k), 1 << random.below(k));
        let masks = [one, all & !one, all];
        let mut call = Call::new(&runs, &masks, &masks.map(u64::count_ones));
        let whole = whole(&call).unwrap();
        comparer.compare(seed, &call, whole, call.results());
        call.numbers.push(M);
        call.ends[k - 1] += 1;
        comparer.compare(seed, &call, whole, call.results());
    }
    assert_eq!((comparer.seen[0], comparer.seen[3]), (6, 6));
}
