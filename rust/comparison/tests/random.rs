//! Random queries of every kind, and all small ones, without weights and with
//! them: outcomes, places, counts and the whole of both buffers.

use comparison::broken::{any_broken, any_broken_rows, any_limits, any_small, noise_rows};
use comparison::question::{self, whole, Comparer, Limits, Question};
use comparison::seeds;
use comparison::shapes::{any_runs, full_runs, SHAPES};
use reference::testing::{any_weights, lay_out, small_inputs, Random, Wanted, M};
use reference::{Weighting, MAX_NUMBERS};

/// Asks about random runs with limits of every kind.
fn compare_random(
    weighted: bool,
    group: u64,
    cases: u64,
    runs: [usize; 2],
    length: usize,
) -> Comparer {
    question::compare_random(Comparer::new(), weighted, seeds(group, cases), runs, length)
}

#[test]
fn few_short_runs() {
    for weighted in [false, true] {
        let comparer = compare_random(weighted, 1, 15_000, [0, 5], 8);
        assert!(comparer.asked() > 150_000);
        comparer.met(&[0, 1, 2, 5, 6, 7], 100);
    }
}

#[test]
fn more_runs() {
    for weighted in [false, true] {
        let comparer = compare_random(weighted, 2, 6_000, [3, 20], 20);
        assert!(comparer.asked() > 60_000);
        comparer.met(&[0, 2, 5, 6, 7], 100);
    }
}

#[test]
fn most_runs() {
    for weighted in [false, true] {
        let comparer = compare_random(weighted, 3, 1_500, [40, 65], 40);
        assert!(comparer.asked() > 15_000);
        comparer.met(&[0, 1, 2, 5, 6, 7], 10);
    }
}

#[test]
fn long_runs() {
    for weighted in [false, true] {
        let comparer = compare_random(weighted, 4, 200, [1, 8], 6_000);
        comparer.met(&[0, 5, 6, 7], 10);
    }
}

/// Every number of runs with every threshold, 0 and one too many included, and,
/// where runs have weights, with what the first of them weigh or one more.
#[test]
fn every_threshold() {
    let mut comparer = Comparer::new();
    for seed in seeds(5, 4 * 66) {
        let mut random = Random(seed);
        let k = (seed % 66) as usize;
        let runs = any_runs(&mut random, k, 8);
        let (numbers, ends) = lay_out(&runs);
        for threshold in 0..=k as u32 + 1 {
            let question = Question::plain(&numbers, &ends, threshold);
            comparer.compare_limits(seed, &mut random, question);
        }
        let weights = any_weights(&mut random, k);
        for first in 0..=k {
            let weight = weights[..first].iter().sum::<u32>();
            let wanted = Wanted::weighted(&weights, weight + random.below(2) as u32);
            let question = Question::wanting(&numbers, &ends, &wanted);
            comparer.compare_limits(seed, &mut random, question);
        }
    }
    comparer.met(&[0, 1, 2, 5, 6, 7], 100);
}

/// Every allowance with every size of both buffers, on small walks.
#[test]
fn every_limit() {
    let mut comparer = Comparer::new();
    for seed in seeds(6, 120) {
        let mut random = Random(seed);
        let k = random.from_to(1, 4);
        let runs = any_runs(&mut random, k, 5);
        let (numbers, ends) = lay_out(&runs);
        let wanted = Wanted::any(&mut random, k);
        let question = Question::wanting(&numbers, &ends, &wanted);
        comparer.compare_every_limit(seed, question);
    }
    comparer.met(&[0, 5, 6, 7], 10);
}

/// All runs over the first bin and the last two, each after up to two marks, up
/// to three runs, with every threshold and with weights that differ.
#[test]
fn all_small_inputs() {
    let mut comparer = Comparer::new();
    for k in 1..=3 {
        let weights = &[2, 1, 3][..k as usize];
        let plain = (1..=k).map(Wanted::plain);
        let weighted = (1..=weights.iter().sum()).map(|w| Wanted::weighted(weights, w));
        let all: Vec<Wanted> = plain.chain(weighted).collect();
        for (seed, runs) in (0..).zip(small_inputs(k)) {
            let (numbers, ends) = lay_out(&runs);
            for wanted in &all {
                let question = Question::wanting(&numbers, &ends, wanted);
                comparer.compare_limits(seed, &mut Random(seed), question);
            }
        }
    }
    comparer.met(&[0, 5, 6, 7], 10_000);
}

/// Rows broken in one to three ways, with weights that are broken in half of the
/// cases that have them.
#[test]
fn first_checks() {
    for weighted in [false, true] {
        let mut comparer = Comparer::new();
        for seed in seeds(7, 60_000) {
            let mut random = Random(seed);
            let (numbers, ends) = any_broken_rows(&mut random);
            let wanted = any_broken(&mut random, ends.len(), weighted);
            let question = Question::wanting(&numbers, &ends, &wanted);
            let limits = any_limits(&mut random);
            comparer.compare(seed, question, limits);
        }
        comparer.met(&[0, 1, 2, 3, 4, 5, 6, 7], 100);
        comparer.met(&[17], if weighted { 10_000 } else { 0 });
    }
}

/// Any rows at all.
#[test]
fn noise() {
    let mut comparer = Comparer::of_rows();
    for seed in seeds(8, 160_000) {
        let mut random = Random(seed);
        let (numbers, ends) = noise_rows(&mut random);
        let threshold = match random.one_in(2) {
            true => any_small(&mut random),
            false => random.from_to(1, ends.len().max(1)) as u32,
        };
        let length = match random.one_in(4) {
            true => random.below(5),
            false => ends.len(),
        };
        let weights: Vec<u32> = (0..length).map(|_| any_small(&mut random)).collect();
        let mut question = Question::plain(&numbers, &ends, threshold);
        if random.one_in(2) {
            question.weighting = Weighting::Given(&weights);
        }
        let limits = Limits {
            allowance: any_small(&mut random),
            answers: random.below(4),
            bytes: random.below(90),
        };
        comparer.compare(seed, question, limits);
    }
    comparer.met(&[0, 1, 2, 3, 4, 5, 6, 7, 17], 30);
}

/// The rows that the C interface writes, 0 for the place of an accepted query
/// included.
#[test]
fn rows_of_the_c_interface() {
    for weighted in [false, true] {
        let comparer = Comparer::of_rows();
        let comparer = question::compare_random(comparer, weighted, seeds(9, 3_000), [0, 9], 9);
        comparer.met(&[0, 1, 2, 5, 6, 7], 50);
    }
}

/// Exactly as many numbers as are allowed, and one more.
#[test]
fn most_numbers() {
    let mut comparer = Comparer::new();
    for (seed, shape) in seeds(10, 6).zip(SHAPES) {
        let mut random = Random(seed);
        let k = random.pick(&[2, 7, 64]);
        let (mut numbers, mut ends) = lay_out(&full_runs(&mut random, shape, k));
        let weights = any_weights(&mut random, k);
        for wanted in [
            Wanted::plain(1),
            Wanted::plain(k as u32 / 2),
            Wanted::plain(k as u32),
            Wanted::any_of(&mut random, &weights),
            Wanted::weighted(&weights, weights.iter().sum()),
        ] {
            let question = Question::wanting(&numbers, &ends, &wanted);
            let whole = whole(question).unwrap();
            comparer.compare(seed, question, whole);
        }
        numbers.push(M);
        for last_end in [MAX_NUMBERS, MAX_NUMBERS + 1] {
            ends[k - 1] = last_end as u32;
            for wanted in [Wanted::plain(1), Wanted::weighted(&weights, 1)] {
                let question = Question::wanting(&numbers, &ends, &wanted);
                let limits = Limits {
                    allowance: M,
                    answers: 3,
                    bytes: 50,
                };
                comparer.compare(seed, question, limits);
            }
        }
    }
    assert_eq!((comparer.seen[0], comparer.seen[3]), (30, 24));
}
