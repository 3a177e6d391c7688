//! The checker, without weights and with them: true certificates of every form
//! and damaged ones.

use comparison::broken::{any_broken, any_wanted, break_rows};
use comparison::certificates::Task;
use comparison::question::{walk_of, Question};
use comparison::seeds;
use comparison::shapes::{any_runs, shaped_runs, Shape, SHAPES};
use comparison::verdicts::{self, walks_own, Kind, Seen};
use quorum::Refusal;
use reference::testing::{
    any_weights, checked_instances, gap, hit, lay_out, marked_three_runs, slices, weighted_checks,
    Random, Wanted, M, THREE_RUNS,
};
use reference::{encode, Weighting};

/// The instances of docs/SPECIFICATION.md.
#[test]
fn every_instance() {
    for runs in marked_three_runs() {
        let (numbers, ends) = lay_out(&runs);
        let runs = slices(&runs);
        let task = Task::of_all(&runs, 2);
        let mut seen = Seen::default();
        for (bytes, expected) in checked_instances() {
            assert_eq!(reference::check(&numbers, &ends, 2, &bytes), expected);
            seen.compare_with_truth(0, task, &bytes);
        }
        seen.met(&[0, 8, 9, 10, 11], 1);
    }
}

/// Those with weights, each checked without weights too.
#[test]
fn every_instance_with_weights() {
    for runs in marked_three_runs() {
        let (numbers, ends) = lay_out(&runs);
        let mut seen = Seen::default();
        for (weights, wanted, bytes, expected) in weighted_checks() {
            let verdict = reference::check_weighted(&numbers, &ends, &weights, wanted, &bytes);
            assert_eq!(verdict, expected);
            let mut question = Question::plain(&numbers, &ends, wanted);
            seen.compare(0, question, &bytes);
            question.weighting = Weighting::Given(&weights);
            seen.compare(0, question, &bytes);
        }
        seen.met(&[0, 2, 9, 10, 11, 17], 1);
    }
}

/// Without weights and with them. Each certificate is judged by both checkers,
/// and many are true for one alone.
fn compare_random(group: u64, cases: u64, runs: [usize; 2], length: usize, met: [u64; 2]) {
    let mut true_of_one = [0; 2];
    for kind in [Kind::Plain, Kind::Weighted] {
        let seen = verdicts::compare_random(kind, seeds(group, cases), runs, length);
        seen.met(&[0, 8, 9, 10, 11], met[0]);
        true_of_one[0] += seen.true_of_one[0];
        true_of_one[1] += seen.true_of_one[1];
    }
    println!("true by weight alone and without weights alone: {true_of_one:?}");
    assert!(true_of_one.iter().all(|&count| count >= met[1]));
}

#[test]
fn few_short_runs() {
    compare_random(41, 20_000, [1, 5], 6, [20_000, 30_000]);
}

#[test]
fn more_runs() {
    compare_random(42, 6_000, [5, 20], 10, [5_000, 15_000]);
}

#[test]
fn most_runs() {
    compare_random(43, 500, [60, 64], 12, [500, 1_000]);
}

#[test]
fn long_runs() {
    compare_random(44, 60, [1, 4], 300, [50, 50]);
}

/// The true certificates of three runs, without weights and with them.
#[test]
fn every_byte() {
    for wanted in [Wanted::plain(2), Wanted::weighted(&[3, 1, 1], 3)] {
        let task = Task::wanting(&THREE_RUNS, &wanted);
        let mut seen = Seen::default();
        seen.compare_every_byte(task, &encode(&walks_own(task)));
        seen.met(&[0, 8, 9, 10, 11], 50);
    }
}

/// The first checks come before the certificate.
#[test]
fn first_checks() {
    for weighted in [false, true] {
        let mut seen = Seen::default();
        for seed in seeds(45, 40_000) {
            let mut random = Random(seed);
            let k = random.pick(&[0, 1, 2, 3, 4, 8, 63, 64, 65, 66]);
            let length = random.below(8);
            let (mut numbers, mut ends) = lay_out(&any_runs(&mut random, k, length));
            let wanted = any_wanted(&mut random, k, weighted);
            let own = walk_of(Question::wanting(&numbers, &ends, &wanted));
            let own = own.map_or(Vec::new(), |walk| walk.parts);
            for _ in 0..random.from_to(0, 3) {
                break_rows(&mut random, &mut numbers, &mut ends);
            }
            // Now and then it is checked for other weights, or for bad ones.
            let wanted = match random.one_in(4) && weighted {
                true => any_broken(&mut random, ends.len(), weighted),
                false => wanted,
            };
            let question = Question::wanting(&numbers, &ends, &wanted);
            seen.compare(seed, question, &encode(&own));
        }
        seen.met(&[0, 1, 2, 3, 4, 9, 10, 11], 50);
        seen.met(&[17], if weighted { 5_000 } else { 0 });
    }
}

/// Certificates that a checker going back to the front of a run for each part
/// would take minutes over.
#[test]
fn most_numbers() {
    let mut seen = Seen::default();
    for (seed, shape) in seeds(46, 6).zip(SHAPES) {
        let mut random = Random(seed);
        let k = random.pick(&[2, 7, 64]);
        // The numbers of a skewed case are mostly those of one run.
        let length = match shape {
            Shape::Skewed => 1_000_000,
            _ => 1_000_000 / k,
        };
        let mut runs = shaped_runs(&mut random, shape, k, length);
        let mut room = 1_048_576;
        for run in &mut runs {
            run.truncate(room);
            room -= run.len();
        }
        let (numbers, ends) = lay_out(&runs);
        let weights = any_weights(&mut random, k);
        for wanted in [
            Wanted::plain(1),
            Wanted::plain(k as u32),
            Wanted::any_of(&mut random, &weights),
        ] {
            let question = Question::wanting(&numbers, &ends, &wanted);
            let parts = walk_of(question).unwrap().parts;
            let mut bytes = encode(&parts);
            assert_eq!(seen.compare(seed, question, &bytes), 0);
            let middle = bytes.len() / 2;
            bytes[middle] ^= 1;
            seen.compare(seed, question, &bytes);
        }
    }
    assert_eq!(seen.refusals[0], 18);
}

/// With every threshold, and with every wanted weight of some weights.
#[test]
fn every_mask() {
    let mut seen = Seen::default();
    let runs: [&[u32]; 3] = [&[7], &[7, 8], &[8]];
    let mut all: Vec<Wanted> = (1..=3).map(Wanted::plain).collect();
    for weights in [[1, 2, 3], [3, 1, 1], [2, 2, 1], [5, 9, 2]] {
        all.extend((1..=weights.iter().sum()).map(|wanted| Wanted::weighted(&weights, wanted)));
    }
    for wanted in &all {
        seen.compare_every_mask(Task::wanting(&runs, wanted));
    }
    seen.met(&[9, 10, 11], 100);
}

#[test]
fn instances() {
    let refusal = |number, place| Err(Refusal { number, place });
    assert_eq!(quorum::check(&[7], &[1], 1, &[]), refusal(9, 0));
    assert_eq!(quorum::check(&[3, 3], &[2], 1, &[]), refusal(4, 1));
    assert_eq!(quorum::check(&[0, 0, 5, 0], &[4], 1, &[]), refusal(4, 3));
    assert_eq!(quorum::check(&[0, 0, 5], &[3], 1, &[]), refusal(9, 0));
    let five = encode(&[gap(1, 4, 1), hit(5, 1), gap(6, M, 1)]);
    let checked = quorum::check(&[0, 0, 5], &[3], 1, &five).unwrap();
    assert_eq!((checked.answers, checked.parts), (1, 3));
    let nothing = encode(&[gap(1, M, 1)]);
    assert_eq!(quorum::check(&[0, 0, 5], &[3], 1, &nothing), refusal(11, 0));
    assert_eq!(quorum::check(&[7; 65], &[0; 65], 1, &[]), refusal(1, 65));
    assert_eq!(quorum::check(&[7], &[1], 2, &[]), refusal(2, 2));
}
