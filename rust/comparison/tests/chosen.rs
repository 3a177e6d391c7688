//! The checker with a mask: true certificates of the chosen runs of every form,
//! damaged ones, and masks that choose wrong.

use comparison::broken::{any_threshold, break_rows};
use comparison::certificates::Task;
use comparison::many::any_choice;
use comparison::question::{walk_of, Question};
use comparison::seeds;
use comparison::shapes::any_runs;
use comparison::verdicts::{self, walks_own, Kind, Seen};
use reference::testing::{
    chosen_instances, lay_out, marked_three_runs, slices, Random, FIRST_TWO_PARTS, THREE_RUNS,
};
use reference::{all_runs, encode};

#[test]
fn every_instance() {
    for (numbers, ends) in marked_three_runs().map(|runs| lay_out(&runs)) {
        let mut seen = Seen::default();
        for (mask, threshold, bytes, expected) in chosen_instances() {
            let verdict = reference::check_chosen(&numbers, &ends, mask, threshold, &bytes);
            assert_eq!(verdict, expected);
            let question = Question::plain(&numbers, &ends, threshold);
            seen.compare(0, question.choosing(mask), &bytes);
        }
        seen.met(&[0, 2, 9, 10, 11, 13], 1);
    }
}

/// With some runs chosen.
fn compare_random(group: u64, cases: u64, runs: [usize; 2], length: usize) -> Seen {
    verdicts::compare_random(Kind::Chosen, seeds(group, cases), runs, length)
}

#[test]
fn few_short_runs() {
    let seen = compare_random(101, 8_000, [2, 6], 6);
    assert!(seen.all() > 90_000);
    seen.met(&[0, 8, 9, 10, 11], 2_000);
}

#[test]
fn more_runs() {
    let seen = compare_random(102, 2_000, [5, 20], 10);
    seen.met(&[0, 8, 9, 10, 11], 300);
}

#[test]
fn most_runs() {
    let seen = compare_random(103, 250, [60, 64], 12);
    seen.met(&[0, 8, 9, 10, 11], 50);
}

#[test]
fn long_runs() {
    let seen = compare_random(104, 40, [1, 5], 300);
    seen.met(&[0, 8, 9, 10, 11], 5);
}

/// With all runs chosen the verdict is that without a mask.
#[test]
fn all_runs_chosen() {
    let mut seen = Seen::default();
    for seed in seeds(105, 5_000) {
        let mut random = Random(seed);
        let k = random.pick(&[1, 2, 3, 5, 64]);
        let runs = any_runs(&mut random, k, 6);
        let runs = slices(&runs);
        let task = Task::of_all(&runs, random.from_to(1, k) as u32);
        let (numbers, ends) = lay_out(&runs);
        let question = Question::plain(&numbers, &ends, task.threshold);
        let mut parts = walks_own(task);
        for _ in 0..random.below(3) {
            task.damage_parts(&mut random, &mut parts);
        }
        let bytes = encode(&parts);
        let with_mask = seen.compare(seed, question.choosing(task.chosen()), &bytes);
        assert_eq!(with_mask, seen.compare(seed, question, &bytes));
        let check = quorum::check(&numbers, &ends, task.threshold, &bytes);
        let chosen = quorum::check_chosen(&numbers, &ends, all_runs(k), task.threshold, &bytes);
        assert_eq!(check, chosen, "seed {seed}");
    }
    seen.met(&[0, 9, 10, 11], 500);
}

/// Rows, masks and thresholds that the first checks refuse, in any combination.
#[test]
fn first_checks() {
    let mut seen = Seen::default();
    for seed in seeds(106, 40_000) {
        let mut random = Random(seed);
        let k = random.pick(&[0, 1, 2, 3, 4, 8, 63, 64, 65, 66]);
        let length = random.below(8);
        let (mut numbers, mut ends) = lay_out(&any_runs(&mut random, k, length));
        let mask = match random.below(8) {
            0 => 0,
            1 => random.bits(),
            2 => 1 << random.from_to(k.min(63), 63),
            _ => any_choice(&mut random, k.max(1)),
        };
        let threshold = any_threshold(&mut random, mask.count_ones() as usize);
        let own = walk_of(Question::plain(&numbers, &ends, threshold).choosing(mask));
        let own = own.map_or(Vec::new(), |walk| walk.parts);
        // Now and then it is checked for other runs.
        let mask = match random.one_in(6) {
            true => any_choice(&mut random, k.max(1)),
            false => mask,
        };
        for _ in 0..random.from_to(0, 2) {
            break_rows(&mut random, &mut numbers, &mut ends);
        }
        let question = Question::plain(&numbers, &ends, threshold);
        seen.compare(seed, question.choosing(mask), &encode(&own));
    }
    seen.met(&[0, 1, 2, 3, 4, 9, 10, 11, 13], 50);
}

/// With every choice of three runs and every threshold.
#[test]
fn every_mask() {
    let mut seen = Seen::default();
    let runs: [&[u32]; 3] = [&[7], &[7, 8], &[8]];
    for chosen in 1..=all_runs(3) {
        for threshold in 1..=chosen.count_ones() {
            seen.compare_every_mask(Task::of_chosen(&runs, chosen, threshold));
        }
    }
    seen.met(&[9, 10, 11], 100);
}

/// The certificate of the first two of three runs.
#[test]
fn every_byte() {
    let task = Task::of_chosen(&THREE_RUNS, 3, 2);
    let whole = encode(&FIRST_TWO_PARTS);
    assert_eq!(whole, encode(&walks_own(task)));
    let mut seen = Seen::default();
    seen.compare_every_byte(task, &whole);
    seen.met(&[0, 8, 9, 10, 11], 20);
}
