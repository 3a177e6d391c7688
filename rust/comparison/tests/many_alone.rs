//! Each question of a call against the single question: one question over all
//! runs is that, and any other is that of its chosen runs alone, but for the
//! numbering of its masks. And against the bound over its chosen runs.

use comparison::many::{any_choice, ask_one, result_of, whole, Call, Comparer};
use comparison::question::{ask_runs, whole as whole_single, Limits, Question};
use comparison::seeds;
use comparison::shapes::any_runs;
use comparison::verdicts::Seen;
use quorum::{enough_answers, enough_bytes, probe_bound, probe_bound_chosen, Counts};
use reference::testing::{choose, lay_out, renumber, slices, Random};
use reference::{all_runs, decode, encode, is_true_by, Weighting};

#[test]
fn one_question_about_all_runs() {
    let mut stopped = 0;
    for seed in seeds(91, 8_000) {
        let mut random = Random(seed);
        let k = random.pick(&[1, 2, 3, 5, 9, 64]);
        let runs = any_runs(&mut random, k, 7);
        let threshold = random.from_to(1, k) as u32;
        let (numbers, ends) = lay_out(&runs);
        let question = Question::plain(&numbers, &ends, threshold);
        let exact = whole_single(question).unwrap();
        let cut = Limits {
            allowance: random.below(exact.allowance as usize + 1) as u32,
            answers: random.below(exact.answers + 1),
            bytes: random.below(exact.bytes + 1),
        };
        let spent = Limits {
            allowance: cut.allowance,
            ..exact
        };
        for limits in [exact, cut, spent] {
            let single = ask_runs(&runs, threshold, limits);
            let one = ask_one(&runs, all_runs(k), threshold, limits);
            assert_eq!(one, single, "seed {seed}: {question:?}");
            stopped += u64::from(single.0.is_err());
        }
    }
    assert!(stopped > 5_000, "{stopped}");
}

/// Compares each question of a whole call with the chosen runs alone, with the
/// checkers and with the bounds.
fn compare_alone(seed: u64, runs: &[Vec<u32>], call: &Call, seen: &mut Seen) {
    let context = || format!("seed {seed}: {call:?}");
    let mut comparer = Comparer::new();
    let ample = Limits {
        allowance: u32::MAX,
        answers: enough_answers(call.numbers.len()),
        bytes: enough_bytes(call.numbers.len()),
    };
    let exact = whole(call).unwrap();
    let row = comparer.compare(seed, call, exact, call.results());
    let counts = result_of(row).unwrap();
    let all = comparer.finished(call.masks.len());
    let mut sums = Counts::default();
    let mut bounds = 0;
    for ((question, &mask), &threshold) in all.iter().zip(&call.masks).zip(&call.thresholds) {
        let chosen = choose(runs, mask);
        let (alone, answers, certificate) = ask_runs(&chosen, threshold, ample);
        let alone = alone.unwrap();
        assert_eq!(question.answers, answers, "{}", context());
        let renumbered = renumber(&decode(&certificate).unwrap(), mask);
        assert_eq!(question.certificate, encode(&renumbered), "{}", context());
        let weighting = Weighting::Chosen(mask);
        assert!(is_true_by(&slices(runs), weighting, threshold, &renumbered));
        sums.answers += alone.answers;
        sums.parts += alone.parts;
        sums.bytes += alone.bytes;
        sums.doublings += alone.doublings;
        sums.halvings += alone.halvings;

        let single = Question::plain(&call.numbers, &call.ends, threshold);
        let number = seen.compare(seed, single.choosing(mask), question.certificate);
        assert_eq!(number, 0, "{}", context());

        // The bound is that of the chosen runs alone, for the walk's own parts.
        let own_parts = alone.parts as u32;
        let bound = probe_bound_chosen(&call.ends, mask, own_parts);
        assert_eq!(bound, probe_bound(&lay_out(&chosen).1, own_parts));
        let bound = bound.unwrap();
        assert!(alone.probes() <= bound, "{}", context());
        bounds += bound;
    }
    assert_eq!(counts, sums, "{}", context());
    assert!(counts.probes() <= bounds, "{}", context());
    let bounded = Limits {
        allowance: bounds as u32,
        ..exact
    };
    let row = comparer.compare(seed, call, bounded, call.results());
    assert_eq!(result_of(row), Ok(counts), "{}", context());
}

fn compare_random(group: u64, cases: u64, runs: [usize; 2], length: usize) {
    let mut seen = Seen::default();
    for seed in seeds(group, cases) {
        let mut random = Random(seed);
        let k = random.from_to(runs[0], runs[1]);
        let length = random.below(length + 1);
        let runs = any_runs(&mut random, k, length);
        let questions = random.below(9);
        let call = Call::any(&mut random, &runs, questions);
        compare_alone(seed, &runs, &call, &mut seen);
    }
    seen.met(&[0], cases);
}

#[test]
fn few_short_runs() {
    compare_random(92, 8_000, [1, 6], 8);
}

#[test]
fn more_runs() {
    compare_random(93, 1_000, [5, 64], 12);
}

#[test]
fn long_runs() {
    compare_random(94, 40, [1, 8], 1_500);
}

/// Of a call that stops early, the questions before the one that was stopped are
/// whole.
#[test]
fn finished_before_a_stop() {
    let mut seen = Seen::default();
    let mut comparer = Comparer::new();
    for seed in seeds(96, 10_000) {
        let mut random = Random(seed);
        let k = random.from_to(1, 7);
        let runs = any_runs(&mut random, k, 6);
        let questions = random.from_to(2, 6);
        let call = Call::any(&mut random, &runs, questions);
        let exact = whole(&call).unwrap();
        let limits = match random.below(3) {
            0 => Limits {
                allowance: random.below(exact.allowance as usize + 1) as u32,
                ..exact
            },
            1 => Limits {
                answers: random.below(exact.answers + 1),
                ..exact
            },
            _ => Limits {
                bytes: random.below(exact.bytes),
                ..exact
            },
        };
        let row = comparer.compare(seed, &call, limits, call.results());
        let Err(stopped) = result_of(row) else {
            continue;
        };
        assert_eq!(stopped.finished(), stopped.question, "seed {seed}");
        for (i, question) in comparer.finished(stopped.question).iter().enumerate() {
            let single = Question::plain(&call.numbers, &call.ends, call.thresholds[i]);
            let single = single.choosing(call.masks[i]);
            let number = seen.compare(seed, single, question.certificate);
            assert_eq!(number, 0, "seed {seed}: {call:?}");
            let chosen = choose(&runs, call.masks[i]);
            let whole = ask_runs(&chosen, call.thresholds[i], exact);
            assert_eq!(question.answers, whole.1, "seed {seed}: {call:?}");
        }
    }
    seen.met(&[0], 5_000);
}

/// The same certificate, checked for another choice of runs: refused as 10 if it
/// names a run that is not chosen, and not before that.
#[test]
fn other_choices() {
    let mut seen = Seen::default();
    let mut comparer = Comparer::new();
    for seed in seeds(95, 6_000) {
        let mut random = Random(seed);
        let k = random.from_to(2, 7);
        let runs = any_runs(&mut random, k, 6);
        let call = Call::any(&mut random, &runs, 3);
        let exact = whole(&call).unwrap();
        comparer.compare(seed, &call, exact, call.results());
        for question in comparer.finished(3) {
            let mask = any_choice(&mut random, k);
            let threshold = random.from_to(1, mask.count_ones() as usize) as u32;
            let single = Question::plain(&call.numbers, &call.ends, threshold);
            let number = seen.compare(seed, single.choosing(mask), question.certificate);
            let parts = decode(question.certificate).unwrap();
            let weighting = Weighting::Chosen(mask);
            let truth = is_true_by(&slices(&runs), weighting, threshold, &parts);
            assert_eq!(truth, number == 0, "seed {seed}: {call:?}");
            if parts.iter().any(|part| part.mask() & !mask != 0) {
                assert!(matches!(number, 10 | 11), "seed {seed}: {call:?}");
            }
        }
    }
    seen.met(&[0, 10], 500);
}
