//! What the first run holds alone: the instances, random and broken questions of
//! every kind, and the certificate, which is that of a question about the other
//! runs.

use comparison::alone::{any_runs_and_first, compare_random, Alone};
use comparison::broken::{
    any_broken_rows, any_limits, any_small, any_threshold, faulty_rows, noise_rows,
};
use comparison::cuts::Cuts;
use comparison::many::ask_one;
use comparison::question::{
    ask_runs, result_of, row_of, walk_of, Asked, Comparer, Limits, Written,
};
use comparison::seeds;
use comparison::shapes::{any_runs, full_runs, SHAPES};
use comparison::verdicts::Seen;
use quorum::{
    check_chosen, enough_answers, enough_bytes, probe_bound_chosen, Checked, Counts, Refusal,
    Stopped, ENOUGH_PROBES,
};
use reference::testing::{
    alone_instances, held_alone, lay_out, marked, renumber, slices, small_inputs, AloneInstance,
    Random, M,
};
use reference::{
    bins, decode, encode, fewest_parts_by, leading_zeros, other_runs, Outcome, Weighting,
    MAX_NUMBERS, MAX_RUNS,
};

/// Asks the library with the given allowance and buffers of the given lengths,
/// having compared it with the reference.
fn expect(instance: &AloneInstance, allowance: u32, room: [usize; 2]) {
    const FILLER: u32 = 0xabab_abab;
    let AloneInstance {
        name, runs, parts, ..
    } = instance;
    let (numbers, ends) = lay_out(runs);
    let question = Alone::new(&numbers, &ends, instance.threshold);
    let limits = Limits {
        allowance,
        answers: room[0],
        bytes: room[1],
    };
    for mut comparer in [Comparer::new(), Comparer::of_rows()] {
        let outcome = comparer.compare(0, question, limits);
        assert_eq!(outcome, instance.outcome, "{name}");
    }
    let (mut answers, mut certificate) = (vec![FILLER; room[0]], vec![FILLER as u8; room[1]]);
    let result = question.ask(allowance, &mut answers, &mut certificate);
    assert_eq!(result, result_of(instance.outcome), "{name}");
    let mut expected = instance.answers.clone();
    expected.resize(room[0], FILLER);
    assert_eq!(answers, expected, "{name}");
    let mut expected = encode(parts);
    expected.resize(room[1], FILLER as u8);
    assert_eq!(certificate, expected, "{name}");
}

/// Asks as the instance says; if that is accepted, with exactly what it needs and
/// with ample limits too.
#[test]
fn every_instance() {
    for instance in alone_instances() {
        expect(&instance, instance.allowance, instance.room);
        if instance.is_accepted() {
            let exact = [instance.answers.len(), encode(&instance.parts).len()];
            expect(&instance, instance.allowance, exact);
            expect(&instance, M, [1_024, 65_536]);
        }
    }
}

#[test]
fn few_short_runs() {
    let comparer = compare_random(Comparer::new(), seeds(151, 15_000), [0, 5], 8);
    assert!(comparer.asked() > 120_000);
    comparer.met(&[0, 1, 2, 5, 6, 7], 100);
}

#[test]
fn more_runs() {
    let comparer = compare_random(Comparer::new(), seeds(152, 5_000), [3, 20], 20);
    assert!(comparer.asked() > 50_000);
    comparer.met(&[0, 2, 5, 6, 7], 100);
}

#[test]
fn most_runs() {
    let comparer = compare_random(Comparer::new(), seeds(153, 1_500), [40, 65], 40);
    assert!(comparer.asked() > 15_000);
    comparer.met(&[0, 1, 2, 5, 6, 7], 10);
}

#[test]
fn long_runs() {
    let comparer = compare_random(Comparer::new(), seeds(154, 200), [2, 8], 6_000);
    comparer.met(&[0, 5, 6, 7], 10);
}

/// The rows that the C interface writes, 0 for the place of an accepted question
/// included.
#[test]
fn rows_of_the_c_interface() {
    let comparer = compare_random(Comparer::of_rows(), seeds(155, 4_000), [0, 9], 9);
    comparer.met(&[0, 1, 2, 5, 6, 7], 50);
}

/// Every number of runs with every threshold, 0, as many as there are runs and one
/// more included.
#[test]
fn every_threshold() {
    let mut comparer = Comparer::new();
    for seed in seeds(156, 4 * 66) {
        let mut random = Random(seed);
        let k = (seed % 66) as usize;
        let (numbers, ends) = lay_out(&any_runs_and_first(&mut random, k, 8));
        for threshold in 0..=k as u32 + 1 {
            let question = Alone::new(&numbers, &ends, threshold);
            comparer.compare_limits(seed, &mut random, question);
        }
    }
    comparer.met(&[0, 1, 2, 5, 6, 7], 100);
}

/// Every allowance with every size of both buffers, on small walks.
#[test]
fn every_limit() {
    let mut comparer = Comparer::new();
    for seed in seeds(157, 70) {
        let mut random = Random(seed);
        let k = random.from_to(2, 5);
        let (numbers, ends) = lay_out(&any_runs_and_first(&mut random, k, 5));
        let threshold = random.from_to(1, k - 1) as u32;
        let question = Alone::new(&numbers, &ends, threshold);
        comparer.compare_every_limit(seed, question);
    }
    comparer.met(&[0, 5, 6, 7], 300);
}

/// All runs over the first bin and the last two, each after up to two marks, two
/// or three of them, with every threshold.
#[test]
fn all_small_inputs() {
    let mut comparer = Comparer::new();
    for k in 2..=3 {
        for (seed, runs) in (0..).zip(small_inputs(k)) {
            let (numbers, ends) = lay_out(&runs);
            for threshold in 1..k {
                let question = Alone::new(&numbers, &ends, threshold);
                comparer.compare_limits(seed, &mut Random(seed), question);
            }
        }
    }
    comparer.met(&[0, 5, 6, 7], 10_000);
}

/// Rows broken in one to three ways, and thresholds of which some are for all runs.
#[test]
fn first_checks() {
    let mut comparer = Comparer::new();
    for seed in seeds(158, 60_000) {
        let mut random = Random(seed);
        let (numbers, ends) = any_broken_rows(&mut random);
        let of = ends.len().saturating_sub(usize::from(!random.one_in(8)));
        let threshold = any_threshold(&mut random, of);
        let question = Alone::new(&numbers, &ends, threshold);
        let limits = any_limits(&mut random);
        comparer.compare(seed, question, limits);
    }
    comparer.met(&[0, 1, 2, 3, 4, 5, 6, 7], 100);
}

/// Any rows at all.
#[test]
fn noise() {
    let mut comparer = Comparer::of_rows();
    for seed in seeds(159, 120_000) {
        let mut random = Random(seed);
        let (numbers, ends) = noise_rows(&mut random);
        let threshold = match random.one_in(3) {
            true => any_small(&mut random),
            false => random.from_to(1, ends.len().max(2) - 1) as u32,
        };
        let question = Alone::new(&numbers, &ends, threshold);
        let limits = Limits {
            allowance: any_small(&mut random),
            answers: random.below(4),
            bytes: random.below(90),
        };
        comparer.compare(seed, question, limits);
    }
    comparer.met(&[0, 1, 2, 3, 4, 5, 6], 100);
    comparer.met(&[7], 10);
}

/// A fault of each first check, and the refusal that each of them is if no other
/// comes before it.
#[test]
fn every_combination_of_faults() {
    let mut comparers = [Comparer::new(), Comparer::of_rows()];
    let mut expect = |question: Alone, refusal: Option<(u8, u64)>| {
        let limits = Limits {
            allowance: M,
            answers: 70,
            bytes: 100,
        };
        for comparer in &mut comparers {
            let outcome = comparer.compare(0, question, limits);
            let found = match outcome {
                Outcome::Refused { number, place, .. } => Some((number, place)),
                Outcome::Accepted { .. } => None,
            };
            assert_eq!(found, refusal, "{question:?}");
        }
    };
    for k in [0, 1, 2, 3, 63, 64, 65, 66] {
        let good = k as u32 / 2;
        for threshold in [good.max(1), 0, k as u32, k as u32 + 1, M] {
            for ((numbers, ends), refusal) in faulty_rows(k) {
                let question = Alone::new(&numbers, &ends, threshold);
                let refusal = if !(1..=MAX_RUNS).contains(&k) {
                    Some((1, k as u64))
                } else if threshold == 0 || threshold as usize > k - 1 {
                    Some((2, threshold.into()))
                } else {
                    refusal
                };
                expect(question, refusal);
            }
        }
    }
    for comparer in comparers {
        comparer.met(&[0, 1, 2, 3, 4], 4);
    }
}

/// Exactly as many numbers as are allowed, the long run first and last, and one
/// more.
#[test]
fn most_numbers() {
    let mut comparer = Comparer::new();
    for (seed, shape) in seeds(160, 6).zip(SHAPES) {
        let mut random = Random(seed);
        let k = random.pick(&[2, 7, MAX_RUNS]);
        let mut runs = full_runs(&mut random, shape, k);
        for _ in 0..2 {
            runs.rotate_right(1);
            let (mut numbers, mut ends) = lay_out(&runs);
            assert_eq!(numbers.len(), MAX_NUMBERS);
            for threshold in [1, k / 2, k - 1] {
                let question = Alone::new(&numbers, &ends, threshold as u32);
                let whole = question.whole().unwrap();
                comparer.compare(seed, question, whole);
                let answers = random.below(whole.answers + 1);
                comparer.compare(seed, question, Limits { answers, ..whole });
            }
            numbers.push(M);
            for last_end in [MAX_NUMBERS, MAX_NUMBERS + 1] {
                ends[k - 1] = last_end as u32;
                let limits = any_limits(&mut random);
                comparer.compare(seed, Alone::new(&numbers, &ends, 1), limits);
            }
        }
    }
    comparer.met(&[0, 3], 24);
    comparer.met(&[5], 12);
}

/// Allowances that end a search before its first probe, in its doubling, where its
/// halving begins, and in its halving: no answer is written, and the probes are told
/// by their kind.
#[test]
fn cuts() {
    let mut comparers = [Comparer::new(), Comparer::of_rows()];
    let mut cuts = Cuts::default();
    for seed in seeds(161, 6_000) {
        let mut random = Random(seed);
        let k = random.from_to(3, 7);
        let length = random.pick(&[8, 30, 100, 400]);
        let (numbers, ends) = lay_out(&any_runs_and_first(&mut random, k, length));
        // With a threshold of 1 there is no search.
        let threshold = random.from_to(2, k - 1) as u32;
        let question = Alone::new(&numbers, &ends, threshold);
        let walk = walk_of(question.others()).unwrap();
        let whole = question.whole().unwrap();
        for made in cuts.any_of_each(&mut random, walk.searches) {
            let limits = Limits {
                allowance: made.total() as u32,
                answers: random.pick(&[0, whole.answers]),
                ..whole
            };
            for comparer in &mut comparers {
                let row = row_of(comparer.compare(seed, question, limits));
                let expected = [7, 0, made.doublings, made.halvings];
                assert_eq!([row[0], row[2], row[5], row[6]], expected, "seed {seed}");
            }
        }
    }
    cuts.met(1_000);
}

/// The question about the other runs, in a call of many, and without the first run,
/// its masks then put into the numbering of all runs. There is room for all answers.
fn ask_others(runs: &[Vec<u32>], threshold: u32, limits: Limits) -> [Written; 2] {
    let answers = runs[1..].iter().map(Vec::len).sum();
    let limits = Limits { answers, ..limits };
    let mask = other_runs(runs.len());
    let chosen = ask_one(runs, mask, threshold, limits);
    let (result, answers, certificate) = ask_runs(&runs[1..], threshold, limits);
    let parts = renumber(&decode(&certificate).unwrap(), mask);
    [chosen, (result, answers, encode(&parts))]
}

/// Compares a question with that about the other runs: its certificate, its probes
/// and, if that is not accepted, its refusal are the same. Where the certificate is
/// whole, the checker accepts it for the other runs, and each bin of the first run
/// is an answer of the one or of the other.
fn compare_others(
    comparer: &mut Comparer,
    seen: &mut Seen,
    seed: u64,
    (runs, threshold): (&[Vec<u32>], u32),
    limits: Limits,
) {
    let (numbers, ends) = lay_out(runs);
    let question = Alone::new(&numbers, &ends, threshold);
    let context = || format!("seed {seed}: {limits:?}, {question:?}");
    let result = result_of(comparer.compare(seed, question, limits));
    let (answers, certificate) = comparer.found();
    let counts = result.unwrap_or_else(|stopped| stopped.counts);
    let (answers, certificate) = (&answers[..counts.answers], &certificate[..counts.bytes]);
    let [chosen, without_first] = ask_others(runs, threshold, limits);
    assert_eq!(chosen, without_first, "{}", context());
    let (of_others, held, of_others_certificate) = chosen;
    assert_eq!(certificate, of_others_certificate, "{}", context());

    let answers_of = |counts: Counts, answers| Counts { answers, ..counts };
    let expected = match of_others {
        // The walk was ended, and no answer was written.
        Err(Stopped { refusal, counts }) => {
            let counts = answers_of(counts, 0);
            assert_eq!(result, Err(Stopped { refusal, counts }), "{}", context());
            return;
        }
        Ok(counts) => counts,
    };
    assert_eq!(counts, answers_of(expected, answers.len()), "{}", context());
    let all = held_alone(runs, threshold);
    assert_eq!(answers, &all[..all.len().min(limits.answers)]);
    let refusal = result.map_or_else(|stopped| Some(stopped.refusal), |_| None);
    let full = Refusal {
        number: Refusal::ANSWERS_FULL,
        place: counts.parts as u64,
    };
    let is_full = all.len() > limits.answers;
    assert_eq!(refusal, is_full.then_some(full), "{}", context());
    let is_held = |x: &&u32| held.binary_search(x).is_ok();
    let held_too = bins(&runs[0]).iter().filter(is_held).count();
    assert_eq!(all.len() + held_too, bins(&runs[0]).len());

    let parts = decode(certificate).unwrap();
    assert!(parts.iter().all(|part| part.mask() & 1 == 0));
    let number = seen.compare(seed, question.others(), certificate);
    assert_eq!(number, 0, "{}", context());
    let checked = check_chosen(&numbers, &ends, question.mask(), threshold, certificate);
    let expected = Checked {
        answers: held.len(),
        parts: counts.parts,
    };
    assert_eq!(checked, Ok(expected), "{}", context());
}

#[test]
fn a_question_about_the_others() {
    let mut comparer = Comparer::new();
    let mut seen = Seen::default();
    for (group, cases, runs, length) in [
        (162, 8_000, [2, 6], 8),
        (163, 1_000, [5, MAX_RUNS], 12),
        (164, 60, [2, 8], 1_500),
    ] {
        for seed in seeds(group, cases) {
            let mut random = Random(seed);
            let k = random.from_to(runs[0], runs[1]);
            let length = random.below(length + 1);
            let runs = any_runs_and_first(&mut random, k, length);
            let threshold = random.from_to(1, k - 1) as u32;
            let (numbers, ends) = lay_out(&runs);
            let whole = Alone::new(&numbers, &ends, threshold).whole().unwrap();
            let answers = random.below(whole.answers + 1);
            for limits in [
                whole,
                Limits { answers, ..whole },
                Limits {
                    allowance: random.below(whole.allowance as usize + 1) as u32,
                    answers,
                    ..whole
                },
                Limits {
                    bytes: random.below(whole.bytes),
                    ..whole
                },
            ] {
                let question = (&runs[..], threshold);
                compare_others(&mut comparer, &mut seen, seed, question, limits);
            }
        }
    }
    comparer.met(&[0, 5, 6, 7], 2_000);
    seen.met(&[0], 15_000);
}

/// What the documentation calls enough is: an answer for each number of the first
/// run, the bytes for the numbers of the others, and the bound on the probes in these
/// for the fewest parts of any true certificate of theirs.
#[test]
fn always_enough() {
    let mut comparer = Comparer::new();
    for seed in seeds(165, 6_000) {
        let mut random = Random(seed);
        let k = random.from_to(2, 6);
        let runs = any_runs_and_first(&mut random, k, 7);
        let (numbers, ends) = lay_out(&runs);
        for threshold in 1..k as u32 {
            let question = Alone::new(&numbers, &ends, threshold);
            let weighting = Weighting::Chosen(question.mask());
            let fewest = fewest_parts_by(&slices(&runs), weighting, threshold);
            let bound = probe_bound_chosen(&ends, question.mask(), fewest as u32).unwrap();
            assert!(bound <= ENOUGH_PROBES.into());
            let limits = Limits {
                allowance: bound as u32,
                answers: enough_answers(runs[0].len()),
                bytes: enough_bytes(numbers.len() - runs[0].len()),
            };
            let counts = result_of(comparer.compare(seed, question, limits)).unwrap();
            assert_eq!(counts.parts, fewest, "seed {seed}: {question:?}");
        }
    }
    assert_eq!(comparer.asked(), comparer.seen[0]);
}

/// The marks that runs begin with, the first and the others, change nothing but the
/// numbers lent; a first run without a bin has no answer.
#[test]
fn marks() {
    let mut comparer = Comparer::new();
    for seed in seeds(166, 3_000) {
        let mut random = Random(seed);
        let k = random.pick(&[2, 3, 5, MAX_RUNS]);
        let mut runs = any_runs(&mut random, k, 8);
        if random.one_in(4) {
            let marks = leading_zeros(&runs[0]);
            runs[0].truncate(marks);
        }
        let bare: Vec<&[u32]> = runs.iter().map(|run| bins(run)).collect();
        let threshold = random.from_to(1, k - 1) as u32;
        let (numbers, ends) = lay_out(&bare);
        let question = Alone::new(&numbers, &ends, threshold);
        let mut limits = question.whole().unwrap();
        limits.answers = random.below(limits.answers + 2);
        let outcome = comparer.compare(seed, question, limits);
        let (answers, certificate) = comparer.found();
        let expected = (answers.to_vec(), certificate.to_vec());
        if bare[0].is_empty() {
            let counts = result_of(outcome).unwrap();
            assert_eq!(counts.answers, 0, "seed {seed}");
        }

        let counts = random.pick(&[[0, 1], [1, 0], [2, 3], [64, 1], [63, 129]]);
        let marks: Vec<usize> = (0..k).map(|i| counts[usize::from(i > 0)]).collect();
        let (numbers, ends) = lay_out(&marked(&bare, &marks));
        let question = Alone::new(&numbers, &ends, threshold);
        assert_eq!(comparer.compare(seed, question, limits), outcome);
        let (answers, certificate) = comparer.found();
        assert_eq!((answers, certificate), (&expected.0[..], &expected.1[..]));
    }
    comparer.met(&[0, 5], 500);
}
