//! Runs with weights: what is refused and in which order, certificates judged
//! by weight, and runs of equal weight, which are as runs without.

mod common;

use common::{any_runs, ask_for, FILLER, FILLER_BYTE};
use reference::testing::{
    any_weights, break_weights, gap, lay_out, marked_three_runs, refused_first, slices,
    weighted_checks, Random, Wanted, M,
};
use reference::{
    check, check_weighted, decode, encode, is_true_by, query, query_weighted, trace, trace_by,
    Part, Verdict, Weighting,
};

/// Asks with large buffers, and checks, and expects a refusal of the first checks,
/// with nothing written.
fn refused(numbers: &[u32], ends: &[u32], weights: &[u32], wanted: u32, number: u8, place: u64) {
    let mut answers = [FILLER; 8];
    let mut certificate = [FILLER_BYTE; 200];
    let outcome = query_weighted(
        numbers,
        ends,
        weights,
        wanted,
        M,
        &mut answers,
        &mut certificate,
    );
    let context = || format!("weights {weights:?}, wanted {wanted}, ends {ends:?}");
    assert_eq!(outcome, refused_first(number, place), "{}", context());
    assert_eq!(answers, [FILLER; 8]);
    assert_eq!(certificate, [FILLER_BYTE; 200]);
    let verdict = check_weighted(numbers, ends, weights, wanted, &[0xff]);
    let invalid = Verdict::Invalid { number, place };
    assert_eq!(verdict, invalid, "{}", context());
}

/// Broken in every way that the first checks refuse, and then put right one after
/// another.
#[test]
fn the_order_of_the_first_checks() {
    let (numbers, ends) = ([3, 3, 7, 9], [9, 4]);
    refused(&numbers, &[], &[0], 0, 1, 0);
    refused(&numbers, &[4; 65], &[], 0, 1, 65);
    refused(&numbers, &[4; 65], &[256; 65], 0, 1, 65);
    refused(&numbers, &ends, &[0], 0, 17, 2);
    refused(&numbers, &ends, &[0; 3], M, 17, 2);
    refused(&numbers, &ends, &[], 0, 17, 2);
    refused(&numbers, &ends, &[256, 0], 0, 17, 0);
    refused(&numbers, &ends, &[255, 0], 0, 17, 1);
    refused(&numbers, &ends, &[255, 256], M, 17, 1);
    refused(&numbers, &ends, &[255, 1], 0, 2, 0);
    refused(&numbers, &ends, &[255, 1], 257, 2, 257);
    refused(&numbers, &ends, &[255, 1], M, 2, M.into());
    refused(&numbers, &ends, &[255, 1], 256, 3, 1);
    refused(&numbers, &[1, 3], &[255, 1], 256, 3, 2);
    refused(&numbers, &[2, 4], &[255, 1], 256, 4, 1);
    refused(&[5, 5], &[3, 2], &[1, 1], 3, 2, 3);
    refused(&[5, 5], &[3, 2], &[1, 1], 2, 3, 1);
    let (outcome, answers, _) = ask_for(
        &[[3, 9], [7, 9]],
        &Wanted::weighted(&[255, 1], 256),
        9,
        [1, 99],
    );
    assert!(matches!(outcome, reference::Outcome::Accepted { .. }));
    assert_eq!(answers, [9]);
}

/// The place of a wrong length is the number of runs, whatever the weights are.
#[test]
fn every_length() {
    for k in [1, 2, 3, 63, 64] {
        let (numbers, ends) = lay_out(&vec![[7]; k]);
        for length in (0..130).filter(|&length| length != k) {
            for weight in [0, 1, 255, 256] {
                refused(&numbers, &ends, &vec![weight; length], 1, 17, k as u64);
            }
        }
    }
}

/// The place of a bad weight is that of the first one.
#[test]
fn every_place() {
    for k in [1, 2, 3, 63, 64] {
        let (numbers, ends) = lay_out(&vec![[7]; k]);
        for place in 0..k {
            for bad in [0, 256, 257, 0x0001_0001, 1 << 31, M] {
                let mut weights = vec![255; k];
                weights[place] = bad;
                refused(&numbers, &ends, &weights, 0, 17, place as u64);
                weights[k - 1] = 0;
                refused(&numbers, &ends, &weights, 1, 17, place as u64);
            }
        }
    }
}

#[test]
fn every_weight() {
    for weight in 0..=300 {
        let wanted = Wanted::weighted(&[weight], weight);
        match weight {
            1..=255 => {
                let (outcome, answers, _) = ask_for(&[[7]], &wanted, 0, [1, 53]);
                assert!(matches!(outcome, reference::Outcome::Accepted { .. }));
                assert_eq!(answers, [7]);
                refused(&[7], &[1], &[weight], weight + 1, 2, u64::from(weight) + 1);
            }
            _ => refused(&[7], &[1], &[weight], weight, 17, 0),
        }
    }
}

#[test]
fn every_check() {
    for runs in marked_three_runs() {
        let (numbers, ends) = lay_out(&runs);
        let runs = slices(&runs);
        for (weights, wanted, bytes, expected) in weighted_checks() {
            let verdict = check_weighted(&numbers, &ends, &weights, wanted, &bytes);
            assert_eq!(verdict, expected, "weights {weights:?}, wanted {wanted}");
            if !matches!(verdict, Verdict::Invalid { number: 2 | 17, .. }) {
                let weighting = Weighting::Given(&weights);
                let truth = |parts: Vec<Part>| is_true_by(&runs, weighting, wanted, &parts);
                let truth = decode(&bytes).is_some_and(truth);
                assert_eq!(truth, matches!(verdict, Verdict::Valid { .. }));
            }
        }
    }
}

/// A gap may leave out runs that weigh one less than what is wanted, however many
/// they are, and none that weigh as much, however few.
#[test]
fn a_gap_is_judged_by_what_it_leaves_out() {
    let runs: [&[u32]; 4] = [&[], &[5], &[6], &[7]];
    let (numbers, ends) = lay_out(&runs);
    let one_gap = |weights: &[u32], wanted| {
        let bytes = encode(&[gap(1, M, 1)]);
        match check_weighted(&numbers, &ends, weights, wanted, &bytes) {
            Verdict::Valid { .. } => 0,
            Verdict::Invalid { number, .. } => number,
        }
    };
    assert_eq!(one_gap(&[200, 3, 2, 1], 7), 0);
    assert_eq!(one_gap(&[200, 3, 2, 1], 6), 10);
    assert_eq!(one_gap(&[1, 255, 255, 255], 766), 0);
    assert_eq!(one_gap(&[1, 255, 255, 255], 765), 10);
    assert_eq!(one_gap(&[1, 1, 1, 1], 4), 0);
    assert_eq!(one_gap(&[1, 1, 1, 1], 3), 10);
}

/// Asks about runs of one weight, for as much as `threshold` of them weigh or a
/// little less, and about the same runs without weights: rows and buffers are the
/// same, and so are the verdicts.
fn as_without_weights(random: &mut Random, weight: u32) {
    let runs = any_runs(random, 6, 8);
    let (numbers, ends) = lay_out(&runs);
    let k = runs.len();
    let threshold = random.from_to(1, k) as u32;
    let wanted = weight * threshold - random.below(weight as usize) as u32;
    let weights = vec![weight; k];
    let (allowance, room) = match random.one_in(2) {
        true => (random.below(9) as u32, [random.below(9), random.below(200)]),
        false => (M, [100, 5_000]),
    };
    let ask = |weights: Option<&[u32]>| {
        let (mut answers, mut certificate) = (vec![FILLER; room[0]], vec![FILLER_BYTE; room[1]]);
        let (a, c) = (&mut answers[..], &mut certificate[..]);
        let outcome = match weights {
            None => query(&numbers, &ends, threshold, allowance, a, c),
            Some(weights) => query_weighted(&numbers, &ends, weights, wanted, allowance, a, c),
        };
        (outcome, answers, certificate)
    };
    assert_eq!(ask(Some(&weights)), ask(None), "weight {weight}, {runs:?}");

    let whole = trace(&numbers, &ends, threshold).unwrap();
    let given = trace_by(&numbers, &ends, Weighting::Given(&weights), wanted);
    assert_eq!(given, Ok(whole.clone()));
    let mut parts = whole.parts;
    let i = random.below(parts.len());
    match &mut parts[i] {
        Part::Answer { mask, .. } | Part::Gap { mask, .. } => *mask ^= 1 << random.below(k),
    }
    let bytes = encode(&parts);
    assert_eq!(
        check_weighted(&numbers, &ends, &weights, wanted, &bytes),
        check(&numbers, &ends, threshold, &bytes)
    );
}

#[test]
fn runs_of_equal_weight() {
    let mut random = Random(31);
    for _ in 0..20_000 {
        as_without_weights(&mut random, 1);
        let weight = random.from_to(2, 255) as u32;
        as_without_weights(&mut random, weight);
    }
}

/// What is generated: good weights are in range, and broken rows are often of
/// another length and often have a bad weight at a place of any kind.
#[test]
fn random_weights() {
    let mut random = Random(32);
    let mut seen = [0; 3];
    for _ in 0..20_000 {
        let k = random.from_to(1, 64);
        let mut weights = any_weights(&mut random, k);
        let (numbers, ends) = lay_out(&vec![[7]; k]);
        assert!(weights.len() == k && weights.iter().all(|&w| (1..=255).contains(&w)));
        let wanted = Wanted::any_of(&mut random, &weights).threshold;
        let verdict = check_weighted(&numbers, &ends, &weights, wanted, &[]);
        let (number, place) = (9, 0);
        assert_eq!(verdict, Verdict::Invalid { number, place });
        break_weights(&mut random, &mut weights);
        let Verdict::Invalid { number: 17, place } =
            check_weighted(&numbers, &ends, &weights, wanted, &[])
        else {
            panic!("{weights:?}");
        };
        let kind = match place as usize {
            place if place == k => 0,
            0 => 1,
            _ => 2,
        };
        seen[kind] += 1;
    }
    assert!(seen.iter().all(|&count| count > 2_000), "{seen:?}");
}
