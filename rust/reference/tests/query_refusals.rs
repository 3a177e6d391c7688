//! The order and the places of the refusals of a query.

mod common;

use common::{ask, FILLER, FILLER_BYTE};
use reference::testing::{self, accepted, gap, hit, refused, M};
use reference::{decode, encode, first_checks, query, trace, Outcome, Refusal, MAX_NUMBERS};

/// Asks with large buffers and expects a refusal of the first checks, with
/// nothing written.
fn refused_first(numbers: &[u32], ends: &[u32], threshold: u32, number: u8, place: u64) {
    let mut answers = [FILLER; 8];
    let mut certificate = [FILLER_BYTE; 200];
    let outcome = query(numbers, ends, threshold, M, &mut answers, &mut certificate);
    assert_eq!(outcome, testing::refused_first(number, place));
    assert_eq!(answers, [FILLER; 8]);
    assert_eq!(certificate, [FILLER_BYTE; 200]);
    let refusal = Refusal { number, place };
    assert_eq!(first_checks(numbers, ends, threshold), Err(refusal));
    assert_eq!(trace(numbers, ends, threshold), Err(refusal));

    // A walk refusal cannot come first.
    let outcome = query(numbers, ends, threshold, 0, &mut [], &mut []);
    assert!(matches!(outcome, Outcome::Refused { number: n, .. } if n == number));
}

#[test]
fn refusal_1_comes_before_all_others() {
    refused_first(&[], &[], 1, 1, 0);
    refused_first(&[], &[], 0, 1, 0);
    refused_first(&[3, 3], &[], M, 1, 0);
    refused_first(&[3, 3], &[9; 65], 0, 1, 65);
    refused_first(&[], &[0; 65], 1, 1, 65);
    refused_first(&[], &[0; 1000], 1, 1, 1000);
}

#[test]
fn refusal_2_comes_before_3_and_4() {
    refused_first(&[], &[0], 0, 2, 0);
    refused_first(&[], &[0], 2, 2, 2);
    refused_first(&[], &[0], M, 2, u64::from(M));
    refused_first(&[], &[0; 64], 65, 2, 65);
    refused_first(&[3, 3], &[2, 1], 3, 2, 3);
    refused_first(&[3, 3], &[2], 0, 2, 0);
}

#[test]
fn refusal_3_at_the_first_falling_end() {
    refused_first(&[1, 2], &[2, 1], 1, 3, 1);
    refused_first(&[1, 2], &[1, 2, 1, 0], 1, 3, 2);
    refused_first(&[1, 2], &[9, 2], 1, 3, 1);
    refused_first(&[1, 2], &[0, 0, M, 2], 1, 3, 3);
    // A falling end comes before a last end that does not fit.
    refused_first(&[1, 2], &[2, 1, 7], 1, 3, 1);
    // Refusal 3 comes before refusal 4.
    refused_first(&[3, 3], &[2, 1], 1, 3, 1);
}

#[test]
fn refusal_3_at_the_last_end() {
    refused_first(&[1, 2], &[1], 1, 3, 1);
    refused_first(&[1, 2], &[3], 1, 3, 1);
    refused_first(&[], &[1], 1, 3, 1);
    refused_first(&[1, 2], &[0, 0, 0], 1, 3, 3);
    refused_first(&[1, 2], &[0, 1, M], 1, 3, 3);
    refused_first(&[3, 3], &[1, 1], 2, 3, 2);
}

#[test]
fn refusal_3_above_the_largest_count_of_numbers() {
    let most = MAX_NUMBERS as u32;
    let numbers: Vec<u32> = (0..=most).collect();
    refused_first(&numbers, &[most + 1], 1, 3, 1);
    refused_first(&numbers, &[5, most, most + 1], 1, 3, 3);
    // The length is not looked at before the order of the ends.
    refused_first(&numbers, &[5, 4, most + 1], 1, 3, 1);

    let numbers = &numbers[..MAX_NUMBERS];
    assert_eq!(first_checks(numbers, &[most], 1), Ok(()));
    assert_eq!(first_checks(numbers, &[0, 7, most], 3), Ok(()));
    let outcome = query(
        numbers,
        &[most],
        1,
        0,
        &mut vec![0; MAX_NUMBERS],
        &mut vec![0; 15 * MAX_NUMBERS + 19],
    );
    // The 0 counts as a number and is no answer.
    let count = MAX_NUMBERS as u64 - 1;
    assert_eq!(outcome, accepted(count, count + 1, 15 * count + 19, [0, 0]));
}

#[test]
fn refusal_4_at_the_first_number_that_does_not_rise() {
    refused_first(&[3, 3], &[2], 1, 4, 1);
    refused_first(&[3, 2, 1], &[3], 1, 4, 1);
    refused_first(&[1, 2, 2, 1], &[4], 1, 4, 2);
    refused_first(&[7, 7], &[0, 2, 2], 3, 4, 1);
    refused_first(&[1, 2, 9, 3, 5, 5], &[3, 6], 1, 4, 5);
    refused_first(&[1, 2, 9, 8, 5, 5], &[4, 6], 1, 4, 3);
    refused_first(&[M, 0], &[2], 1, 4, 1);
}

/// A mark after a number that is not 0 does not rise. Marks count in places.
#[test]
fn refusal_4_at_a_mark_that_does_not_rise() {
    refused_first(&[5, 0], &[2], 1, 4, 1);
    refused_first(&[0, 5, 0], &[3], 1, 4, 2);
    refused_first(&[0, 0, 5, 0], &[4], 1, 4, 3);
    refused_first(&[0, 0, 5, 0, 0, 5], &[6], 1, 4, 3);
    refused_first(&[0, 3, 0, 0, 5, 0], &[2, 6], 1, 4, 5);
    refused_first(&[0, 3, 0, 0, 5, 5], &[2, 6], 1, 4, 5);
    refused_first(&[0, 0, 0, 0, 4, 4], &[3, 6], 1, 4, 5);
}

/// The comparison starts at a run's first number that is not 0, in every run
/// anew.
#[test]
fn marks_at_the_start_of_a_run_are_passed_over() {
    let passes = |numbers: &[u32], ends: &[u32]| first_checks(numbers, ends, 1) == Ok(());
    assert!(passes(&[0, 0, 5], &[3]));
    assert!(passes(&[0, 0, 0], &[3]));
    assert!(passes(&[0, 0, 5, 0], &[1, 3, 4]));
    assert!(passes(&[5, 0, 0, 5, 0, 0], &[1, 4, 6]));
    assert!(passes(&[0, 0, 0, 0, 0, 7], &[2, 2, 6]));
    for zeros in 0..200 {
        let mut numbers = vec![0; zeros];
        numbers.extend([3, 5]);
        let end = numbers.len() as u32;
        assert!(passes(&numbers, &[end]));
        for broken in [0, 3, 5] {
            numbers.push(broken);
            refused_first(&numbers, &[end + 1], 1, 4, end.into());
            numbers.pop();
        }
    }
}

/// Zeros at the start of a run are passed over without a probe.
#[test]
fn a_mark_takes_no_probe() {
    let with_marks: [[&[u32]; 2]; 3] = [
        [&[0, 7], &[0, 7]],
        [&[0, 0, 7], &[0, 7]],
        [&[0; 99], &[0, 0, 0, 7]],
    ];
    for runs in &with_marks[..2] {
        let (outcome, answers, bytes) = ask(runs, 2, 0, 1, 53);
        assert_eq!(outcome, accepted(1, 3, 53, [0, 0]));
        assert_eq!(answers, [7]);
        assert_eq!(bytes, encode(&[gap(1, 6, 3), hit(7, 3), gap(8, M, 3)]));
    }
    // Nor is one a head: a run of marks alone has none from the beginning.
    let (outcome, _, bytes) = ask(&with_marks[2], 2, 0, 0, 19);
    assert_eq!(outcome, accepted(0, 1, 19, [0, 0]));
    assert_eq!(bytes, encode(&[gap(1, M, 1)]));
}

#[test]
fn runs_are_not_compared_with_each_other() {
    assert_eq!(first_checks(&[7, 3, 3, 1], &[1, 2, 3, 4], 4), Ok(()));
    assert_eq!(first_checks(&[5, 6, 5, 6], &[0, 2, 2, 4, 4], 1), Ok(()));
}

#[test]
fn empty_runs_have_no_head() {
    let empty: [&[u32]; 3] = [&[], &[], &[]];
    let (outcome, _, bytes) = ask(&empty, 2, 0, 0, 19);
    assert_eq!(outcome, accepted(0, 1, 19, [0, 0]));
    assert_eq!(bytes, encode(&[gap(1, M, 7)]));

    let some: [&[u32]; 3] = [&[], &[4], &[]];
    let (outcome, answers, bytes) = ask(&some, 1, 0, 1, 53);
    assert_eq!(outcome, accepted(1, 3, 53, [0, 0]));
    assert_eq!(answers, [4]);
    assert_eq!(bytes, encode(&[gap(1, 3, 7), hit(4, 2), gap(5, M, 7)]));
}

#[test]
fn a_buffer_is_looked_at_only_when_something_is_due() {
    // No answer is due, so no room for answers is needed.
    let (outcome, ..) = ask(&[[1], [4]], 2, 0, 0, 38);
    assert_eq!(outcome, accepted(0, 2, 38, [0, 0]));
    // No probe is due, so an allowance of 0 is enough.
    let (outcome, ..) = ask(&[[7], [7]], 2, 0, 1, 53);
    assert_eq!(outcome, accepted(1, 3, 53, [0, 0]));
    // Exactly the probes needed.
    let (outcome, ..) = ask(&[[1, 2, 3], [4, 5, 6]], 2, 2, 0, 38);
    assert_eq!(outcome, accepted(0, 2, 38, [2, 0]));
    let (outcome, ..) = ask(&[[1, 2, 3], [4, 5, 6]], 2, 1, 0, 38);
    assert_eq!(outcome, refused(7, 1, 0, 19, [1, 0]));
}

/// The search in the first run starts at its last place: it moves the run on
/// and makes no probe.
#[test]
fn a_search_without_a_probe() {
    let (outcome, _, bytes) = ask(&[[1], [5]], 2, 0, 0, 100);
    assert_eq!(outcome, accepted(0, 2, 38, [0, 0]));
    assert_eq!(bytes, encode(&[gap(1, 4, 2), gap(5, M, 1)]));
}

/// Place 1 is probed and place 2 is not, as the run has two numbers.
#[test]
fn the_place_after_the_last_number_is_not_probed() {
    let runs: [&[u32]; 2] = [&[1, 2], &[5]];
    let (outcome, _, bytes) = ask(&runs, 2, 1, 0, 100);
    assert_eq!(outcome, accepted(0, 2, 38, [1, 0]));
    assert_eq!(bytes, encode(&[gap(1, 4, 2), gap(5, M, 1)]));
}

#[test]
fn refusal_5_when_the_answers_are_full() {
    let runs = [[2, 4]];
    let whole = encode(&[gap(1, 1, 1), hit(2, 1), gap(3, 3, 1), hit(4, 1)]);
    let (outcome, answers, bytes) = ask(&runs, 1, 0, 0, 100);
    assert_eq!(outcome, refused(5, 1, 0, 19, [0, 0]));
    assert!(answers.is_empty());
    assert_eq!(bytes, whole[..19]);
    let (outcome, answers, bytes) = ask(&runs, 1, 0, 1, 100);
    assert_eq!(outcome, refused(5, 3, 1, 53, [0, 0]));
    assert_eq!(answers, [2]);
    assert_eq!(bytes, whole[..53]);
    let (outcome, answers, _) = ask(&runs, 1, 0, 2, 100);
    assert_eq!(outcome, accepted(2, 5, 87, [0, 0]));
    assert_eq!(answers, [2, 4]);
}

#[test]
fn refusal_5_comes_before_6_at_an_answer() {
    let runs = [[2, 4]];
    assert_eq!(ask(&runs, 1, 0, 0, 19).0, refused(5, 1, 0, 19, [0, 0]));
    assert_eq!(ask(&runs, 1, 0, 1, 19).0, refused(6, 1, 0, 19, [0, 0]));
    assert_eq!(ask(&runs, 1, 0, 1, 53).0, refused(5, 3, 1, 53, [0, 0]));
    assert_eq!(ask(&runs, 1, 0, 2, 53).0, refused(6, 3, 1, 53, [0, 0]));
    // At the gap before it only 6 can come.
    assert_eq!(ask(&runs, 1, 0, 0, 18).0, refused(6, 0, 0, 0, [0, 0]));
}

#[test]
fn refusal_6_when_a_part_does_not_fit_whole() {
    let runs = [[2, 4]];
    let fits = |room| ask(&runs, 1, 0, 9, room).0;
    assert_eq!(fits(0), refused(6, 0, 0, 0, [0, 0]));
    assert_eq!(fits(18), refused(6, 0, 0, 0, [0, 0]));
    assert_eq!(fits(19), refused(6, 1, 0, 19, [0, 0]));
    assert_eq!(fits(33), refused(6, 1, 0, 19, [0, 0]));
    assert_eq!(fits(34), refused(6, 2, 1, 34, [0, 0]));
    assert_eq!(fits(52), refused(6, 2, 1, 34, [0, 0]));
    assert_eq!(fits(53), refused(6, 3, 1, 53, [0, 0]));
    assert_eq!(fits(67), refused(6, 3, 1, 53, [0, 0]));
    assert_eq!(fits(68), refused(6, 4, 2, 68, [0, 0]));
    assert_eq!(fits(86), refused(6, 4, 2, 68, [0, 0]));
    assert_eq!(fits(87), accepted(2, 5, 87, [0, 0]));
    // After a refusal at an answer its number is not written either.
    assert_eq!(ask(&runs, 1, 0, 9, 33).1, Vec::<u32>::new());
}

/// Gap, then searches, then the answer: whichever check comes first ends it.
#[test]
fn the_order_of_the_steps() {
    let runs: [&[u32]; 2] = [&[1, 2, 7], &[7]];
    assert_eq!(ask(&runs, 2, 0, 0, 0).0, refused(6, 0, 0, 0, [0, 0]));
    assert_eq!(ask(&runs, 2, 0, 0, 19).0, refused(7, 1, 0, 19, [0, 0]));
    assert_eq!(ask(&runs, 2, 1, 0, 19).0, refused(7, 1, 0, 19, [1, 0]));
    assert_eq!(ask(&runs, 2, 2, 0, 19).0, refused(5, 1, 0, 19, [2, 0]));
    assert_eq!(ask(&runs, 2, 2, 1, 19).0, refused(6, 1, 0, 19, [2, 0]));
    assert_eq!(ask(&runs, 2, 2, 1, 34).0, refused(6, 2, 1, 34, [2, 0]));
    assert_eq!(ask(&runs, 2, 2, 1, 53).0, accepted(1, 3, 53, [2, 0]));
}

/// The search probes places 1 and 2 by doubling and then place 3 by halving;
/// each refusal tells what was made of either.
#[test]
fn probes_before_a_refusal() {
    let runs: [&[u32]; 2] = [&[1, 2, 3, 7], &[7]];
    assert_eq!(ask(&runs, 2, 1, 1, 53).0, refused(7, 1, 0, 19, [1, 0]));
    assert_eq!(ask(&runs, 2, 2, 1, 53).0, refused(7, 1, 0, 19, [2, 0]));
    assert_eq!(ask(&runs, 2, 3, 0, 53).0, refused(5, 1, 0, 19, [2, 1]));
    assert_eq!(ask(&runs, 2, 3, 1, 33).0, refused(6, 1, 0, 19, [2, 1]));
    assert_eq!(ask(&runs, 2, 3, 1, 34).0, refused(6, 2, 1, 34, [2, 1]));
    assert_eq!(ask(&runs, 2, 3, 1, 53).0, accepted(1, 3, 53, [2, 1]));
}

/// After its search run 0 has no head, but it holds 1 and must not be named.
#[test]
fn a_gap_is_named_before_the_searches_of_its_round() {
    let runs: [&[u32]; 3] = [&[1], &[3], &[3]];
    let (outcome, _, bytes) = ask(&runs, 2, 0, 1, 100);
    assert_eq!(outcome, accepted(1, 3, 53, [0, 0]));
    let parts = [gap(1, 2, 6), hit(3, 6), gap(4, M, 7)];
    assert_eq!(decode(&bytes).unwrap(), parts);
}

#[test]
fn only_an_answer_at_the_largest_bin_ends_without_a_gap() {
    let (outcome, answers, bytes) = ask(&[[M], [M]], 2, 0, 1, 100);
    assert_eq!(outcome, accepted(1, 2, 34, [0, 0]));
    assert_eq!(answers, [M]);
    assert_eq!(bytes, encode(&[gap(1, M - 1, 3), hit(M, 3)]));

    let (outcome, _, bytes) = ask(&[[5], [M]], 2, 0, 0, 100);
    assert_eq!(outcome, accepted(0, 2, 38, [0, 0]));
    assert_eq!(bytes, encode(&[gap(1, M - 1, 2), gap(M, M, 1)]));

    let (outcome, _, bytes) = ask(&[[M - 1], [M]], 1, 0, 2, 100);
    assert_eq!(outcome, accepted(2, 3, 49, [0, 0]));
    assert_eq!(bytes, encode(&[gap(1, M - 2, 3), hit(M - 1, 1), hit(M, 2)]));
}

/// More than t runs may hold an answer; all are named and move on.
#[test]
fn an_answer_names_all_runs_that_hold_it() {
    let runs: [&[u32]; 4] = [&[3, 8], &[8], &[8], &[8, 9]];
    let (outcome, answers, bytes) = ask(&runs, 2, 1, 9, 100);
    assert_eq!(outcome, accepted(1, 3, 53, [1, 0]));
    assert_eq!(answers, [8]);
    assert_eq!(bytes, encode(&[gap(1, 7, 14), hit(8, 15), gap(9, M, 7)]));
}

/// A bin that one run less than the threshold holds is left for good.
#[test]
fn a_bin_just_missed_is_not_tried_again() {
    let runs: [&[u32]; 3] = [&[5], &[5], &[1, 6]];
    let (outcome, _, bytes) = ask(&runs, 3, 1, 0, 100);
    assert_eq!(outcome, accepted(0, 3, 57, [1, 0]));
    assert_eq!(bytes, encode(&[gap(1, 4, 3), gap(5, 5, 4), gap(6, M, 3)]));
}
