//! The checker with a mask: the instances, and the order and the places of its
//! refusals.

use reference::testing::{
    chosen_instances, gap, hit, lay_out, marked_three_runs, slices, M, OUTER_TWO_PARTS, THREE_RUNS,
};
use reference::{check, check_chosen, decode, encode, is_true_by, Part, Verdict, Weighting};

fn invalid(number: u8, place: u64) -> Verdict {
    Verdict::Invalid { number, place }
}

fn valid(answers: u64, parts: u64) -> Verdict {
    Verdict::Valid { answers, parts }
}

#[test]
fn every_instance() {
    for runs in marked_three_runs() {
        let (numbers, ends) = lay_out(&runs);
        let runs = slices(&runs);
        for (mask, threshold, bytes, expected) in chosen_instances() {
            let verdict = check_chosen(&numbers, &ends, mask, threshold, &bytes);
            assert_eq!(verdict, expected, "mask {mask}, threshold {threshold}");
            if !matches!(verdict, Verdict::Invalid { number: 2 | 13, .. }) {
                let weighting = Weighting::Chosen(mask);
                let truth = |parts: Vec<Part>| is_true_by(&runs, weighting, threshold, &parts);
                let truth = decode(&bytes).is_some_and(truth);
                assert_eq!(truth, matches!(verdict, Verdict::Valid { .. }));
            }
        }
    }
}

#[test]
fn first_checks_come_before_the_fields() {
    let broken = [0xff];
    let refusal =
        |numbers: &[u32], ends: &[u32], mask, t| check_chosen(numbers, ends, mask, t, &broken);
    assert_eq!(refusal(&[], &[], 0, 0), invalid(1, 0));
    assert_eq!(refusal(&[3, 3], &[7; 65], 0, 0), invalid(1, 65));
    assert_eq!(refusal(&[3, 3], &[2, 1], 0, 0), invalid(13, 0));
    assert_eq!(refusal(&[3, 3], &[2, 1], 4, 0), invalid(13, 0));
    assert_eq!(refusal(&[3, 3], &[2, 1], u64::MAX, 1), invalid(13, 0));
    assert_eq!(refusal(&[3, 3], &[2, 1], 3, 0), invalid(2, 0));
    assert_eq!(refusal(&[3, 3], &[2, 1], 2, 2), invalid(2, 2));
    assert_eq!(refusal(&[3, 3], &[2, 1], 1, M), invalid(2, M.into()));
    assert_eq!(refusal(&[3, 3], &[2, 1], 2, 1), invalid(3, 1));
    assert_eq!(refusal(&[3, 3], &[1, 1], 1, 1), invalid(3, 2));
    // In a run that is not chosen.
    assert_eq!(refusal(&[1, 3, 3], &[1, 3], 1, 1), invalid(4, 2));
    assert_eq!(refusal(&[1, 3, 4], &[1, 3], 1, 1), invalid(8, 0));
}

/// The verdict on the parts of the first and the last of the three runs, t = 1,
/// with one of them replaced.
fn with_part(i: usize, part: Part) -> Verdict {
    let (numbers, ends) = lay_out(&THREE_RUNS);
    let mut parts = OUTER_TWO_PARTS;
    parts[i] = part;
    check_chosen(&numbers, &ends, 5, 1, &encode(&parts))
}

#[test]
fn refusal_10_where_a_run_is_named_that_is_not_chosen() {
    // Run 1 holds neither 3 nor 4, so what the parts say of it would be true.
    assert_eq!(with_part(2, gap(3, 4, 7)), invalid(10, 30));
    // Run 1 holds 5 and 9.
    assert_eq!(with_part(3, hit(5, 3)), invalid(10, 49));
    assert_eq!(with_part(5, hit(9, 7)), invalid(10, 83));
    assert_eq!(with_part(5, hit(9, 2)), invalid(10, 83));
    // Run 1 has a number from 6 to 8: 10 comes before 11.
    assert_eq!(with_part(4, gap(6, 8, 7)), invalid(10, 64));
    for bit in 3..64 {
        assert_eq!(with_part(2, gap(3, 4, 5 | 1 << bit)), invalid(10, 30));
    }
    // 9 comes before 10.
    assert_eq!(with_part(4, gap(7, 8, 7)), invalid(9, 64));
}

/// A gap names at least c - t + 1 runs, c being the number of chosen ones.
#[test]
fn names_are_counted_among_the_chosen() {
    let (numbers, ends) = lay_out(&THREE_RUNS);
    let verdict = |mask, t, parts: &[Part]| check_chosen(&numbers, &ends, mask, t, &encode(parts));
    // With t = 1 both chosen runs are named, with t = 2 one of them is enough.
    assert_eq!(verdict(6, 1, &[hit(1, 4), gap(2, 4, 4)]), invalid(10, 15));
    assert_eq!(verdict(6, 1, &[hit(1, 4), gap(2, 4, 6)]), invalid(9, 34));
    let parts = [gap(1, 8, 4), hit(9, 6), gap(10, M, 4)];
    assert_eq!(verdict(6, 2, &parts), invalid(11, 0));
    let parts = [gap(1, 4, 2), gap(5, 8, 4), hit(9, 6), gap(10, M, 4)];
    assert_eq!(verdict(6, 2, &parts), valid(1, 4));
    assert_eq!(verdict(7, 2, &parts), invalid(10, 0));
    assert_eq!(verdict(7, 3, &parts), invalid(10, 38));
}

/// With every run chosen the verdict is that without a mask.
#[test]
fn all_runs_chosen() {
    let (numbers, ends) = lay_out(&THREE_RUNS);
    for (_, _, bytes, _) in chosen_instances() {
        for threshold in 0..=4 {
            assert_eq!(
                check_chosen(&numbers, &ends, 7, threshold, &bytes),
                check(&numbers, &ends, threshold, &bytes)
            );
        }
    }
}

#[test]
fn sixty_four_runs() {
    let numbers = [7; 64];
    let ends: Vec<u32> = (1..=64).collect();
    for mask in [u64::MAX, 1 << 63, 1, u64::MAX << 1] {
        let parts = [gap(1, 6, mask), hit(7, mask), gap(8, M, mask)];
        let verdict = |mask, t| check_chosen(&numbers, &ends, mask, t, &encode(&parts));
        assert_eq!(verdict(mask, mask.count_ones()), valid(1, 3));
        assert_eq!(verdict(mask, 1), valid(1, 3));
        assert_eq!(verdict(1 << 5, 1), invalid(10, 0));
    }
}
