//! Binary digits and the bound on probes.

use reference::testing::{bound_instances, lay_out, marked, M, THREE_RUNS};
use reference::{digits, probe_bound, probe_bound_chosen, Refusal};

fn refused(number: u8, place: u64) -> Result<u64, Refusal> {
    Err(Refusal { number, place })
}

#[test]
fn digits_are_the_least_power_above() {
    assert_eq!(digits(0), 0);
    for n in 1..5_000_u64 {
        let least = (0..).find(|&b| n < 1 << b).unwrap();
        assert_eq!(digits(n), least);
    }
    assert_eq!(digits(1_048_575), 20);
    assert_eq!(digits(1_048_576), 21);
    assert_eq!(digits(u64::MAX), 64);
}

#[test]
fn the_bound_is_a_sum_over_the_runs() {
    assert_eq!(probe_bound(&[0, 0], 5), Ok(0));
    assert_eq!(probe_bound(&[3, 7, 9], 6), Ok(2 * 6 * (2 + 3 + 2)));
    assert_eq!(probe_bound(&[1_048_576], 1), Ok(42));
    assert_eq!(probe_bound(&[1_048_576; 64], M), Ok(42 * u64::from(M)));
}

/// The numbers are counted as lent, so the marks are among them: they may add a
/// digit and never take one away.
#[test]
fn marks_are_counted() {
    let (_, ends) = lay_out(&marked(&THREE_RUNS, &[1, 1, 1]));
    assert_eq!(probe_bound(&ends, 6), Ok(2 * 6 * (3 + 3 + 2)));
    assert_eq!(probe_bound_chosen(&ends, 6, 6), Ok(2 * 6 * (3 + 2)));
    let (_, ends) = lay_out(&marked(&THREE_RUNS, &[0, 12, 62]));
    assert_eq!(probe_bound(&ends, 6), Ok(2 * 6 * (2 + 5 + 7)));
    assert_eq!(probe_bound_chosen(&ends, 6, 6), Ok(2 * 6 * (5 + 7)));
}

#[test]
fn every_instance_of_chosen_runs() {
    let (_, ends) = lay_out(&THREE_RUNS);
    for (mask, parts, expected) in bound_instances() {
        assert_eq!(
            probe_bound_chosen(&ends, mask, parts),
            expected,
            "mask {mask}"
        );
    }
}

#[test]
fn runs_that_are_not_chosen_do_not_count() {
    for mask in 1..8 {
        let digits = [2, 3, 2].iter().enumerate();
        let chosen = digits.filter(|(i, _)| mask >> i & 1 == 1);
        let sum: u64 = chosen.map(|(_, &b)| 2 * 9 * b).sum();
        assert_eq!(probe_bound_chosen(&[3, 7, 9], mask, 9), Ok(sum));
    }
    let ends: Vec<u32> = (1..=64).map(|i| i * 4).collect();
    for i in 0..64 {
        assert_eq!(probe_bound_chosen(&ends, 1 << i, 5), Ok(2 * 5 * 3));
    }
    assert_eq!(
        probe_bound_chosen(&ends, u64::MAX, 5),
        probe_bound(&ends, 5)
    );
}

#[test]
fn refusals_in_their_order() {
    assert_eq!(probe_bound(&[], 5), refused(1, 0));
    assert_eq!(probe_bound(&[7; 65], 5), refused(1, 65));
    assert_eq!(probe_bound(&[5, 4], 5), refused(3, 1));
    assert_eq!(probe_bound(&[5, 4, 1_048_577], 5), refused(3, 1));
    assert_eq!(probe_bound(&[5, 1_048_577], 5), refused(3, 2));

    assert_eq!(probe_bound_chosen(&[], 0, 5), refused(1, 0));
    assert_eq!(probe_bound_chosen(&[5, 4], 0, 5), refused(13, 0));
    assert_eq!(probe_bound_chosen(&[5, 4], 4, 5), refused(13, 0));
    // The ends of all runs are looked at.
    assert_eq!(probe_bound_chosen(&[5, 4, 9], 4, 5), refused(3, 1));
    assert_eq!(probe_bound_chosen(&[5, 1_048_577], 1, 5), refused(3, 2));
}
