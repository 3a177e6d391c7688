//! The bins of one list between two numbers.

mod common;

use common::any_runs;
use reference::between;
use reference::testing::{any_marks, mark_later, Random, BETWEEN_INSTANCES, M};

/// Compares the part of the list with a filter over it.
fn agrees(list: &[u32], first: u32, last: u32) {
    let places = between(list, first, last);
    let rises =
        (1..list.len()).all(|i| list[i - 1] < list[i] || list[..=i].iter().all(|&x| x == 0));
    let expected: Vec<u32> = list
        .iter()
        .copied()
        .filter(|&x| rises && x > 0 && first <= x && x <= last)
        .collect();
    assert_eq!(list[places], expected, "{list:?} from {first} to {last}");
}

#[test]
fn both_ends_belong_to_it() {
    let list = [2, 5, 9];
    assert_eq!(between(&list, 2, 9), 0..3);
    assert_eq!(between(&list, 5, 5), 1..2);
    assert_eq!(between(&list, 3, 8), 1..2);
    assert_eq!(between(&list, 0, M), 0..3);
    assert_eq!(between(&[1, M], 1, 1), 0..1);
    assert_eq!(between(&[1, M], M, M), 1..2);
}

#[test]
fn every_instance() {
    for (list, [first, last], part) in BETWEEN_INSTANCES {
        let places = between(list, first, last);
        assert_eq!(&list[places], part, "{list:?} from {first} to {last}");
        agrees(list, first, last);
    }
}

#[test]
fn a_0_is_never_shown() {
    assert_eq!(between(&[0, 3, 5], 0, 3), 1..2);
    assert_eq!(between(&[0, 0, 3, 5], 0, M), 2..4);
    assert_eq!(between(&[0, M], 0, M), 1..2);
    for list in [&[0, 3, 5][..], &[0], &[0, 1], &[0, 0], &[0, 0, 1]] {
        assert!(between(list, 0, 0).is_empty());
    }
    for zeros in 0..200 {
        let mut list = vec![0; zeros];
        assert!(between(&list, 0, M).is_empty());
        list.extend([4, 7]);
        assert_eq!(between(&list, 0, M), zeros..zeros + 2);
        assert_eq!(between(&list, 5, 7), zeros + 1..zeros + 2);
    }
}

#[test]
fn an_empty_part() {
    let list = [2, 5, 9];
    for (first, last) in [(3, 4), (0, 1), (10, M), (9, 2), (5, 4), (M, 0)] {
        assert!(between(&list, first, last).is_empty());
    }
    assert!(between(&[], 0, M).is_empty());
}

#[test]
fn a_list_that_does_not_rise() {
    for list in [[3, 3], [4, 3], [M, 0], [5, 0]] {
        assert!(between(&list, 0, M).is_empty());
    }
    // The fault may lie outside the numbers asked for.
    assert!(between(&[1, 2, 3, 9, 9], 1, 3).is_empty());
    assert!(between(&[9, 1, 2, 3], 1, 3).is_empty());
}

#[test]
fn no_limit_on_the_length() {
    let list: Vec<u32> = (0..1_100_000).map(|x| 2 * x).collect();
    assert_eq!(between(&list, 1, 2_199_997), 1..1_099_999);
    assert_eq!(between(&list, 0, M), 1..1_100_000);
    let mut list = vec![0; 1_100_000];
    list.extend([4, 7]);
    assert_eq!(between(&list, 0, 5), 1_100_000..1_100_001);
}

#[test]
fn random_lists() {
    let mut random = Random(1);
    for _ in 0..20_000 {
        let mut list = any_runs(&mut random, 1, 12).remove(0);
        match random.below(16) {
            0 | 1 if list.len() > 1 => {
                let i = random.below(list.len());
                list[i] = random.word();
            }
            2 => drop(mark_later(&mut random, &mut list)),
            // Marks between bins, or in front.
            3 => {
                let place = random.below(list.len() + 1);
                list.splice(place..place, vec![0; any_marks(&mut random)]);
            }
            _ => (),
        }
        let mut pick = || match random.below(3) {
            0 => random.word(),
            1 => random.below(40) as u32,
            _ if list.is_empty() => M,
            _ => list[random.below(list.len())]
                .wrapping_sub(1)
                .wrapping_add(random.below(3) as u32),
        };
        let (first, last) = (pick(), pick());
        agrees(&list, first, last);
    }
}
