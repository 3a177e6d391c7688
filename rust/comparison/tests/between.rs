//! The bins of one list between two numbers.

use comparison::between::compare;
use comparison::seeds;
use comparison::shapes::any_runs;
use reference::leading_zeros;
use reference::testing::{any_marks, mark_later, Random, BETWEEN_INSTANCES, M};

#[test]
fn edges() {
    let lists = [
        &[][..],
        &[0],
        &[M],
        &[0, M],
        &[7],
        &[2, 5, 9],
        &[0, 1, 2],
        &[0, 3, 5],
        &[0, 0],
        &[0, 0, 3],
        &[0, 0, 0, 3, 5],
        &[5, 0],
        &[0, 5, 0],
        &[0, 0, 5, 0],
        &[0, 0, 5, 5],
        &[0, 0, 5, 0, 7],
        &[M - 2, M - 1, M],
        &[3, 3],
        &[4, 3],
        &[M, 0],
        &[1, 2, 3, 9, 9],
        &[9, 1, 2, 3],
    ];
    let edges = [0, 1, 2, 3, 4, 5, 6, 7, 8, 9, 10, M - 3, M - 2, M - 1, M];
    for list in lists {
        for first in edges {
            for last in edges {
                compare(0, list, first, last);
            }
        }
    }
}

/// A 0 is never shown.
#[test]
fn instances() {
    for (list, [first, last], part) in BETWEEN_INSTANCES {
        assert_eq!(quorum::between(list, first, last), part);
        compare(0, list, first, last);
    }
    assert_eq!(quorum::ffi::between(&[0, 3, 5], 0, M), 1..3);
    assert_eq!(quorum::ffi::between(&[0, 0, 3, 5], 0, M), 2..4);
}

#[test]
fn random_lists() {
    // Parts found, those from 0 on after one mark and after several, and lists
    // with a 0 further on.
    let mut seen = [0; 4];
    for seed in seeds(31, 200_000) {
        let mut random = Random(seed);
        let length = random.pick(&[1, 2, 3, 8, 20, 60]);
        let mut list = any_runs(&mut random, 1, length).remove(0);
        break_list(&mut random, &mut list);
        let marks = leading_zeros(&list);
        let bins = &list[marks..];
        let mut pick = || match random.below(10) {
            0 => random.word(),
            1 | 2 => random.below(60) as u32,
            3 | 4 => random.pick(&[0, 0, 1, M]),
            _ if bins.is_empty() => M,
            _ => {
                let near = bins[random.below(bins.len())].wrapping_sub(1);
                near.wrapping_add(random.below(3) as u32)
            }
        };
        let (first, last) = (pick(), pick());
        let is_found = compare(seed, &list, first, last) > 0;
        let is_marked_later = bins.contains(&0);
        assert!(!is_found || !is_marked_later, "seed {seed}");
        let kinds = [
            is_found,
            is_found && first == 0 && marks == 1,
            is_found && first == 0 && marks > 1,
            is_marked_later && first <= last,
        ];
        for (count, is_seen) in seen.iter_mut().zip(kinds) {
            *count += u32::from(is_seen);
        }
    }
    println!("found, from 0 on after one mark and after several, a 0 later: {seen:?}");
    assert!(seen[0] > 40_000 && seen[1..].iter().all(|&count| count > 1_000));
}

/// Breaks a list in one way in a quarter of all cases. It may still rise.
fn break_list(random: &mut Random, list: &mut Vec<u32>) {
    let place = random.below(list.len().max(1));
    match random.below(20) {
        0 if place > 0 => list[place] = list[place - 1],
        1 if place > 0 => list[place] = random.word(),
        2 | 3 => drop(mark_later(random, list)),
        // Marks in front or between bins.
        4 if !list.is_empty() => {
            let marks = vec![0; any_marks(random)];
            list.splice(place..place, marks);
        }
        _ => (),
    }
}

/// Lists may be longer than a query's runs.
#[test]
fn long_lists() {
    let mut list: Vec<u32> = (0..1_100_000).map(|x| 3 * x).collect();
    for seed in seeds(32, 60) {
        let mut random = Random(seed);
        let first = random.below(3_300_000) as u32;
        let last = first + random.below(3_300_000) as u32;
        compare(seed, &list, first, last);
    }
    compare(0, &list, 0, M);
    *list.last_mut().unwrap() = 0;
    assert_eq!(compare(0, &list, 0, 5), 0);
    // Marks alone, then bins after them, and a mark at the end.
    list.fill(0);
    assert_eq!(compare(0, &list, 0, M), 0);
    list.extend([4, 7]);
    assert_eq!(compare(0, &list, 0, 5), 1);
    assert_eq!(compare(0, &list, 4, M), 2);
    list.push(0);
    assert_eq!(compare(0, &list, 0, M), 0);
}
