//! What the first run holds alone: the instances, the order and the places of the
//! refusals, and random questions against the definition and a plain second form
//! of the walk of the other runs.

mod common;

use common::{any_runs, counted_answers, in_room, long_and_short, Limited, PlainWalk};
use reference::testing::{
    accepted, alone_instances, answers_of, held_alone, lay_out, refused, refused_first, slices,
    small_inputs, AloneInstance, Random, M,
};
use reference::{
    check_chosen, decode, encode, fewest_parts_by, is_true_by, other_runs, probe_bound_chosen,
    query, query_alone, query_many, trace_by, Outcome, Verdict, Weighting, MAX_NUMBERS,
};

/// The outcome, the answers written and the certificate bytes written.
type Found = (Outcome, Vec<u32>, Vec<u8>);

fn ask<R: AsRef<[u32]>>(runs: &[R], threshold: u32, allowance: u32, room: [usize; 2]) -> Found {
    let (numbers, ends) = lay_out(runs);
    ask_rows(&numbers, &ends, threshold, allowance, room)
}

fn ask_rows(
    numbers: &[u32],
    ends: &[u32],
    threshold: u32,
    allowance: u32,
    room: [usize; 2],
) -> Found {
    in_room(room, |answers, certificate| {
        query_alone(numbers, ends, threshold, allowance, answers, certificate)
    })
}

/// Compares an accepted instance with the definitions, the checker and the walk
/// of the other runs.
fn settle(instance: &AloneInstance) {
    let AloneInstance {
        name,
        runs,
        threshold,
        allowance,
        answers,
        parts,
        ..
    } = instance;
    let (numbers, ends) = lay_out(runs);
    let others = other_runs(runs.len());
    let weighting = Weighting::Chosen(others);
    assert_eq!(*answers, held_alone(runs, *threshold), "{name}");
    let held = counted_answers(runs, weighting, *threshold);
    assert_eq!(answers_of(parts), held, "{name}");
    assert!(parts.iter().all(|part| part.mask() & 1 == 0), "{name}");

    let whole = trace_by(&numbers, &ends, weighting, *threshold).unwrap();
    assert_eq!(whole.parts, *parts, "{name}");
    let probes = whole.all_probes();
    assert_eq!(probes.total(), u64::from(*allowance), "{name}");
    let runs = slices(runs);
    assert!(is_true_by(&runs, weighting, *threshold, parts), "{name}");
    let fewest = fewest_parts_by(&runs, weighting, *threshold);
    assert_eq!(fewest, parts.len(), "{name}");
    let valid = Verdict::Valid {
        answers: held.len() as u64,
        parts: parts.len() as u64,
    };
    let verdict = check_chosen(&numbers, &ends, others, *threshold, &encode(parts));
    assert_eq!(verdict, valid, "{name}");
}

/// Asks with the room of the instance and, if that is enough, with exactly as much
/// as is needed and with the largest allowance.
#[test]
fn every_instance() {
    for instance in alone_instances() {
        let AloneInstance {
            name,
            runs,
            threshold,
            allowance,
            room,
            answers,
            parts,
            outcome,
        } = &instance;
        let expected = (*outcome, answers.clone(), encode(parts));
        let exact = [answers.len(), expected.2.len()];
        let found = ask(runs, *threshold, *allowance, *room);
        assert_eq!(found, expected, "{name}");
        if instance.is_accepted() {
            let found = ask(runs, *threshold, *allowance, exact);
            assert_eq!(found, expected, "{name}");
            let found = ask(runs, *threshold, M, exact.map(|places| places + 9));
            assert_eq!(found, expected, "{name}");
            settle(&instance);
        }
    }
}

/// Asks with large buffers, and with none, and expects a refusal of the first
/// checks, with nothing written.
fn expect_first(numbers: &[u32], ends: &[u32], threshold: u32, number: u8, place: u64) {
    for (allowance, room) in [(M, [8, 200]), (0, [0, 0])] {
        let found = ask_rows(numbers, ends, threshold, allowance, room);
        let expected = (refused_first(number, place), vec![], vec![]);
        assert_eq!(found, expected, "threshold {threshold}, ends {ends:?}");
    }
}

/// Broken in every way that the first checks refuse, and then put right one after
/// another.
#[test]
fn the_order_of_the_first_checks() {
    expect_first(&[3, 3], &[], 0, 1, 0);
    expect_first(&[3, 3], &[9; 65], 0, 1, 65);
    expect_first(&[3, 3], &[9], 0, 2, 0);
    expect_first(&[3, 3], &[9], 1, 2, 1);
    expect_first(&[3, 3], &[9], M, 2, M.into());
    expect_first(&[3, 3], &[9, 2], 2, 2, 2);
    expect_first(&[3, 3], &[9, 2], 0, 2, 0);
    expect_first(&[3, 3], &[9, 2], 1, 3, 1);
    expect_first(&[3, 3], &[9, 2, 1], 3, 2, 3);
    expect_first(&[3, 3], &[9, 2, 1], 2, 3, 1);
    expect_first(&[7, 5], &[2, 1], 1, 3, 1);
    expect_first(&[3, 3], &[2, 3], 1, 3, 2);
    expect_first(&[3, 3], &[2, 2], 1, 4, 1);
    expect_first(&[3, 3], &[0, 2], 1, 4, 1);
    expect_first(&[0, 0, 5, 0, 1], &[4, 5], 1, 4, 3);
    expect_first(&[0, 0, 5, 0, 0], &[3, 5], 2, 2, 2);
    let ends: Vec<u32> = (1..=64).collect();
    expect_first(&[7; 64], &ends, 64, 2, 64);
    expect_first(&[7; 64], &ends, 65, 2, 65);
    let (outcome, ..) = ask(&[[7]; 64], 63, 0, [0, 53]);
    assert_eq!(outcome, accepted(0, 3, 53, [0, 0]));
}

/// The numbers of the first run count towards the limit.
#[test]
fn most_numbers() {
    let first: Vec<u32> = (0..MAX_NUMBERS as u32 - 3).collect();
    let answers: Vec<u32> = first[1..].iter().copied().filter(|&x| x != 5).collect();
    let mut runs = vec![first, vec![5], vec![5, 9]];
    let found = ask(&runs, 2, 0, [MAX_NUMBERS, 53]);
    assert_eq!(found.0, accepted(answers.len() as u64, 3, 53, [0, 0]));
    assert!(found.1 == answers);
    runs[1].insert(0, 0);
    let (numbers, ends) = lay_out(&runs);
    expect_first(&numbers, &ends, 2, 3, 3);
}

/// What a question returns and writes, by the definition of its answers and the
/// walk of the other runs up to the first check that fails, in which no answer is
/// written.
fn expected(runs: &[Vec<u32>], threshold: u32, allowance: u32, room: [usize; 2]) -> Found {
    let walk = PlainWalk::of_chosen(runs, other_runs(runs.len()), threshold);
    let mut limited = Limited::new(allowance, usize::MAX, room[1]);
    let end = limited.go_on(&walk.events);
    let certificate = encode(&limited.parts);
    let (parts, bytes) = (limited.parts.len() as u64, certificate.len() as u64);
    if let Some(number) = end {
        let outcome = refused(number, parts, 0, bytes, limited.probes);
        return (outcome, vec![], certificate);
    }
    let mut answers = held_alone(runs, threshold);
    let is_full = answers.len() > room[0];
    answers.truncate(room[0]);
    let count = answers.len() as u64;
    let outcome = match is_full {
        true => refused(5, parts, count, bytes, limited.probes),
        false => accepted(count, parts, bytes, limited.probes),
    };
    (outcome, answers, certificate)
}

/// Compares with buffers and allowances of every kind. Counts the outcomes by
/// refusal.
fn compare_limits(random: &mut Random, runs: &[Vec<u32>], threshold: u32, seen: &mut [u64; 8]) {
    let walk = PlainWalk::of_chosen(runs, other_runs(runs.len()), threshold);
    let probes = walk.probes().total() as u32;
    let answers = held_alone(runs, threshold).len();
    let bytes = encode(&walk.parts()).len();
    let mut limits = vec![
        (probes, [answers, bytes]),
        (probes, [answers + 1, bytes + 1]),
        (M, [answers + 5, bytes + 40]),
        (0, [answers, bytes]),
        (probes.saturating_sub(1), [answers, bytes]),
        (probes.saturating_sub(1), [0, bytes]),
        (probes, [0, bytes]),
        (probes, [1, bytes]),
        (probes, [answers.saturating_sub(1), bytes]),
        (probes, [answers, bytes - 1]),
        (probes, [0, bytes - 1]),
        (probes, [0, 0]),
    ];
    for _ in 0..3 {
        let allowance = random.below(probes as usize + 2) as u32;
        let room = [random.below(answers + 2), random.below(bytes + 20)];
        limits.push((allowance, room));
    }
    for (allowance, room) in limits {
        let found = ask(runs, threshold, allowance, room);
        let expected = expected(runs, threshold, allowance, room);
        let context = || format!("t {threshold}, allowance {allowance}, room {room:?}, {runs:?}");
        assert_eq!(found, expected, "{}", context());
        match found.0 {
            Outcome::Accepted { .. } => seen[0] += 1,
            Outcome::Refused { number, .. } => seen[number as usize] += 1,
        }
    }
}

/// At least two runs, of which the first is now and then nothing or what the
/// others hold.
fn any_two_or_more(random: &mut Random) -> Vec<Vec<u32>> {
    let mut runs = any_runs(random, 6, 8);
    if runs.len() < 2 {
        runs.push(vec![]);
    }
    change_first(random, &mut runs);
    runs
}

fn change_first(random: &mut Random, runs: &mut [Vec<u32>]) {
    let (first, others) = runs.split_first_mut().expect("a first run");
    match random.below(8) {
        0 => first.clear(),
        1 => *first = vec![0; random.from_to(1, 3)],
        2 => {
            *first = others.concat();
            first.sort_unstable();
            first.dedup();
        }
        3 => *first = vec![random.pick(&[1, M - 1, M])],
        _ => (),
    }
}

#[test]
fn random_questions() {
    let mut random = Random(41);
    let mut seen = [0; 8];
    for _ in 0..6_000 {
        let runs = any_two_or_more(&mut random);
        let threshold = random.from_to(1, runs.len() - 1) as u32;
        compare_limits(&mut random, &runs, threshold, &mut seen);
    }
    for _ in 0..1_000 {
        let mut runs = long_and_short(&mut random);
        let first = any_runs(&mut random, 1, 80).remove(0);
        runs.insert(0, first);
        change_first(&mut random, &mut runs);
        compare_limits(&mut random, &runs, 2, &mut seen);
    }
    println!("by refusal {seen:?}");
    assert!([0, 5, 6, 7].iter().all(|&i| seen[i] > 5_000), "{seen:?}");
}

#[test]
fn all_small_questions() {
    let mut random = Random(42);
    let mut seen = [0; 8];
    for k in 2..=3 {
        for runs in small_inputs(k) {
            for threshold in 1..k {
                compare_limits(&mut random, &runs, threshold, &mut seen);
            }
        }
    }
    assert!([0, 5, 6].iter().all(|&i| seen[i] > 5_000), "{seen:?}");
}

/// The certificate and the probes are those of a question about the other runs,
/// asked in a call of many, and but for the masks those of the other runs alone;
/// their answers and those of the question are the first run's bins. The bound over
/// the other runs is enough.
#[test]
fn a_question_about_the_others() {
    let mut random = Random(43);
    for _ in 0..6_000 {
        let runs = any_two_or_more(&mut random);
        let threshold = random.from_to(1, runs.len() - 1) as u32;
        let mask = other_runs(runs.len());
        let (numbers, ends) = lay_out(&runs);
        let fewest = fewest_parts_by(&slices(&runs), Weighting::Chosen(mask), threshold);
        let bound = probe_bound_chosen(&ends, mask, fewest as u32).unwrap();
        let (outcome, answers, certificate) = ask(&runs, threshold, bound as u32, [60, 3_000]);
        let Outcome::Accepted {
            parts,
            bytes,
            doublings,
            halvings,
            ..
        } = outcome
        else {
            panic!("{outcome:?}, {runs:?}");
        };
        assert_eq!(parts, fewest as u64);

        let (mut held, mut of_others, mut results) = ([0; 60], [0; 3_000], [0; 2]);
        let many = query_many(
            &numbers,
            &ends,
            &[mask],
            &[threshold],
            M,
            &mut held,
            &mut of_others,
            &mut results,
        );
        let held = &held[..results[0] as usize];
        let expected = reference::ManyOutcome::Accepted {
            answers: held.len() as u64,
            parts,
            bytes,
            doublings,
            halvings,
        };
        assert_eq!(many, expected, "{runs:?}");
        assert_eq!(certificate, of_others[..bytes as usize], "{runs:?}");

        let (numbers, ends) = lay_out(&runs[1..]);
        let (mut single, mut of_others) = ([0; 60], [0; 3_000]);
        let alone = query(&numbers, &ends, threshold, M, &mut single, &mut of_others);
        let count = held.len() as u64;
        let expected = accepted(count, parts, bytes, [doublings, halvings]);
        assert_eq!(alone, expected, "{runs:?}");
        assert_eq!(single[..held.len()], *held, "{runs:?}");
        let of_others = decode(&of_others[..bytes as usize]).unwrap();
        let shifted = of_others.iter().map(|part| part.mask() << 1);
        let found = decode(&certificate).unwrap();
        assert!(found.iter().map(|part| part.mask()).eq(shifted));

        let is_bin = |x: &&u32| **x > 0;
        for x in runs[0].iter().filter(is_bin) {
            assert_ne!(answers.contains(x), held.contains(x), "{x} of {runs:?}");
        }
        assert!(answers.iter().all(|x| runs[0].contains(x)));
    }
}
