//! Pairs of runs: the instances, the pivots, the nesting, the order and the places
//! of the refusals, and random pairs against the definition and a plain second form
//! of the partition.

mod common;

use common::{any_runs, counted_answers, long_and_short, mapped, FILLER};
use reference::testing::{
    answers_of, lay_out, pair_instances, small_inputs, Random, M, THREE_RUNS,
};
use reference::{
    digits, pair, pair_steps, trace, PairOutcome, Refusal, Step, Weighting, MAX_NUMBERS,
};

/// What a call with so many places returns and writes, after a look at what lies
/// behind.
fn ask_rows(numbers: &[u32], ends: &[u32], room: usize) -> (PairOutcome, Vec<u32>) {
    let mut answers = vec![FILLER; room];
    let outcome = pair(numbers, ends, &mut answers);
    let later = answers.split_off(outcome.answers as usize);
    assert!(later.iter().all(|&x| x == FILLER));
    (outcome, answers)
}

fn ask<R: AsRef<[u32]>>(runs: &[R], room: usize) -> (PairOutcome, Vec<u32>) {
    let (numbers, ends) = lay_out(runs);
    ask_rows(&numbers, &ends, room)
}

/// Asks with the room of the instance and, if that is enough, with exactly as much
/// as is needed and with more.
#[test]
fn every_instance() {
    let mut met = [0; 6];
    for instance in pair_instances() {
        let (numbers, ends) = (&instance.numbers, &instance.ends);
        let expected = (instance.outcome(), instance.answers.clone());
        let mut rooms = vec![instance.room];
        if instance.refusal.is_none() {
            let exact = instance.answers.len();
            rooms.extend([exact, exact + 1, exact + 100]);
        }
        for room in rooms {
            let found = ask_rows(numbers, ends, room);
            assert_eq!(found, expected, "{}", instance.name);
        }
        met[instance
            .refusal
            .map_or(0, |refusal| refusal.number as usize)] += 1;
    }
    assert!([0, 1, 3, 4, 5].iter().all(|&i| met[i] > 3), "{met:?}");
}

/// What a partition does, in short: a pivot with the run that gives it and its
/// depth, or an answer.
fn steps<R: AsRef<[u32]>>(runs: [R; 2]) -> Vec<(u32, Option<(usize, u32)>)> {
    let (numbers, ends) = lay_out(&runs);
    let short = |step| match step {
        Step::Pivot { value, run, depth } => (value, Some((run, depth))),
        Step::Answer { value } => (value, None),
    };
    let steps = pair_steps(&numbers, &ends).unwrap();
    steps.into_iter().map(short).collect()
}

/// The shorter run gives the pivot, at equal lengths the first one; of an even
/// count it is the later of the two middle numbers. What is above the pivot follows
/// what is below.
#[test]
fn pivots() {
    let by = |run, depth| Some((run, depth));
    let [first, second, _] = THREE_RUNS;
    assert_eq!(
        steps([first, second]),
        [(5, by(0, 1)), (5, None), (9, by(0, 2)), (9, None)]
    );
    assert_eq!(
        steps([second, first]),
        [(5, by(1, 1)), (5, None), (9, by(1, 2)), (9, None)]
    );
    assert_eq!(
        steps([[1, 2, 3, 4], [2, 4, 6, 8]]),
        [
            (3, by(0, 1)),
            (2, by(1, 2)),
            (2, None),
            (4, by(0, 2)),
            (4, None)
        ]
    );
    assert_eq!(
        steps([[2, 4, 6, 8], [1, 2, 3, 4]]),
        [
            (6, by(0, 1)),
            (4, by(0, 2)),
            (2, by(0, 3)),
            (2, None),
            (4, None)
        ]
    );
    let uneven: [&[u32]; 2] = [&[4, 8], &[1, 6, 9]];
    assert_eq!(steps(uneven), [(8, by(0, 1)), (4, by(0, 2))]);
    // Of the lower sides that of the longer run is the shorter one.
    let changing: [&[u32]; 2] = [&[1, 2, 3, 4, 5], &[2, 6, 7, 8, 9, 10]];
    assert_eq!(
        steps(changing),
        [(3, by(0, 1)), (2, by(1, 2)), (2, None), (5, by(0, 2))]
    );
    // Marks give no pivot and are not among the numbers that are counted.
    let marked: [&[u32]; 2] = [&[0, 0, 0, 4, 8], &[0, 1, 6, 9]];
    assert_eq!(steps(marked), steps(uneven));
    let empty: [&[u32]; 2] = [&[], &[1, 2]];
    assert_eq!(steps(empty), []);
}

/// The steps of a partition by a plain second form: each side is a list of its own,
/// and the numbers below the pivot and above it are picked out one by one.
fn plain_steps(sides: [Vec<u32>; 2], depth: u32) -> Vec<Step> {
    let lengths = sides.each_ref().map(Vec::len);
    if lengths.contains(&0) {
        return vec![];
    }
    let run = if lengths[0] <= lengths[1] { 0 } else { 1 };
    let value = sides[run][lengths[run] / 2];
    let picked = |wanted: fn(&u32, &u32) -> bool| {
        let pick = |side: &Vec<u32>| side.iter().filter(|x| wanted(x, &value)).copied().collect();
        sides.each_ref().map(pick)
    };
    let mut steps = vec![Step::Pivot { value, run, depth }];
    steps.extend(plain_steps(picked(u32::lt), depth + 1));
    if sides.iter().all(|side| side.contains(&value)) {
        steps.push(Step::Answer { value });
    }
    steps.extend(plain_steps(picked(u32::gt), depth + 1));
    steps
}

/// How deep steps are nested.
fn deepest<'a>(steps: impl IntoIterator<Item = &'a Step>) -> u32 {
    let depth = |step: &Step| match step {
        Step::Pivot { depth, .. } => *depth,
        Step::Answer { .. } => 0,
    };
    steps.into_iter().map(depth).max().unwrap_or(0)
}

/// Compares a pair with the definition, with the walk of threshold 2, and with the
/// plain form of the partition, for each size of the answer buffer. Counts whether
/// the nesting was less deep than it may be, or as deep.
fn compare(runs: &[Vec<u32>], met: &mut [u64; 2]) {
    let (numbers, ends) = lay_out(runs);
    let answers = counted_answers(runs, Weighting::Plain, 2);
    let walk = trace(&numbers, &ends, 2).unwrap();
    assert_eq!(answers_of(&walk.parts), answers, "{runs:?}");

    let bins = [mapped(&runs[0]).to_vec(), mapped(&runs[1]).to_vec()];
    let shorter = bins[0].len().min(bins[1].len());
    let deepest_allowed = digits(shorter as u64);
    let steps = pair_steps(&numbers, &ends).unwrap();
    assert_eq!(steps, plain_steps(bins, 1), "{runs:?}");
    for room in 0..=answers.len() + 2 {
        // What is done until an answer is due that has no room.
        let is_answer = |&&step: &&Step| matches!(step, Step::Answer { .. });
        let full = steps.iter().filter(is_answer).nth(room);
        let until = full.map_or(steps.len(), |full| {
            steps.iter().position(|step| step == full).unwrap()
        });
        let written = answers.len().min(room);
        let expected = PairOutcome {
            answers: written as u64,
            refusal: full.map(|_| Refusal {
                number: 5,
                place: room as u64,
            }),
            nesting: deepest(&steps[..until]),
        };
        let found = ask(runs, room);
        assert_eq!(found, (expected, answers[..written].to_vec()), "{runs:?}");
        assert!(expected.nesting <= deepest_allowed, "{runs:?}");
    }
    met[usize::from(deepest(&steps) == deepest_allowed)] += 1;
}

#[test]
fn random_pairs() {
    let mut met = [0; 2];
    for seed in 0..12_000 {
        let mut random = Random(seed);
        let most = random.pick(&[3, 8, 40]);
        let mut runs = any_runs(&mut random, 2, most);
        runs.resize(2, vec![]);
        if random.one_in(2) {
            runs.swap(0, 1);
        }
        compare(&runs, &mut met);
    }
    for seed in 0..4_000 {
        compare(&long_and_short(&mut Random(seed)), &mut met);
    }
    assert!(met.iter().all(|&count| count > 100), "{met:?}");
}

#[test]
fn all_small_pairs() {
    let mut met = [0; 2];
    for runs in small_inputs(2) {
        compare(&runs, &mut met);
    }
    assert_eq!(met.iter().sum::<u64>(), 24 * 24);
}

/// All pairs of runs over seven bins.
#[test]
fn all_pairs_of_few_bins() {
    let mut met = [0; 2];
    let run = |choice: u32| -> Vec<u32> { (1..=7).filter(|i| choice >> i & 1 == 1).collect() };
    for choice in 0..1 << 14 {
        let runs = [run(choice << 1), run(choice >> 6)];
        compare(&runs, &mut met);
    }
    assert!(met.iter().all(|&count| count > 500), "{met:?}");
}

/// Asks with a large buffer, and with none, and expects a refusal of the first
/// checks, with nothing written.
fn expect_first(numbers: &[u32], ends: &[u32], number: u8, place: u64) {
    let refusal = Refusal { number, place };
    assert_eq!(pair_steps(numbers, ends), Err(refusal), "ends {ends:?}");
    for room in [8, 0] {
        let expected = PairOutcome {
            answers: 0,
            refusal: Some(refusal),
            nesting: 0,
        };
        let found = ask_rows(numbers, ends, room);
        assert_eq!(found, (expected, vec![]), "ends {ends:?}");
    }
}

/// Broken in every way that the first checks refuse, and then put right one after
/// another.
#[test]
fn the_order_of_the_first_checks() {
    for k in [0, 1, 3, 4, 63, 64, 65, 66] {
        expect_first(&[3, 3], &vec![9; k], 1, k as u64);
    }
    expect_first(&[3, 3], &[9, 2], 3, 1);
    expect_first(&[3, 3], &[M, 9], 3, 1);
    expect_first(&[3, 3], &[2, 9], 3, 2);
    expect_first(&[3, 3], &[0, 1], 3, 2);
    expect_first(&[3, 3], &[2, 2], 4, 1);
    expect_first(&[3, 3], &[0, 2], 4, 1);
    expect_first(&[0, 0, 5, 0, 1], &[4, 5], 4, 3);
    let (outcome, answers) = ask_rows(&[3, 3], &[1, 2], 1);
    assert_eq!((outcome.refusal, answers), (None, vec![3]));
}

/// As many numbers as are allowed, nested as deep as they can be, and one more. The
/// marks count towards the limit.
#[test]
fn most_numbers() {
    let half = MAX_NUMBERS as u32 / 2;
    let mut runs = vec![(1..=half).collect::<Vec<_>>(); 2];
    let (outcome, answers) = ask(&runs, MAX_NUMBERS);
    let expected = PairOutcome {
        answers: half.into(),
        refusal: None,
        nesting: 20,
    };
    assert_eq!(outcome, expected);
    assert!(answers == runs[0]);
    runs[0].insert(0, 0);
    let (numbers, ends) = lay_out(&runs);
    expect_first(&numbers, &ends, 3, 2);
}
