//! Pairs of runs: the instances, random and broken pairs of every kind with every
//! kind of room, and the answers of a question about the same two runs.

use comparison::broken::{broken_rows, faulty_rows, noise_rows};
use comparison::listing::row_of;
use comparison::met::Met;
use comparison::pair::{any_pair, compare_random, is_so, Comparer, Pair, RELATIONS};
use comparison::seeds;
use comparison::shapes::{full_runs, SHAPES};
use reference::testing::{lay_out, marked, pair_instances, small_inputs, Random, M};
use reference::{bins, digits, MAX_NUMBERS};

/// Asks with the room of the instance and, if that is enough, with exactly as much
/// as is needed and with more.
#[test]
fn every_instance() {
    const FILLER: u32 = 0xabab_abab;
    let mut comparer = Comparer::default();
    for instance in pair_instances() {
        let name = &instance.name;
        let pair = Pair::new(&instance.numbers, &instance.ends);
        let exact = instance.answers.len();
        let mut rooms = vec![instance.room];
        if instance.refusal.is_none() {
            rooms.extend([exact, exact + 1, exact + 100]);
        }
        for room in rooms {
            let row = comparer.compare(0, pair, room);
            assert_eq!(row, row_of(instance.refusal, exact as u64), "{name}");
            let mut answers = vec![FILLER; room];
            let row = quorum::ffi::pair(pair.numbers, pair.ends, &mut answers);
            assert_eq!(row, row_of(instance.refusal, exact as u64), "{name}");
            let mut expected = instance.answers.clone();
            expected.resize(room, FILLER);
            assert_eq!(answers, expected, "{name}");
        }
    }
    comparer.met(&[0, 1, 3, 4, 5], 4);
}

/// Every size of the answer buffer, up to two more than is always enough.
#[test]
fn every_room() {
    let mut comparer = Comparer::default();
    for seed in seeds(171, 12_000) {
        let mut random = Random(seed);
        let length = random.below(13);
        let (numbers, ends) = lay_out(&any_pair(&mut random, length));
        comparer.compare_every_room(seed, Pair::new(&numbers, &ends));
    }
    comparer.met(&[0, 5], 10_000);
}

#[test]
fn random_pairs() {
    let comparer = compare_random(seeds(172, 20_000), 60);
    comparer.met(&[0, 5], 20_000);
}

#[test]
fn long_pairs() {
    let comparer = compare_random(seeds(173, 300), 6_000);
    comparer.met(&[0, 5], 300);
}

/// What the random pairs are like: of each kind there are many, with different
/// numbers of answers where there can be some.
#[test]
fn kinds_of_pairs() {
    let mut met = Met::default();
    for seed in seeds(172, 20_000) {
        let mut random = Random(seed);
        let length = random.below(61);
        let runs = any_pair(&mut random, length);
        let (numbers, ends) = lay_out(&runs);
        let answers = reference::pair(&numbers, &ends, &mut [0; 200]).answers;
        for relation in RELATIONS {
            if is_so(relation, [&runs[0], &runs[1]]) {
                met.count(relation, answers);
            }
        }
    }
    met.met("pairs", &RELATIONS.map(|relation| (relation, 500, 1)));
}

/// All pairs of runs over seven bins, with every room.
#[test]
fn all_pairs_of_few_bins() {
    let mut comparer = Comparer::default();
    let run = |choice: u64| -> Vec<u32> { (1..=7).filter(|i| choice >> i & 1 == 1).collect() };
    for choice in 0..1 << 14 {
        let (numbers, ends) = lay_out(&[run(choice << 1), run(choice >> 6)]);
        comparer.compare_every_room(choice, Pair::new(&numbers, &ends));
    }
    comparer.met(&[0, 5], 25_000);
}

/// All runs over the first bin and the last two, each after up to two marks.
#[test]
fn all_small_inputs() {
    let mut comparer = Comparer::default();
    for k in 1..=2 {
        for (seed, runs) in (0..).zip(small_inputs(k)) {
            let (numbers, ends) = lay_out(&runs);
            comparer.compare_every_room(seed, Pair::new(&numbers, &ends));
        }
    }
    comparer.met(&[0, 5], 400);
    comparer.met(&[1], 24);
}

/// Rows of mostly two runs, broken in one to three ways.
#[test]
fn first_checks() {
    let mut comparer = Comparer::default();
    for seed in seeds(174, 60_000) {
        let mut random = Random(seed);
        let k = random.pick(&[0, 1, 2, 2, 2, 2, 2, 2, 2, 3, 64, 65]);
        let (numbers, ends) = broken_rows(&mut random, k);
        let pair = Pair::new(&numbers, &ends);
        comparer.compare_enough(seed, pair);
        comparer.compare(seed, pair, random.below(4));
    }
    comparer.met(&[0, 1, 3, 4], 5_000);
    comparer.met(&[5], 200);
}

/// Any rows at all, in half of all cases of two runs.
#[test]
fn noise() {
    let mut comparer = Comparer::default();
    for seed in seeds(175, 120_000) {
        let mut random = Random(seed);
        let (numbers, mut ends) = noise_rows(&mut random);
        if random.one_in(2) {
            ends.resize(2, numbers.len() as u32);
        }
        comparer.compare(seed, Pair::new(&numbers, &ends), random.below(4));
    }
    comparer.met(&[0, 1, 3, 4, 5], 100);
}

/// A fault of each first check, and the refusal that each of them is if no other
/// comes before it.
#[test]
fn every_combination_of_faults() {
    let mut comparer = Comparer::default();
    for k in [0, 1, 2, 3, 4, 63, 64, 65, 66] {
        for ((numbers, ends), refusal) in faulty_rows(k) {
            let expected = match (k, refusal) {
                (2, None) => [0, 0, 2],
                (2, Some((number, place))) => [number.into(), place, 0],
                _ => [1, k as u64, 0],
            };
            let pair = Pair::new(&numbers, &ends);
            assert_eq!(comparer.compare(0, pair, 70), expected, "{pair:?}");
        }
    }
    comparer.met(&[0, 1, 3, 4], 1);
}

/// Exactly as many numbers as are allowed, either run being the longer one, and one
/// more.
#[test]
fn most_numbers() {
    let mut comparer = Comparer::default();
    for (seed, shape) in seeds(176, 6).zip(SHAPES) {
        let mut random = Random(seed);
        let mut runs = full_runs(&mut random, shape, 2);
        for _ in 0..2 {
            runs.swap(0, 1);
            let (mut numbers, mut ends) = lay_out(&runs);
            assert_eq!(numbers.len(), MAX_NUMBERS);
            comparer.compare_rooms(seed, &mut random, Pair::new(&numbers, &ends));
            numbers.push(M);
            for last_end in [MAX_NUMBERS, MAX_NUMBERS + 1] {
                ends[1] = last_end as u32;
                comparer.compare(seed, Pair::new(&numbers, &ends), 3);
            }
        }
    }
    comparer.met(&[0, 3], 24);
    comparer.met(&[5], 12);
}

/// Runs of half as many numbers as are allowed, which nest the calls as deep as they
/// can be: with equal numbers, in turn, and the first run above the second.
#[test]
fn deepest_nesting() {
    let mut comparer = Comparer::default();
    let half = MAX_NUMBERS as u32 / 2;
    let run = |start: u32, step: usize| -> Vec<u32> {
        (start..).step_by(step).take(half as usize).collect()
    };
    for runs in [
        [run(1, 1), run(1, 1)],
        [run(1, 2), run(2, 2)],
        [run(half + 1, 1), run(1, 1)],
    ] {
        let (numbers, ends) = lay_out(&runs);
        let nesting = reference::pair(&numbers, &ends, &mut vec![0; MAX_NUMBERS]).nesting;
        assert_eq!((nesting, digits(half.into())), (20, 20));
        comparer.compare_rooms(0, &mut Random(0), Pair::new(&numbers, &ends));
    }
    comparer.met(&[0], 10);
    comparer.met(&[5], 2);
}

/// The order of the runs changes no answer, and neither do the marks that they begin
/// with.
#[test]
fn exchanged_and_marked() {
    let mut comparer = Comparer::default();
    for seed in seeds(177, 10_000) {
        let mut random = Random(seed);
        let runs = any_pair(&mut random, 12);
        let mut bare: Vec<&[u32]> = runs.iter().map(|run| bins(run)).collect();
        let (numbers, ends) = lay_out(&bare);
        let pair = Pair::new(&numbers, &ends);
        let room = random.below(pair.enough() + 2);
        let row = comparer.compare(seed, pair, room);
        let answers = comparer.found().to_vec();

        bare.swap(0, 1);
        let marks = random.pick(&[[0, 0], [0, 1], [1, 0], [2, 3], [64, 1], [63, 129]]);
        let (numbers, ends) = lay_out(&marked(&bare, &marks));
        let found = comparer.compare(seed, Pair::new(&numbers, &ends), room);
        assert_eq!((found, comparer.found()), (row, &answers[..]));
    }
    comparer.met(&[0, 5], 2_000);
}
