//! Calls of many questions: the instances, random calls of every kind, and
//! broken ones.

use comparison::broken::break_rows;
use comparison::many::{break_questions, result_of, Call, Comparer};
use comparison::question::Limits;
use comparison::seeds;
use comparison::shapes::any_runs;
use reference::encode;
use reference::testing::{many_instances, ManyInstance, Random, M};

/// Asks the library with the given allowance and rows of the given lengths,
/// having compared it with the reference.
fn expect(instance: &ManyInstance, allowance: u32, room: [usize; 3]) {
    const FILLER: u64 = 0xabab_abab_abab_abab;
    let name = instance.name;
    let call = Call::new(&instance.runs, &instance.masks, &instance.thresholds);
    let limits = Limits {
        allowance,
        answers: room[0],
        bytes: room[1],
    };
    let row = Comparer::of_rows().compare(0, &call, limits, room[2]);
    assert_eq!(row, instance.row, "{name}");
    Comparer::new().compare(0, &call, limits, room[2]);

    let mut answers = vec![FILLER as u32; room[0]];
    let mut certificate = vec![FILLER as u8; room[1]];
    let mut results = vec![FILLER; room[2]];
    let result = quorum::query_many(
        &call.numbers,
        &call.ends,
        &call.masks,
        &call.thresholds,
        allowance,
        &mut answers,
        &mut certificate,
        &mut results,
    );
    assert_eq!(result, result_of(instance.row), "{name}");
    let mut expected = instance.answers();
    expected.resize(room[0], FILLER as u32);
    assert_eq!(answers, expected, "{name}");
    let mut expected = encode(&instance.parts);
    expected.resize(room[1], FILLER as u8);
    assert_eq!(certificate, expected, "{name}");
    let mut expected = instance.results.clone();
    expected.resize(room[2], FILLER);
    assert_eq!(results, expected, "{name}");
}

/// Asks as the instance says; if that is accepted, with exactly what it needs
/// and with ample limits too.
#[test]
fn every_instance() {
    for instance in many_instances() {
        expect(&instance, instance.allowance, instance.room);
        if instance.row[0] == 0 {
            let [_, _, _, answers, _, bytes, doublings, halvings] = instance.row;
            let room = [answers as usize, bytes as usize, instance.results.len()];
            expect(&instance, (doublings + halvings) as u32, room);
            expect(&instance, M, [1_024, 65_536, 40]);
        }
    }
}

/// Calls of up to 8 questions about random runs, with limits of every kind; now
/// and then the questions are broken.
fn compare_random(mut comparer: Comparer, group: u64, cases: u64, runs: [usize; 3]) -> Comparer {
    let [fewest, most, length] = runs;
    for seed in seeds(group, cases) {
        let mut random = Random(seed);
        let k = random.from_to(fewest, most);
        let length = random.below(length + 1);
        let runs = any_runs(&mut random, k, length);
        let questions = random.below(9);
        let mut call = Call::any(&mut random, &runs, questions);
        if random.one_in(10) {
            break_questions(&mut random, &mut call);
        }
        comparer.compare_limits(seed, &mut random, &call);
    }
    comparer
}

#[test]
fn few_short_runs() {
    let comparer = compare_random(Comparer::new(), 81, 6_000, [0, 5, 8]);
    assert!(comparer.asked() > 60_000);
    comparer.met(&[0, 1, 2, 5, 6, 7, 13, 14], 50);
}

#[test]
fn more_runs() {
    let comparer = compare_random(Comparer::new(), 82, 1_500, [3, 20, 15]);
    assert!(comparer.asked() > 15_000);
    comparer.met(&[0, 2, 5, 6, 7, 13, 14], 10);
}

#[test]
fn most_runs() {
    let comparer = compare_random(Comparer::new(), 83, 250, [50, 65, 20]);
    assert!(comparer.asked() > 2_500);
    comparer.met(&[0, 1, 5, 6, 7], 10);
}

#[test]
fn long_runs() {
    let comparer = compare_random(Comparer::new(), 84, 50, [1, 8, 2_000]);
    comparer.met(&[0, 5, 6, 7], 10);
}

/// The rows that the C interface writes.
#[test]
fn rows_of_the_c_interface() {
    let comparer = compare_random(Comparer::of_rows(), 85, 1_500, [0, 9, 7]);
    comparer.met(&[0, 1, 2, 5, 6, 7, 13, 14], 10);
}

/// Runs and questions broken in up to three ways, and rows of results that are
/// too short.
#[test]
fn first_checks() {
    let mut comparer = Comparer::new();
    for seed in seeds(86, 60_000) {
        let mut random = Random(seed);
        let k = random.pick(&[0, 1, 2, 3, 3, 4, 5, 8, 63, 64, 65]);
        let length = random.below(6);
        let runs = any_runs(&mut random, k, length);
        let questions = random.below(6);
        let mut call = Call::any(&mut random, &runs, questions);
        if random.one_in(3) {
            break_rows(&mut random, &mut call.numbers, &mut call.ends);
        }
        for _ in 0..random.from_to(0, 2) {
            break_questions(&mut random, &mut call);
        }
        let results = match random.one_in(6) {
            true => random.below(call.results() + 1),
            false => call.results() + random.below(3),
        };
        let limits = Limits {
            allowance: random.pick(&[0, 1, 5, M]),
            answers: random.below(20),
            bytes: random.below(300),
        };
        comparer.compare(seed, &call, limits, results);
    }
    comparer.met(&[0, 1, 2, 3, 4, 5, 6, 7, 13, 14], 200);
}

/// Any rows at all.
#[test]
fn noise() {
    let mut comparer = Comparer::of_rows();
    for seed in seeds(87, 60_000) {
        let mut random = Random(seed);
        let small = |random: &mut Random| match random.below(12) {
            0 => random.word(),
            n => n as u32 / 2,
        };
        let mut numbers: Vec<u32> = (0..random.below(9)).map(|_| small(&mut random)).collect();
        if !random.one_in(4) {
            numbers.sort_unstable();
            numbers.dedup();
        }
        if random.one_in(4) {
            numbers.splice(0..0, vec![0; random.from_to(1, 4)]);
        }
        let limit = numbers.len() + random.pick(&[1, 1, 2]);
        let mut ends: Vec<u32> = (0..random.below(4))
            .map(|_| random.below(limit) as u32)
            .collect();
        if !random.one_in(4) {
            ends.sort_unstable();
            ends.push(numbers.len() as u32);
        }
        let mask = |random: &mut Random| match random.below(12) {
            0 => random.bits(),
            n => n as u64 - 1,
        };
        let masks: Vec<u64> = (0..random.below(4)).map(|_| mask(&mut random)).collect();
        let thresholds = match random.one_in(5) {
            true => random.below(4),
            false => masks.len(),
        };
        let call = Call {
            numbers,
            ends,
            masks,
            thresholds: (0..thresholds).map(|_| small(&mut random)).collect(),
        };
        let limits = Limits {
            allowance: random.below(5) as u32,
            answers: random.below(6),
            bytes: random.below(300),
        };
        let results = random.pick(&[call.results(), call.results() + 2, 3]);
        comparer.compare(seed, &call, limits, results);
    }
    comparer.met(&[0, 1, 2, 3, 4, 13, 14], 1_000);
}
