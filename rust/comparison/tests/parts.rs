//! The parts that are read in a certificate: any bytes, the iterator's own
//! promises, and the lines that the program prints. The tests of the checker
//! read each of their certificates too.

use comparison::certificates::{any_fields, compare_parts};
use comparison::program::repository;
use comparison::question::{whole, Question};
use comparison::seeds;
use quorum::{parts, Part, Refusal};
use reference::testing::{lay_out, Random, SEVEN_RUNS, THREE_RUNS};
use std::fs;

/// Reads each of the rows of bytes. Returns how many can be read to their end,
/// and how many have a field that cannot, with parts before it and without.
fn compare_all(rows: impl Iterator<Item = (u64, Vec<u8>)>) -> [u64; 3] {
    let mut seen = [0; 3];
    for (seed, bytes) in rows {
        match compare_parts(seed, &bytes) {
            Ok(_) => seen[0] += 1,
            Err(Refusal { place, .. }) => seen[if place > 0 { 1 } else { 2 }] += 1,
        }
    }
    println!("whole, cut after a part, cut at once: {seen:?}");
    seen
}

#[test]
fn fields_of_any_content() {
    let rows = seeds(61, 60_000).map(|seed| (seed, any_fields(&mut Random(seed))));
    let seen = compare_all(rows);
    assert!(seen.iter().all(|&times| times > 5_000));
}

#[test]
fn any_bytes() {
    let rows = seeds(62, 60_000).map(|seed| {
        let mut random = Random(seed);
        let few = random.one_in(2);
        let byte = |random: &mut Random| match few {
            true => random.pick(&[0, 1, 2, 12, 16]),
            false => random.word() as u8,
        };
        let bytes = (0..random.below(60)).map(|_| byte(&mut random)).collect();
        (seed, bytes)
    });
    assert!(compare_all(rows)[2] > 10_000);
}

/// Every tag and every length of a field that is whole, cut or followed by
/// more.
#[test]
fn every_tag_and_length() {
    let mut read = 0;
    for tag in 0..=255 {
        for length in 0..=300_u16 {
            let [low, high] = length.to_le_bytes();
            for bytes in [0, 11, 12, 13, 15, 16, 17, length.into(), 320] {
                let mut field = vec![tag, low, high];
                field.resize(3 + bytes, 1);
                read += u64::from(compare_parts(0, &field).is_ok());
            }
        }
    }
    // The answer twice and the gap twice: 12 and 16 are each tried twice.
    assert_eq!(read, 4);
}

/// At each step the rest is neither shorter nor longer than the hint says, a
/// copy goes on alike, and after the end there is nothing.
#[test]
fn promises_of_the_iterator() {
    for seed in seeds(63, 10_000) {
        let bytes = any_fields(&mut Random(seed));
        let all: Vec<Result<Part, Refusal>> = parts(&bytes).collect();
        let mut iterator = parts(&bytes);
        for left in (0..=all.len()).rev() {
            let (least, most) = iterator.size_hint();
            assert!(least <= left && left <= most.unwrap(), "seed {seed}");
            let next = all.len() - left;
            assert!(iterator.clone().eq(all[next..].iter().copied()));
            assert_eq!(iterator.next(), all.get(next).copied(), "seed {seed}");
        }
        assert_eq!((iterator.next(), iterator.next()), (None, None));
        assert_eq!(iterator.size_hint(), (0, Some(0)));
    }
}

#[test]
fn runs_of_a_mask() {
    let mut random = Random(64);
    let mut masks = vec![0, 1, 1 << 63, u64::MAX];
    masks.extend((0..10_000).map(|_| random.bits() & random.bits()));
    for mask in masks {
        let part = Part::Answer { value: 0, mask };
        let named: Vec<usize> = (0..64).filter(|i| mask >> i & 1 == 1).collect();
        assert_eq!(part.runs().len(), named.len());
        assert!(part.runs().eq(named));
    }
}

/// A part's line is the one that the program prints.
#[test]
fn lines_of_the_program() {
    for (name, runs, threshold) in [
        ("listing", &THREE_RUNS[..], 2),
        ("four_of_seven", &SEVEN_RUNS, 4),
    ] {
        let (numbers, ends) = lay_out(runs);
        let question = Question::plain(&numbers, &ends, threshold);
        let limits = whole(question).unwrap();
        let mut certificate = vec![0; limits.bytes];
        let mut answers = vec![0; limits.answers];
        quorum::query(
            &numbers,
            &ends,
            threshold,
            limits.allowance,
            &mut answers,
            &mut certificate,
        )
        .unwrap();
        let line = |part: Result<Part, Refusal>| format!("{}\n", part.unwrap());
        let lines: String = parts(&certificate).map(line).collect();
        let path = repository().join(format!("examples/hits/{name}.out"));
        let printed = fs::read_to_string(path).unwrap();
        let (before, _) = printed.split_once("done").unwrap();
        assert_eq!(lines, before, "{name}");
    }
}
