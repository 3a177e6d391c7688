//! Sections of LCOV tracefiles, read on both sides: every section of every file,
//! into rows of every kind of length.

use comparison::listing::{result_of, row_of};
use comparison::readings::{Comparer, End, Section, ENDS};
use comparison::seeds;
use comparison::tracefiles::{
    all_short_records, all_small_files, any_bytes, bytes_of_the_form, damaged, edge_lines,
    long_records, sections_of, well_formed, words,
};
use quorum::{enough_answers, enough_bytes, lcov_run, query, Refusal, ENOUGH_PROBES, MAX_NUMBERS};
use reference::testing::{lcov_instances, Random};
use std::collections::BTreeSet;

/// Compares the files of a kind. Each way to end is met so often, and at so many
/// places.
fn compare(
    name: &str,
    files: impl Iterator<Item = (u64, Vec<u8>)>,
    expected: &[(End, usize, usize)],
) {
    let mut comparer = Comparer::default();
    for (seed, file) in files {
        comparer.compare(seed, &file);
    }
    println!("{name}: {} files", comparer.files);
    comparer.seen.met(name, expected);
}

/// The files that a generator makes from seeds.
fn made(
    group: u64,
    count: u64,
    make: fn(&mut Random) -> Vec<u8>,
) -> impl Iterator<Item = (u64, Vec<u8>)> {
    seeds(group, count).map(move |seed| (seed, make(&mut Random(seed))))
}

#[test]
fn instances() {
    let mut comparer = Comparer::default();
    for (i, instance) in (0..).zip(lcov_instances()) {
        let file = instance.file.as_bytes();
        comparer.compare(i, file);
        let mut row = vec![7; instance.room];
        let expected = row_of(instance.refusal, instance.run.len() as u64);
        let result = lcov_run(file, instance.section, &mut row);
        assert_eq!(result, result_of::<Section>(expected), "{instance:?}");
        let mut expected = instance.run.clone();
        expected.resize(instance.room, 7);
        assert_eq!(row, expected, "{instance:?}");
    }
    comparer
        .seen
        .met("instances", &ENDS.map(|end| (end, 20, 1)));
}

#[test]
fn well_formed_files() {
    let files = made(141, 8_000, well_formed);
    let expected = [
        (End::Numbers, 20_000, 30),
        (End::Nothing, 10_000, 1),
        (End::Full, 10_000, 30),
        (End::NoSection, 50_000, 1_000),
    ];
    compare("well-formed", files, &expected);
}

#[test]
fn damaged_files() {
    let files = made(142, 30_000, damaged);
    let expected = [
        (End::Numbers, 50_000, 30),
        (End::Nothing, 30_000, 1),
        (End::NotRising, 5_000, 30),
        (End::Full, 30_000, 30),
        (End::BadRecord, 10_000, 500),
        (End::NoEnd, 10_000, 500),
        (End::NoSection, 100_000, 1_000),
    ];
    compare("damaged", files, &expected);
}

/// All ways to end, for files of a few lines: so often, and offsets and lengths
/// at so many places.
fn every_end(times: usize, places: usize) -> [(End, usize, usize); 7] {
    ENDS.map(|end| match end {
        End::Numbers | End::Nothing | End::NotRising | End::Full => (end, times, 1),
        End::BadRecord | End::NoEnd | End::NoSection => (end, times, places),
    })
}

#[test]
fn lines_at_the_edges() {
    let files = made(143, 40_000, edge_lines);
    compare("edge lines", files, &every_end(3_000, 50));
}

#[test]
fn words_in_any_order() {
    let files = made(144, 40_000, words);
    compare("words", files, &every_end(2_000, 50));
}

#[test]
fn bytes_in_any_order() {
    let files = made(145, 40_000, any_bytes);
    compare("any bytes", files, &every_end(500, 30));
    let files = made(146, 40_000, bytes_of_the_form);
    compare("bytes of the form", files, &every_end(500, 30));
}

#[test]
fn long_numbers() {
    let files = made(147, 1_000, long_records);
    compare("long records", files, &every_end(100, 50));
}

#[test]
fn every_small_file() {
    let files = (0..).zip(all_small_files(6));
    compare("small files", files, &every_end(3_000, 30));
}

#[test]
fn every_short_record() {
    let files = (0..).zip(all_short_records(5));
    let expected = [
        (End::Numbers, 500, 2),
        (End::NotRising, 200, 1),
        (End::Full, 5_000, 2),
        (End::BadRecord, 20_000, 1),
    ];
    compare("short records", files, &expected);
}

/// What is written, refused or not, is a run that a question takes: it has no
/// mark and rises.
#[test]
fn runs_of_questions() {
    let mut answered = 0;
    for (seed, file) in made(148, 3_000, well_formed).chain(made(149, 6_000, damaged)) {
        let mut numbers = vec![0; file.len() / 7];
        let (mut ends, mut written) = (Vec::new(), 0);
        for section in 0..=sections_of(&file) {
            let result = lcov_run(&file, section, &mut numbers[written..]);
            written += result.unwrap_or_else(|stopped| stopped.written);
            ends.push(written as u32);
        }
        numbers.truncate(written);
        let mut answers = vec![0; enough_answers(written)];
        let mut certificate = vec![0; enough_bytes(written)];
        let result = query(
            &numbers,
            &ends,
            1,
            ENOUGH_PROBES,
            &mut answers,
            &mut certificate,
        );
        answers.truncate(result.expect("no ground for a refusal").answers);
        let expected: BTreeSet<u32> = numbers.iter().copied().collect();
        assert!(!expected.contains(&0), "seed {seed}");
        assert!(expected.into_iter().eq(answers), "seed {seed}");
        answered += usize::from(written > 0);
    }
    assert!(answered > 5_000, "{answered}");
}

/// A section may have more numbers than a question takes.
#[test]
fn more_numbers_than_a_question_takes() {
    let most = MAX_NUMBERS as u32;
    let records: String = (1..=most + 1).map(|i| format!("DA:{i},1\n")).collect();
    let file = format!("SF:a.c\n{records}end_of_record\n").into_bytes();
    let mut run = vec![0; file.len() / 7];
    assert_eq!(lcov_run(&file, 0, &mut run), Ok(MAX_NUMBERS + 1));
    assert!(run[..MAX_NUMBERS + 1].iter().copied().eq(1..=most + 1));
    assert!(run[MAX_NUMBERS + 1..].iter().all(|&number| number == 0));

    let refused = query(&run[..MAX_NUMBERS + 1], &[most + 1], 1, 0, &mut [], &mut []);
    let expected = Refusal {
        number: Refusal::BAD_ENDS,
        place: 1,
    };
    assert_eq!(refused.map_err(|stopped| stopped.refusal), Err(expected));
}
