//! Many questions in one call: the instances, the order and the places of the
//! refusals, and the edges.

mod common;

use common::{FILLER, FILLER_BYTE};
use reference::testing::{
    choose, gap, hit, lay_out, many_instances, many_row, renumber, slices, ManyInstance, M,
    THREE_RUNS,
};
use reference::{
    check_chosen, decode, encode, is_true_by, query_many, trace, trace_by, Verdict, Weighting,
};

/// What stands in the row of results before a call.
const FILLER_RESULT: u64 = 0xabab_abab_abab_abab;

/// The row of the outcome and the three rows that were lent, whole.
type Found = ([u64; 8], Vec<u32>, Vec<u8>, Vec<u64>);

/// Asks with rows of the given lengths.
fn ask(
    (numbers, ends): (&[u32], &[u32]),
    (masks, thresholds): (&[u64], &[u32]),
    allowance: u32,
    room: [usize; 3],
) -> Found {
    let mut answers = vec![FILLER; room[0]];
    let mut certificate = vec![FILLER_BYTE; room[1]];
    let mut results = vec![FILLER_RESULT; room[2]];
    let outcome = query_many(
        numbers,
        ends,
        masks,
        thresholds,
        allowance,
        &mut answers,
        &mut certificate,
        &mut results,
    );
    (many_row(outcome), answers, certificate, results)
}

/// Compares all that a call returns and leaves in the three rows.
fn expect(instance: &ManyInstance, allowance: u32, room: [usize; 3]) {
    let (numbers, ends) = lay_out(&instance.runs);
    let questions = (&instance.masks[..], &instance.thresholds[..]);
    let found = ask((&numbers, &ends), questions, allowance, room);
    let mut answers = instance.answers();
    answers.resize(room[0], FILLER);
    let mut certificate = encode(&instance.parts);
    certificate.resize(room[1], FILLER_BYTE);
    let mut results = instance.results.clone();
    results.resize(room[2], FILLER_RESULT);
    let expected = (instance.row, answers, certificate, results);
    assert_eq!(found, expected, "{}", instance.name);
}

/// Compares each finished question with the definitions, the checker and the
/// walk of the chosen runs alone.
fn settle(instance: &ManyInstance) {
    let (numbers, ends) = lay_out(&instance.runs);
    let name = instance.name;
    let (all_answers, certificates) = (instance.answers(), encode(&instance.parts));
    let mut from = [0, 0];
    for (i, reached) in instance.results.chunks(2).enumerate() {
        let to = [reached[0] as usize, reached[1] as usize];
        let answers = &all_answers[from[0]..to[0]];
        let bytes = &certificates[from[1]..to[1]];
        from = to;
        let (mask, threshold) = (instance.masks[i], instance.thresholds[i]);
        let weighting = Weighting::Chosen(mask);
        let parts = decode(bytes).unwrap();
        let whole = trace_by(&numbers, &ends, weighting, threshold).unwrap();
        assert_eq!(whole.parts, parts, "{name}");
        let chosen = choose(&instance.runs, mask);
        let alone = lay_out(&chosen);
        let alone = trace(&alone.0, &alone.1, threshold).unwrap().parts;
        assert_eq!(renumber(&alone, mask), parts, "{name}");
        let runs = slices(&instance.runs);
        assert_eq!(
            common::counted_answers(&runs, weighting, threshold),
            answers
        );
        assert!(is_true_by(&runs, weighting, threshold, &parts), "{name}");
        let valid = Verdict::Valid {
            answers: answers.len() as u64,
            parts: parts.len() as u64,
        };
        let verdict = check_chosen(&numbers, &ends, mask, threshold, bytes);
        assert_eq!(verdict, valid, "{name}");
    }
}

#[test]
fn every_instance() {
    for instance in many_instances() {
        expect(&instance, instance.allowance, instance.room);
        if instance.row[0] == 0 {
            // Exactly what is needed, and the largest allowance.
            let room = [
                instance.row[3] as usize,
                instance.row[5] as usize,
                instance.results.len(),
            ];
            let probes = instance.row[6] + instance.row[7];
            expect(&instance, probes as u32, room);
            expect(&instance, M, room.map(|places| places + 9));
        }
        settle(&instance);
    }
}

/// Asks about rows with large buffers and expects a refusal of the first
/// checks, with nothing written.
fn refused_first(
    rows: (&[u32], &[u32]),
    questions: (&[u64], &[u32]),
    [number, place, question]: [u64; 3],
) {
    let room = [8, 200, 9];
    let found = ask(rows, questions, M, room);
    let expected = (
        [number, place, question, 0, 0, 0, 0, 0],
        vec![FILLER; room[0]],
        vec![FILLER_BYTE; room[1]],
        vec![FILLER_RESULT; room[2]],
    );
    assert_eq!(found, expected);
    // A walk refusal cannot come first.
    let (row, ..) = ask(rows, questions, 0, [0, 0, 9]);
    assert_eq!(row, expected.0);
}

#[test]
fn refusal_1_comes_before_all_others() {
    refused_first((&[], &[]), (&[], &[]), [1, 0, 0]);
    refused_first((&[3, 3], &[]), (&[0], &[]), [1, 0, 0]);
    refused_first((&[3, 3], &[9; 65]), (&[0], &[0, 1]), [1, 65, 0]);
    refused_first((&[], &[0; 65]), (&[1], &[1]), [1, 65, 0]);
}

#[test]
fn refusal_3_comes_before_4_14_13_and_2() {
    refused_first((&[3, 3], &[2, 1]), (&[0], &[0, 1]), [3, 1, 0]);
    refused_first((&[3, 3], &[1, 1]), (&[0], &[0]), [3, 2, 0]);
    refused_first((&[3, 3], &[3]), (&[], &[]), [3, 1, 0]);
    // Of a run that no question is about.
    refused_first((&[1, 2], &[1, 2, 1]), (&[1], &[1]), [3, 2, 0]);
    refused_first((&[1, 2], &[1, 1]), (&[1], &[1]), [3, 2, 0]);
}

#[test]
fn refusal_4_comes_before_14_13_and_2() {
    refused_first((&[3, 3], &[2]), (&[0], &[]), [4, 1, 0]);
    refused_first((&[3, 3], &[2]), (&[2], &[0]), [4, 1, 0]);
    refused_first((&[3, 3], &[2]), (&[], &[]), [4, 1, 0]);
    // In a run that no question is about.
    refused_first((&[1, 5, 3, 3], &[2, 4]), (&[1], &[1]), [4, 3, 0]);
    refused_first((&[0, 0, 5, 0, 3, 0], &[3, 6]), (&[1], &[1]), [4, 5, 0]);
}

#[test]
fn refusal_14_comes_before_13_and_2() {
    let rows = (&[3, 5][..], &[1, 2][..]);
    refused_first(rows, (&[0], &[]), [14, 1, 0]);
    refused_first(rows, (&[], &[0]), [14, 0, 0]);
    refused_first(rows, (&[4, 0, 0], &[0, 9]), [14, 3, 0]);
    // Nine places are enough for four questions and not for five.
    refused_first(rows, (&[0; 5], &[0; 5]), [14, 5, 0]);
    refused_first(rows, (&[0; 4], &[0; 4]), [13, 0, 0]);
}

#[test]
fn refusals_13_and_2_go_question_by_question() {
    let rows = (&[3, 5][..], &[1, 2][..]);
    refused_first(rows, (&[3, 0, 8], &[1, 0, 0]), [13, 1, 1]);
    refused_first(rows, (&[3, 3, 0], &[1, 3, 0]), [2, 2, 1]);
    refused_first(rows, (&[3, 3, 2], &[1, 2, 2]), [2, 1, 2]);
    refused_first(rows, (&[3, 1, 2], &[2, 0, 0]), [2, 1, 1]);
    refused_first(rows, (&[1, 1, 1, 4], &[1, 1, 1, 1]), [13, 3, 3]);
    refused_first(rows, (&[1 << 63], &[1]), [13, 0, 0]);
    refused_first(rows, (&[3], &[M]), [2, 2, 0]);
}

/// With 64 runs every mask but 0 is a choice.
#[test]
fn sixty_four_runs() {
    let numbers = [7; 64];
    let ends: Vec<u32> = (1..=64).collect();
    let masks = [u64::MAX, 1 << 63, 1, u64::MAX << 1, 0];
    let thresholds = [64, 1, 1, 63, 1];
    let questions = (&masks[..4], &thresholds[..4]);
    let (row, answers, certificate, results) = ask((&numbers, &ends), questions, 0, [4, 4 * 53, 8]);
    assert_eq!(row, [0, 0, 0, 4, 12, 4 * 53, 0, 0]);
    assert_eq!(answers, [7; 4]);
    assert_eq!(results, [1, 53, 2, 106, 3, 159, 4, 212]);
    for (bytes, mask) in certificate.chunks(53).zip(masks) {
        let parts = decode(bytes).unwrap();
        assert!(parts.iter().all(|part| part.mask() == mask));
    }
    refused_first((&numbers, &ends), (&masks[4..], &[1]), [13, 0, 0]);
    refused_first((&numbers, &ends), (&masks[1..2], &[2]), [2, 1, 0]);
}

/// A run that is not chosen is neither searched nor named, whatever it holds.
#[test]
fn runs_that_are_not_chosen() {
    let runs: [&[u32]; 4] = [&[], &[0, 1, 2, 3, M], &[0, 0, 5], &[0, 5, M]];
    let (numbers, ends) = lay_out(&runs);
    let (row, answers, certificate, results) =
        ask((&numbers, &ends), (&[4, 1], &[1, 1]), 0, [1, 72, 4]);
    assert_eq!(row, [0, 0, 0, 1, 4, 72, 0, 0]);
    assert_eq!(answers, [5]);
    assert_eq!(results, [1, 53, 1, 72]);
    let parts = [gap(1, 4, 4), hit(5, 4), gap(6, M, 4)];
    assert_eq!(decode(&certificate[..53]).unwrap(), parts);
    assert_eq!(decode(&certificate[53..]).unwrap(), [gap(1, M, 1)]);
}

/// Each value of the allowance up to what is needed: the walk that it ends, and
/// the results of those before.
#[test]
fn every_allowance() {
    let (numbers, ends) = lay_out(&THREE_RUNS);
    let ask = |allowance| {
        let questions = (&[7, 3, 5][..], &[2, 2, 1][..]);
        ask((&numbers, &ends), questions, allowance, [8, 310, 6])
    };
    let rows: Vec<[u64; 8]> = (0..=6).map(|allowance| ask(allowance).0).collect();
    let expected = [
        [7, 1, 0, 0, 1, 19, 0, 0],
        [7, 2, 0, 0, 2, 38, 1, 0],
        [7, 4, 0, 1, 4, 72, 2, 0],
        [7, 1, 1, 2, 7, 125, 3, 0],
        [7, 3, 1, 3, 9, 159, 4, 0],
        [0, 0, 0, 8, 18, 310, 5, 0],
        [0, 0, 0, 8, 18, 310, 5, 0],
    ];
    assert_eq!(rows, expected);
    let written = |allowance| {
        ask(allowance)
            .3
            .iter()
            .filter(|&&x| x != FILLER_RESULT)
            .count()
    };
    let written: Vec<usize> = (0..=6).map(written).collect();
    assert_eq!(written, [0, 0, 0, 2, 2, 6, 6]);
}

/// Exactly used up at the end of a question, with nothing more due, the
/// allowance ends nothing.
#[test]
fn nothing_more_is_due() {
    let (numbers, ends) = lay_out(&THREE_RUNS);
    let questions = (&[7, 5, 4][..], &[2, 1, 1][..]);
    let (row, ..) = ask((&numbers, &ends), questions, 3, [8, 291, 6]);
    assert_eq!(row, [0, 0, 0, 8, 17, 291, 3, 0]);
}
