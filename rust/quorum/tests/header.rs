//! The constants of `include/quorum.h` against those of the crate.

use quorum::{ffi, Refusal};
use std::collections::BTreeMap;

/// The constants of a C header whose names begin with `QUORUM_` and whose
/// values are decimal: `NAME = value` in an enumeration, `#define NAME value`.
fn constants(header: &str) -> BTreeMap<String, u64> {
    let mut found = BTreeMap::new();
    let mut read = |name: &str, value: &str| {
        let is_name = |byte: u8| byte == b'_' || byte.is_ascii_alphanumeric();
        if !name.starts_with("QUORUM_") || !name.bytes().all(is_name) {
            return;
        }
        if let Some(value) = decimal(value) {
            let before = found.insert(name.to_string(), value);
            assert_eq!(before, None, "{name} is there twice");
        }
    };
    for line in without_comments(header).lines() {
        if let Some(directive) = line.trim_start().strip_prefix('#') {
            let definition = directive.trim_start().strip_prefix("define");
            let words = definition.and_then(|words| words.trim().split_once(char::is_whitespace));
            if let Some((name, value)) = words {
                read(name, value);
            }
            continue;
        }
        for piece in line.split([',', ';', '{', '}']) {
            if let Some((name, value)) = piece.split_once('=') {
                read(name.trim(), value);
            }
        }
    }
    found
}

/// The text with a space in the place of each comment.
fn without_comments(text: &str) -> String {
    let mut pieces = text.split("/*");
    let mut code = pieces.next().unwrap_or_default().to_string();
    for piece in pieces {
        if let Some((_, after)) = piece.split_once("*/") {
            code.push(' ');
            code.push_str(after);
        }
    }
    let front = |line: &str| match line.split_once("//") {
        Some((front, _)) => format!("{front} \n"),
        None => format!("{line}\n"),
    };
    code.lines().map(front).collect()
}

/// A decimal number, perhaps in parentheses and with a suffix such as `UL`.
fn decimal(text: &str) -> Option<u64> {
    let text = text.trim();
    if let Some(inner) = text.strip_prefix('(') {
        return decimal(inner.strip_suffix(')')?);
    }
    let digits = text.trim_end_matches(['u', 'U', 'l', 'L']);
    let is_number = !digits.is_empty() && digits.bytes().all(|byte| byte.is_ascii_digit());
    is_number.then(|| digits.parse().ok()).flatten()
}

fn header() -> BTreeMap<String, u64> {
    let path = concat!(env!("CARGO_MANIFEST_DIR"), "/../../include/quorum.h");
    constants(&std::fs::read_to_string(path).expect("the header can be read"))
}

#[test]
fn constants_are_equal() {
    let version = |part: &str| part.parse().expect("a number");
    let expected = [
        ("ACCEPTED", 0),
        ("BAD_RUN_COUNT", Refusal::BAD_RUN_COUNT),
        ("BAD_THRESHOLD", Refusal::BAD_THRESHOLD),
        ("BAD_ENDS", Refusal::BAD_ENDS),
        ("NOT_RISING", Refusal::NOT_RISING),
        ("ANSWERS_FULL", Refusal::ANSWERS_FULL),
        ("CERTIFICATE_FULL", Refusal::CERTIFICATE_FULL),
        ("ALLOWANCE_SPENT", Refusal::ALLOWANCE_SPENT),
        ("BAD_FIELD", Refusal::BAD_FIELD),
        ("NOT_COVERING", Refusal::NOT_COVERING),
        ("BAD_MASK", Refusal::BAD_MASK),
        ("CONTRADICTED", Refusal::CONTRADICTED),
        ("BAD_CHOICE", Refusal::BAD_CHOICE),
        ("BAD_ROWS", Refusal::BAD_ROWS),
        ("BAD_RECORD", Refusal::BAD_RECORD),
        ("NO_SECTION", Refusal::NO_SECTION),
        ("BAD_WEIGHTS", Refusal::BAD_WEIGHTS),
        ("MAX_RUNS", quorum::MAX_RUNS as u64),
        ("MAX_NUMBERS", quorum::MAX_NUMBERS as u64),
        ("MAX_WEIGHT", quorum::MAX_WEIGHT.into()),
        ("FIRST_BIN", quorum::FIRST_BIN.into()),
        ("LAST_BIN", quorum::LAST_BIN.into()),
        ("ENOUGH_PROBES", quorum::ENOUGH_PROBES.into()),
        ("TAG_ANSWER", quorum::TAG_ANSWER.into()),
        ("TAG_GAP", quorum::TAG_GAP.into()),
        ("ANSWER_SIZE", quorum::ANSWER_SIZE as u64),
        ("GAP_SIZE", quorum::GAP_SIZE as u64),
        ("VERSION_MAJOR", version(env!("CARGO_PKG_VERSION_MAJOR"))),
        ("VERSION_MINOR", version(env!("CARGO_PKG_VERSION_MINOR"))),
        ("VERSION_PATCH", version(env!("CARGO_PKG_VERSION_PATCH"))),
    ];
    let header = header();
    let found = |name| header.get(&format!("QUORUM_{name}")).copied();
    let differ = expected.map(|(name, value)| (name, found(name), value));
    let differ = differ
        .iter()
        .filter(|(_, found, value)| *found != Some(*value));
    let differ: Vec<_> = differ.collect();
    assert!(differ.is_empty(), "name, in the header, here: {differ:?}");
}

/// The header's places in the rows of results, against rows that the library
/// writes.
#[test]
fn places_of_results() {
    let header = header();
    let at = |row: &[u64], name: &str| row[header[&format!("QUORUM_{name}")] as usize];
    let length = |name: &str| header[&format!("QUORUM_{name}")] as usize;
    let (mut answers, mut certificate) = ([0; 9], [0; 325]);

    let refused = ffi::query(&[3, 3], &[2], 1, 0, &mut answers, &mut certificate);
    assert_eq!(at(&refused, "REFUSAL"), Refusal::NOT_RISING);
    assert_eq!(at(&refused, "PLACE"), 1);

    let (numbers, ends) = ([2, 5, 9, 5, 7, 9, 12, 1, 9], [3, 7, 9]);
    let row = ffi::query(&numbers, &ends, 2, 3, &mut answers, &mut certificate);
    assert_eq!(row.len(), length("QUERY_ROW"));
    assert_eq!(at(&row, "QUERY_ANSWERS"), 2);
    assert_eq!(at(&row, "QUERY_PARTS"), 6);
    assert_eq!(at(&row, "QUERY_BYTES"), 106);
    assert_eq!(at(&row, "QUERY_DOUBLINGS"), 3);
    assert_eq!(at(&row, "QUERY_HALVINGS"), 0);

    let row = ffi::check(&numbers, &ends, 2, &certificate[..106]);
    assert_eq!(row.len(), length("CHECK_ROW"));
    assert_eq!(at(&row, "CHECK_ANSWERS"), 2);
    assert_eq!(at(&row, "CHECK_PARTS"), 6);

    let (mut answers, mut certificate, mut results) = ([0; 8], [0; 310], [0; 6]);
    let masks = [7, 3, 5];
    let mut ask_many = |allowance| {
        ffi::query_many(
            &numbers,
            &ends,
            &masks,
            &[2, 2, 1],
            allowance,
            &mut answers,
            &mut certificate,
            &mut results,
        )
    };
    let row = ask_many(5);
    assert_eq!(row.len(), length("MANY_ROW"));
    assert_eq!(at(&row, "MANY_ANSWERS"), 8);
    assert_eq!(at(&row, "MANY_PARTS"), 18);
    assert_eq!(at(&row, "MANY_BYTES"), 310);
    assert_eq!(at(&row, "MANY_DOUBLINGS"), 5);
    assert_eq!(at(&row, "MANY_HALVINGS"), 0);
    let refused = ask_many(4);
    assert_eq!(at(&refused, "REFUSAL"), Refusal::ALLOWANCE_SPENT);
    assert_eq!(at(&refused, "PLACE"), 3);
    assert_eq!(at(&refused, "MANY_QUESTION"), 1);

    let row = ffi::check_chosen(&numbers, &ends, 3, 2, &certificate[106..193]);
    assert_eq!(row.len(), length("CHECK_ROW"));
    assert_eq!(at(&row, "CHECK_ANSWERS"), 2);
    assert_eq!(at(&row, "CHECK_PARTS"), 5);

    let tests = [2, 5, 8, 9, 2, 5, 9, 5, 7, 9, 12, 1, 9];
    let (a, c) = (&mut answers, &mut certificate);
    let row = ffi::query_alone(&tests, &[4, 7, 11, 13], 2, 3, a, c);
    assert_eq!(row.len(), length("QUERY_ROW"));
    assert_eq!(at(&row, "QUERY_ANSWERS"), 2);
    assert_eq!(at(&row, "QUERY_PARTS"), 6);
    assert_eq!(at(&row, "QUERY_BYTES"), 106);
    assert_eq!(at(&row, "QUERY_DOUBLINGS"), 3);
    assert_eq!(at(&row, "QUERY_HALVINGS"), 0);
    let row = ffi::query_alone(&tests, &[4, 7, 11, 13], 2, 3, &mut [0], c);
    assert_eq!(at(&row, "REFUSAL"), Refusal::ANSWERS_FULL);
    assert_eq!(at(&row, "PLACE"), 6);
    assert_eq!(at(&row, "QUERY_ANSWERS"), 1);

    let weights = [3, 1, 1];
    let (a, c) = (&mut answers, &mut certificate);
    let row = ffi::query_weighted(&numbers, &ends, &weights, 3, 2, a, c);
    assert_eq!(row.len(), length("QUERY_ROW"));
    assert_eq!(at(&row, "QUERY_ANSWERS"), 3);
    assert_eq!(at(&row, "QUERY_PARTS"), 7);
    assert_eq!(at(&row, "QUERY_BYTES"), 121);
    assert_eq!(at(&row, "QUERY_DOUBLINGS"), 2);
    assert_eq!(at(&row, "QUERY_HALVINGS"), 0);
    let row = ffi::check_weighted(&numbers, &ends, &weights, 3, &certificate[..121]);
    assert_eq!(row.len(), length("CHECK_ROW"));
    assert_eq!(at(&row, "CHECK_ANSWERS"), 3);
    assert_eq!(at(&row, "CHECK_PARTS"), 7);
    let row = ffi::check_weighted(&numbers, &ends, &weights[1..], 3, &certificate[..121]);
    assert_eq!(at(&row, "REFUSAL"), Refusal::BAD_WEIGHTS);
    assert_eq!(at(&row, "PLACE"), 3);

    // {10, 20, .., 160} and {115}: a search that halves.
    let numbers: Vec<u32> = (1..=16).map(|i| 10 * i).chain([115]).collect();
    let tens = [16, 17];
    let row = ffi::query(&numbers, &tens, 2, 7, &mut [], &mut certificate);
    assert_eq!(at(&row, "QUERY_DOUBLINGS"), 4);
    assert_eq!(at(&row, "QUERY_HALVINGS"), 3);
    let row = ffi::query_weighted(&numbers, &tens, &[2, 5], 6, 7, &mut [], &mut certificate);
    assert_eq!(at(&row, "QUERY_DOUBLINGS"), 4);
    assert_eq!(at(&row, "QUERY_HALVINGS"), 3);
    let after_one: Vec<u32> = [&[7][..], &numbers].concat();
    let ends_after_one = [1, 17, 18];
    let row = ffi::query_alone(
        &after_one,
        &ends_after_one,
        2,
        7,
        &mut [0],
        &mut certificate,
    );
    assert_eq!(at(&row, "QUERY_DOUBLINGS"), 4);
    assert_eq!(at(&row, "QUERY_HALVINGS"), 3);
    let row = ffi::query_many(
        &numbers,
        &tens,
        &[3, 3],
        &[2, 2],
        14,
        &mut [],
        &mut certificate,
        &mut results,
    );
    assert_eq!(at(&row, "MANY_DOUBLINGS"), 8);
    assert_eq!(at(&row, "MANY_HALVINGS"), 6);

    let row = ffi::pair(&[2, 5, 9, 5, 7, 9, 12], &[3, 7], &mut answers);
    assert_eq!(row.len(), length("PAIR_ROW"));
    assert_eq!(at(&row, "PAIR_ANSWERS"), 2);
    let row = ffi::pair(&[2, 5, 9, 5, 7, 9, 12], &[3, 7], &mut [0]);
    assert_eq!(at(&row, "REFUSAL"), Refusal::ANSWERS_FULL);
    assert_eq!(at(&row, "PLACE"), 1);
    assert_eq!(at(&row, "PAIR_ANSWERS"), 1);

    let part = ffi::between(&[2, 5, 9], 3, 9);
    let row = [part.start, part.end];
    assert_eq!(row.len(), length("BETWEEN_ROW"));
    assert_eq!(at(&row, "BETWEEN_START"), 1);
    assert_eq!(at(&row, "BETWEEN_END"), 3);

    let row = ffi::probe_bound(&ends, 6);
    assert_eq!(row.len(), length("BOUND_ROW"));
    assert_eq!(at(&row, "BOUND_PROBES"), 84);
    let row = ffi::probe_bound_chosen(&ends, 3, 5);
    assert_eq!(row.len(), length("BOUND_ROW"));
    assert_eq!(at(&row, "BOUND_PROBES"), 50);

    let row = ffi::lcov_run(b"SF:a.c\nDA:4,1\n", 0, &mut [0]);
    assert_eq!(row.len(), length("LCOV_ROW"));
    assert_eq!(at(&row, "REFUSAL"), Refusal::NO_SECTION);
    assert_eq!(at(&row, "PLACE"), 14);
    assert_eq!(at(&row, "LCOV_WRITTEN"), 1);
}

#[test]
fn forms_of_constants() {
    let header = "
#ifndef QUORUM_H
#define QUORUM_H
#define QUORUM_A 1
# define  QUORUM_B\t(2u) /* QUORUM_B is 3 */
#define QUORUM_C ((4294967295UL)) // in parentheses
#define QUORUM_TEXT \"5\"
#define QUORUM_SIZE(n) (34 * (n) + 19)
#define QUORUM_SUM 1 + 2
#define OTHER 6
/* QUORUM_D = 7, // */
enum { QUORUM_E = 8, QUORUM_F=(9), /*
    QUORUM_G = 10, */ QUORUM_I = 11
};
enum refusal {
    QUORUM_J = 12u, /* a / b */
    QUORUM_K = 13 // QUORUM_L = 14
};
void quorum_check(uint64_t result[4]);
#endif
";
    let expected = [
        ("A", 1),
        ("B", 2),
        ("C", u64::from(u32::MAX)),
        ("E", 8),
        ("F", 9),
        ("I", 11),
        ("J", 12),
        ("K", 13),
    ];
    let expected = expected.map(|(name, value)| (format!("QUORUM_{name}"), value));
    assert_eq!(constants(header), BTreeMap::from(expected));
}
