//! The order and the places of the refusals of the checker.

use reference::testing::{
    checked_instances, gap, hit, lay_out, marked_three_runs, slices, M, THREE_RUNS,
    THREE_RUNS_PARTS,
};
use reference::{check, decode, encode, is_true, Part, Verdict};

/// Offsets of the tags in the true certificate of the three runs, threshold 2.
const OFFSETS: [u64; 7] = [0, 19, 38, 53, 72, 87, 106];

fn verdict(bytes: &[u8]) -> Verdict {
    verdict_of(&THREE_RUNS, bytes)
}

/// The verdict for some runs, with threshold 2.
fn verdict_of<R: AsRef<[u32]>>(runs: &[R], bytes: &[u8]) -> Verdict {
    let (numbers, ends) = lay_out(runs);
    let verdict = check(&numbers, &ends, 2, bytes);
    let truth = decode(bytes).is_some_and(|parts| is_true(&slices(runs), 2, &parts));
    assert_eq!(truth, matches!(verdict, Verdict::Valid { .. }));
    verdict
}

fn invalid(number: u8, place: u64) -> Verdict {
    Verdict::Invalid { number, place }
}

fn valid(answers: u64, parts: u64) -> Verdict {
    Verdict::Valid { answers, parts }
}

/// The verdict on the true parts with one of them replaced.
fn with_part(i: usize, part: Part) -> Verdict {
    let mut parts = THREE_RUNS_PARTS;
    parts[i] = part;
    verdict(&encode(&parts))
}

#[test]
fn every_instance() {
    for (bytes, expected) in checked_instances() {
        for runs in marked_three_runs() {
            assert_eq!(verdict_of(&runs, &bytes), expected, "{bytes:?}, {runs:?}");
        }
    }
}

/// {0, 0, 5} is judged as {5}.
#[test]
fn after_marks() {
    let verdict = |parts: &[Part]| check(&[0, 0, 5], &[3], 1, &encode(parts));
    let parts = [gap(1, 4, 1), hit(5, 1), gap(6, M, 1)];
    assert_eq!(verdict(&parts), valid(1, 3));
    assert_eq!(verdict(&[gap(1, M, 1)]), invalid(11, 0));
}

#[test]
fn first_checks_come_before_the_fields() {
    let broken = [0xff];
    let refusal = |numbers: &[u32], ends: &[u32], t| check(numbers, ends, t, &broken);
    assert_eq!(refusal(&[], &[], 0), invalid(1, 0));
    assert_eq!(refusal(&[3, 3], &[7; 65], 0), invalid(1, 65));
    assert_eq!(refusal(&[3, 3], &[2, 1], 0), invalid(2, 0));
    assert_eq!(refusal(&[3, 3], &[2, 1], 3), invalid(2, 3));
    assert_eq!(refusal(&[3, 3], &[2, 1], 2), invalid(3, 1));
    assert_eq!(refusal(&[3, 3], &[1, 1], 2), invalid(3, 2));
    assert_eq!(refusal(&[3, 3], &[1], 1), invalid(3, 1));
    assert_eq!(refusal(&[3, 3], &[2], 1), invalid(4, 1));
    assert_eq!(refusal(&[1, 3, 3], &[1, 3], 1), invalid(4, 2));
    assert_eq!(refusal(&[0, 0, 0, 3, 0], &[2, 5], 1), invalid(4, 4));
    assert_eq!(refusal(&[0, 0, 0, 0, 3], &[2, 5], 1), invalid(8, 0));
    assert_eq!(refusal(&[3], &[1], 1), invalid(8, 0));
}

#[test]
fn refusal_8_where_a_field_is_cut_short() {
    let bytes = encode(&THREE_RUNS_PARTS);
    for length in 0..bytes.len() {
        let length64 = length as u64;
        let expected = match OFFSETS.iter().rposition(|&offset| offset <= length64) {
            // Whole fields only: the line is not covered.
            Some(i) if OFFSETS[i] == length64 => invalid(9, length64),
            Some(i) => invalid(8, OFFSETS[i]),
            None => unreachable!(),
        };
        assert_eq!(verdict(&bytes[..length]), expected, "length {length}");
    }
}

#[test]
fn refusal_8_where_a_tag_is_unknown() {
    for (i, &offset) in OFFSETS[..6].iter().enumerate() {
        for tag in [0, 3, 4, 128, 255] {
            let mut bytes = encode(&THREE_RUNS_PARTS);
            bytes[offset as usize] = tag;
            assert_eq!(verdict(&bytes), invalid(8, offset), "field {i}");
        }
        // The other tag is known, but the length is not its length.
        let mut bytes = encode(&THREE_RUNS_PARTS);
        bytes[offset as usize] = 3 - bytes[offset as usize];
        assert_eq!(verdict(&bytes), invalid(8, offset), "field {i}");
    }
}

#[test]
fn refusal_8_where_a_length_is_not_the_tags() {
    for offset in OFFSETS[..6].iter().map(|&offset| offset as usize) {
        for length in [0, 1, 11, 13, 15, 17, 12 + 256, 16 + 256, 0x1000, 65535_u16] {
            let mut bytes = encode(&THREE_RUNS_PARTS);
            bytes[offset + 1..offset + 3].copy_from_slice(&length.to_le_bytes());
            assert_eq!(verdict(&bytes), invalid(8, offset as u64));
        }
    }
    // Enough bytes follow, and still the length is not the tag's.
    let mut bytes = encode(&[gap(1, M, 7)]);
    bytes[1] = 17;
    bytes.push(0);
    assert_eq!(verdict(&bytes), invalid(8, 0));
    let mut bytes = vec![1, 16, 0];
    bytes.extend([0; 16]);
    assert_eq!(verdict(&bytes), invalid(8, 0));
}

#[test]
fn refusal_9_where_the_first_is_not_the_next_uncovered_bin() {
    // A hole.
    assert_eq!(with_part(0, gap(2, 2, 3)), invalid(9, 0));
    assert_eq!(with_part(1, gap(2, 3, 6)), invalid(9, 38));
    assert_eq!(with_part(2, hit(6, 3)), invalid(9, 38));
    // An overlap.
    assert_eq!(with_part(1, gap(1, 4, 6)), invalid(9, 19));
    assert_eq!(with_part(2, hit(4, 3)), invalid(9, 38));
    assert_eq!(with_part(3, gap(1, 8, 5)), invalid(9, 53));
    // A part twice.
    let mut parts = THREE_RUNS_PARTS.to_vec();
    parts.insert(2, gap(2, 4, 6));
    assert_eq!(verdict(&encode(&parts)), invalid(9, 38));
    // A part left out.
    let mut parts = THREE_RUNS_PARTS.to_vec();
    parts.remove(2);
    assert_eq!(verdict(&encode(&parts)), invalid(9, 38));
}

/// 0 is no bin, so no part begins there, whatever it says.
#[test]
fn refusal_9_where_a_certificate_begins_at_0() {
    let runs = [vec![0, 5], vec![0, 0, 5, 7]];
    let (numbers, ends) = lay_out(&runs);
    let whole = [gap(1, 4, 3), hit(5, 3), gap(6, M, 1)];
    let verdict = |parts: &[Part]| check(&numbers, &ends, 2, &encode(parts));
    assert_eq!(verdict(&whole), valid(1, 3));
    for mask in [0, 1, 2, 3, u64::MAX] {
        for front in [gap(0, 0, mask), hit(0, mask), gap(0, M, mask)] {
            let parts = [&[front], &whole[..]].concat();
            assert_eq!(verdict(&parts), invalid(9, 0));
            assert!(!is_true(&slices(&runs), 2, &parts));
        }
        let widened = [gap(0, 4, mask), whole[1], whole[2]];
        assert_eq!(verdict(&widened), invalid(9, 0));
    }
}

/// Zeros at the start of a run contradict no part and are held by none.
#[test]
fn a_mark_contradicts_nothing() {
    for zeros in [1, 2, 3, 64, 100] {
        let verdict = |bins: &[u32], parts: &[Part]| {
            let run = [&vec![0; zeros], bins].concat();
            check(&run, &[run.len() as u32], 1, &encode(parts))
        };
        assert_eq!(verdict(&[], &[gap(1, M, 1)]), valid(0, 1));
        assert_eq!(verdict(&[1], &[gap(1, M, 1)]), invalid(11, 0));
        assert_eq!(verdict(&[1], &[hit(1, 1), gap(2, M, 1)]), valid(1, 2));
        assert_eq!(verdict(&[2], &[hit(1, 1), gap(2, M, 1)]), invalid(11, 0));
    }
}

#[test]
fn refusal_9_where_the_last_is_below_the_first() {
    assert_eq!(with_part(1, gap(2, 1, 6)), invalid(9, 19));
    assert_eq!(with_part(1, gap(2, 0, 6)), invalid(9, 19));
    assert_eq!(with_part(5, gap(10, 9, 5)), invalid(9, 87));
    assert_eq!(with_part(1, gap(2, 2, 6)), invalid(9, 38));
}

#[test]
fn refusal_9_where_nothing_is_uncovered() {
    let whole = encode(&THREE_RUNS_PARTS);
    for part in [
        gap(0, M, 7),
        gap(0, 0, 7),
        gap(1, M, 7),
        gap(M, M, 5),
        hit(0, 7),
        hit(1, 7),
        hit(M, 0),
    ] {
        let mut bytes = whole.clone();
        bytes.extend(encode(&[part]));
        assert_eq!(verdict(&bytes), invalid(9, 106));
        // Later bytes do not matter.
        bytes.extend([9, 9, 9]);
        assert_eq!(verdict(&bytes), invalid(9, 106));
    }
}

#[test]
fn refusal_8_after_the_line_is_covered() {
    let whole = encode(&THREE_RUNS_PARTS);
    let more: [&[u8]; 6] = [
        &[0],
        &[1],
        &[2, 16],
        &[1, 12, 0],
        &[3, 0, 0],
        &[
            2, 16, 0, 0, 0, 0, 0, 255, 255, 255, 255, 7, 0, 0, 0, 0, 0, 0,
        ],
    ];
    for more in more {
        let bytes = [&whole, more].concat();
        assert_eq!(verdict(&bytes), invalid(8, 106));
    }
}

#[test]
fn refusal_9_at_the_end() {
    assert_eq!(verdict(&[]), invalid(9, 0));
    assert_eq!(with_part(5, gap(10, M - 1, 5)), invalid(9, 106));
    assert_eq!(with_part(5, gap(10, 10, 5)), invalid(9, 106));
    assert_eq!(verdict(&encode(&THREE_RUNS_PARTS[..5])), invalid(9, 87));
    assert_eq!(verdict(&encode(&THREE_RUNS_PARTS[..1])), invalid(9, 19));
}

#[test]
fn refusal_10_where_a_mask_names_a_run_not_below_k() {
    for bit in 3..64 {
        assert_eq!(with_part(0, gap(1, 1, 3 | 1 << bit)), invalid(10, 0));
        assert_eq!(with_part(4, hit(9, 7 | 1 << bit)), invalid(10, 72));
    }
    assert_eq!(with_part(1, gap(2, 4, u64::MAX)), invalid(10, 19));
}

#[test]
fn refusal_10_where_a_mask_names_too_few() {
    // A gap needs k - t + 1 = 2 runs, an answer needs t = 2.
    for mask in [0, 1, 2, 4] {
        assert_eq!(with_part(1, gap(2, 4, mask)), invalid(10, 19));
        assert_eq!(with_part(2, hit(5, mask)), invalid(10, 38));
    }
    // With t = 3 a gap needs one run and an answer three.
    let (numbers, ends) = lay_out(&THREE_RUNS);
    let verdict = |parts: &[Part]| check(&numbers, &ends, 3, &encode(parts));
    let parts = [gap(1, 4, 2), gap(5, 8, 4), hit(9, 7), gap(10, M, 1)];
    assert_eq!(verdict(&parts), valid(1, 4));
    assert_eq!(verdict(&[gap(1, 4, 0)]), invalid(10, 0));
    let parts = [gap(1, 4, 2), gap(5, 8, 4), hit(9, 6)];
    assert_eq!(verdict(&parts), invalid(10, 38));
    // With t = 1 a gap needs three and an answer one.
    let verdict = |parts: &[Part]| check(&numbers, &ends, 1, &encode(parts));
    assert_eq!(verdict(&[hit(1, 0)]), invalid(10, 0));
    assert_eq!(verdict(&[hit(1, 4)]), invalid(9, 15));
    let parts = [hit(1, 4), hit(2, 1), gap(3, 4, 3)];
    assert_eq!(verdict(&parts), invalid(10, 30));
}

#[test]
fn every_bit_names_a_run_when_there_are_64() {
    let runs = vec![vec![7_u32]; 64];
    let (numbers, ends) = lay_out(&runs);
    let parts = [gap(1, 6, u64::MAX), hit(7, u64::MAX), gap(8, M, 1 << 63)];
    let verdict = check(&numbers, &ends, 64, &encode(&parts));
    assert_eq!(verdict, valid(1, 3));
    // With 63 runs the highest bit names none.
    let verdict = check(&numbers[..63], &ends[..63], 63, &encode(&parts));
    assert_eq!(verdict, invalid(10, 0));
    let parts = [
        gap(1, 6, 1 << 62),
        hit(7, u64::MAX >> 1),
        gap(8, M, 1 << 63),
    ];
    let verdict = check(&numbers[..63], &ends[..63], 63, &encode(&parts));
    assert_eq!(verdict, invalid(10, 34));
}

#[test]
fn refusal_11_where_a_named_run_contradicts() {
    // A run of a gap has a number in it: at its first, at its last, inside.
    assert_eq!(with_part(1, gap(2, 4, 3)), invalid(11, 19));
    assert_eq!(with_part(0, gap(1, 1, 5)), invalid(11, 0));
    assert_eq!(with_part(3, gap(6, 8, 3)), invalid(11, 53));
    assert_eq!(with_part(5, gap(10, M, 3)), invalid(11, 87));
    assert_eq!(with_part(1, gap(2, 5, 6)), invalid(11, 19));
    // One contradiction among enough runs that agree.
    assert_eq!(with_part(5, gap(10, M, 7)), invalid(11, 87));
    // A run of an answer lacks it.
    assert_eq!(with_part(2, hit(5, 5)), invalid(11, 38));
    assert_eq!(with_part(2, hit(5, 7)), invalid(11, 38));
    // A run that is at its end lacks every number.
    assert_eq!(with_part(5, hit(10, 5)), invalid(11, 87));
}

#[test]
fn the_order_at_one_field() {
    // 8 before 9: the field cannot be read, whatever it would say.
    let mut bytes = encode(&[gap(5, 4, u64::MAX)]);
    bytes[1] = 15;
    assert_eq!(verdict(&bytes), invalid(8, 0));
    // 9 before 10 and 11.
    assert_eq!(with_part(1, gap(3, 4, u64::MAX)), invalid(9, 19));
    assert_eq!(with_part(1, gap(2, 1, 0)), invalid(9, 19));
    assert_eq!(with_part(1, gap(3, 9, 7)), invalid(9, 19));
    // 10 before 11: run 0 contradicts, and too few or wrong runs are named.
    assert_eq!(with_part(1, gap(2, 4, 1)), invalid(10, 19));
    assert_eq!(with_part(1, gap(2, 4, 9)), invalid(10, 19));
    assert_eq!(with_part(2, hit(5, 4)), invalid(10, 38));
}

#[test]
fn each_field_is_settled_before_the_next() {
    let bad_11 = gap(2, 4, 3);
    let mut parts = THREE_RUNS_PARTS.to_vec();
    parts[1] = bad_11;
    parts[2] = hit(6, 0);
    assert_eq!(verdict(&encode(&parts)), invalid(11, 19));
    let mut bytes = encode(&[gap(1, 1, 3), bad_11]);
    bytes.extend([7, 7, 7]);
    assert_eq!(verdict(&bytes), invalid(11, 19));
    let mut bytes = encode(&[gap(1, 1, 1)]);
    bytes.push(2);
    assert_eq!(verdict(&bytes), invalid(10, 0));
    let mut bytes = encode(&[gap(2, 2, 3)]);
    bytes.push(2);
    assert_eq!(verdict(&bytes), invalid(9, 0));
}

#[test]
fn certificates_of_other_writers() {
    // An answer that names only two of its three runs.
    assert_eq!(with_part(4, hit(9, 3)), valid(2, 6));
    // Gaps cut into pieces with other masks.
    let parts = [
        gap(1, 1, 3),
        gap(2, 2, 6),
        gap(3, 4, 7),
        hit(5, 3),
        gap(6, 6, 7),
        gap(7, 7, 5),
        gap(8, 8, 3),
        hit(9, 6),
        gap(10, 11, 6),
        gap(12, 12, 5),
        gap(13, M - 1, 7),
        gap(M, M, 3),
    ];
    assert_eq!(verdict(&encode(&parts)), valid(2, 12));
}

/// A bin that enough runs hold must be an answer: as a gap of its own it
/// would have to name one of them.
#[test]
fn an_answer_cannot_be_hidden_in_a_gap() {
    for mask in 0..8 {
        assert_ne!(with_part(2, gap(5, 5, mask)), valid(1, 6));
    }
}

#[test]
fn both_ends_of_the_line() {
    let verdict = |parts: &[Part]| check(&[1, M], &[2], 1, &encode(parts));
    let whole = [hit(1, 1), gap(2, M - 1, 1), hit(M, 1)];
    assert_eq!(verdict(&whole), valid(2, 3));
    assert_eq!(verdict(&whole[..2]), invalid(9, 34));
    assert_eq!(verdict(&[gap(1, M, 1)]), invalid(11, 0));
    assert_eq!(verdict(&[hit(1, 1), gap(2, M, 1)]), invalid(11, 15));
    // After M the next uncovered bin is not 0 or 1 again.
    for value in [0, 1] {
        let again = [whole[0], whole[1], whole[2], hit(value, 1)];
        assert_eq!(verdict(&again), invalid(9, 49));
    }
}

#[test]
fn decoding_does_not_look_at_the_truth() {
    let parts = [gap(9, 3, u64::MAX), hit(M, 0), gap(0, 0, 1 << 63)];
    assert_eq!(decode(&encode(&parts)).unwrap(), parts);
    assert_eq!(decode(&[]), Some(vec![]));
    assert_eq!(decode(&[2, 16, 0]), None);
    assert_eq!(decode(&[0]), None);
}
