//! The input text of the program `hits`: what it is parsed to.

use reference::{parse, Question};

fn reads(input: impl AsRef<[u8]>, threshold: u32, allowance: u32, numbers: &[u32], ends: &[u32]) {
    let expected = Question {
        threshold,
        allowance,
        numbers: numbers.to_vec(),
        ends: ends.to_vec(),
    };
    assert_eq!(parse(input.as_ref(), false), Ok(expected));
}

fn fails(input: impl AsRef<[u8]>, line: usize) {
    assert_eq!(parse(input.as_ref(), false), Err(line));
}

/// A read fails after the input.
fn fails_unread(input: impl AsRef<[u8]>, line: usize) {
    assert_eq!(parse(input.as_ref(), true), Err(line));
}

#[test]
fn the_listing() {
    let numbers = [2, 5, 9, 5, 7, 9, 12, 1, 9];
    reads("2 3\n2 5 9\n5 7 9 12\n1 9\n", 2, 3, &numbers, &[3, 7, 9]);
}

#[test]
fn line_1_alone_and_empty_runs() {
    reads("1 0\n", 1, 0, &[], &[]);
    reads("1 0\n\n7\n\n", 1, 0, &[7], &[0, 1, 1]);
}

#[test]
fn large_numbers_and_leading_zeros() {
    reads(
        "0001 00000000000000000000\n000000000000000004294967295 00\n",
        1,
        0,
        &[4_294_967_295, 0],
        &[2],
    );
    fails("2 4294967296\n", 1);
    fails("2 3\n5\n4294967296\n", 3);
    fails("2 3\n5\n18446744073709551616\n", 3);
}

#[test]
fn bytes_that_the_form_does_not_allow() {
    for line in [
        "", "2", "2 ", " 2 3", "2  3", "2 3 ", "2 3 4", "2 3\r", "2\t3",
    ] {
        fails(format!("{line}\n"), 1);
    }
    for line in [" 5", "5 ", " ", "5  7", "5\t7", "5\r", "+5"] {
        fails(format!("2 3\n1\n{line}\n"), 3);
    }
}

#[test]
fn a_line_with_no_end() {
    fails("", 1);
    fails("2 3", 1);
    fails("2 3\n5", 2);
    fails("2 3\n5\n7\n9 ", 4);
}

#[test]
fn runs_and_numbers_up_to_the_limits() {
    let lines = |n: usize| format!("1 0\n{}", "\n".repeat(n));
    reads(lines(64), 1, 0, &[], &[0; 64]);
    fails(lines(65), 66);
    fails(lines(64) + "5", 66);
    let numbers = |n: usize| vec!["7"; n].join(" ");
    let most = format!("1 0\n{}\n", numbers(1_024));
    reads(&most, 1, 0, &[7; 1_024], &[1_024]);
    fails(format!("1 0\n{}\n", numbers(1_025)), 2);
    fails(most + "7\n", 3);
}

#[test]
fn bytes_up_to_the_limit() {
    let zeros = |n: usize| format!("1 0\n{}\n", "0".repeat(n));
    reads(zeros(65_531), 1, 0, &[0], &[1]);
    fails(zeros(65_532), 2);
    fails(zeros(65_531) + "\n", 3);
}

#[test]
fn a_read_that_fails() {
    fails_unread("", 1);
    fails_unread("2", 1);
    fails_unread("2 3", 1);
    fails_unread("2 3\n", 2);
    fails_unread("2 3\n5", 2);
    fails_unread("2 3\n5 ", 2);
    fails_unread("2 3\n5\n", 3);
    fails_unread("2 3\n2 5 9\n5 7 9 12\n", 4);
    fails_unread("2 3\n2 5 9\n5 7 9 12\n1 9\n", 5);
}

#[test]
fn a_fault_before_a_read_that_fails() {
    fails_unread("x\n5\n", 1);
    fails_unread("2 3\nx\n5\n", 2);
    fails_unread("2 3\n5\n5 \n\n", 3);
    fails_unread("2 3\n5\n4294967296\n7", 3);
}

#[test]
fn a_read_that_fails_at_the_limits() {
    let lines = |n: usize| format!("1 0\n{}", "\n".repeat(n));
    fails_unread(lines(63), 65);
    fails_unread(lines(64), 66);
    fails_unread(lines(65), 66);
    let zeros = |n: usize| format!("1 0\n{}\n", "0".repeat(n));
    fails_unread(zeros(65_530), 3);
    fails_unread(zeros(65_531), 3);
    fails_unread(zeros(65_532), 2);
    fails_unread(zeros(65_531) + "\n", 3);
    fails_unread(zeros(65_531) + "\n\n", 3);
}
