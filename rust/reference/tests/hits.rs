//! The program `hits` in its text form.

mod common;

use common::{any_runs, PlainWalk};
use reference::testing::{Random, M};
use reference::{hits, Part, Weighting};

fn prints(input: impl AsRef<[u8]>, expected: &str) {
    let output = String::from_utf8(hits(input.as_ref(), false)).unwrap();
    assert_eq!(output, expected);
}

fn refuses(input: impl AsRef<[u8]>, number: u8, place: u64) {
    prints(input, &format!("refuse {number} {place}\n"));
}

fn is_accepted(input: impl AsRef<[u8]>) {
    let output = String::from_utf8(hits(input.as_ref(), false)).unwrap();
    assert!(!output.starts_with("refuse"), "{output}");
    assert!(output.ends_with('\n'));
    assert!(output.lines().last().unwrap().starts_with("done "));
}

#[test]
fn smaller_allowances() {
    refuses("2 2\n2 5 9\n5 7 9 12\n1 9\n", 7, 4);
    refuses("2 0\n2 5 9\n5 7 9 12\n1 9\n", 7, 1);
}

#[test]
fn an_empty_input() {
    refuses("", 12, 1);
}

#[test]
fn a_read_that_fails_is_not_the_end() {
    let input = b"2 3\n2 5 9\n5 7 9 12\n";
    assert_eq!(hits(input, true), b"refuse 12 4\n");
    is_accepted(input);
}

#[test]
fn the_first_line() {
    let bad = [
        "\n",
        "2\n",
        "2 \n",
        " 2\n",
        "2 3 4\n",
        " 2 3\n",
        "2 3 \n",
        "2  3\n",
        "2\t3\n",
        "2 3\r\n",
        "2 3\t\n",
        "a 3\n",
        "2 b\n",
        "+2 3\n",
        "2 -3\n",
        "2,3\n",
        "4294967296 3\n",
        "2 4294967296\n",
        "99999999999999999999999999 3\n",
        " \n",
        "\r\n",
        "2 3",
        "2 ",
        "2",
        " ",
        "x",
        "\u{0}",
    ];
    for line in bad {
        refuses(line, 12, 1);
        if line.ends_with('\n') {
            refuses(format!("{line}5\n"), 12, 1);
        }
    }
}

#[test]
fn the_largest_threshold_and_allowance() {
    refuses("4294967295 4294967295\n5\n", 2, u64::from(M));
    prints(
        "1 4294967295\n5\n",
        "gap 1 4 1\nhit 5 1\ngap 6 4294967295 1\ndone 1 3 0 0\n",
    );
}

#[test]
fn no_runs() {
    refuses("1 0\n", 1, 0);
    refuses("0 0\n", 1, 0);
}

#[test]
fn empty_runs() {
    prints("1 0\n\n", "gap 1 4294967295 1\ndone 0 1 0 0\n");
    prints("2 0\n\n\n\n", "gap 1 4294967295 7\ndone 0 1 0 0\n");
    prints(
        "1 0\n\n4294967295\n\n",
        "gap 1 4294967294 7\nhit 4294967295 2\ndone 1 2 0 0\n",
    );
}

#[test]
fn leading_zeros() {
    let plain = "2 3\n2 5 9\n5 7 9 12\n1 9\n";
    let zeros = "0002 03\n02 005 0009\n5 07 9 00000000000012\n1 9\n";
    assert_eq!(hits(plain.as_bytes(), false), hits(zeros.as_bytes(), false));
    let many = format!("1 0\n{}7\n", "0".repeat(50_000));
    assert_eq!(hits(many.as_bytes(), false), hits(b"1 0\n7\n", false));
    // A number that is 0, however it is written, is the unmapped mark.
    prints("1 0\n00\n", "gap 1 4294967295 1\ndone 0 1 0 0\n");
}

#[test]
fn the_unmapped_mark() {
    let plain = "2 3\n2 5 9\n5 7 9 12\n1 9\n";
    for marked in [
        "2 3\n0 2 5 9\n0 5 7 9 12\n0 1 9\n",
        "2 3\n0 2 5 9\n0 0 5 7 9 12\n1 9\n",
        "2 3\n2 5 9\n0 00 000 5 7 9 12\n00 0 1 9\n",
    ] {
        assert_eq!(
            hits(marked.as_bytes(), false),
            hits(plain.as_bytes(), false)
        );
    }
    prints(
        "1 0\n0 4294967295\n",
        "gap 1 4294967294 1\nhit 4294967295 1\ndone 1 2 0 0\n",
    );
    prints(
        "2 0\n0 1\n0 1\n",
        "hit 1 3\ngap 2 4294967295 3\ndone 1 2 0 0\n",
    );
    prints(
        "1 0\n0 0 5\n",
        "gap 1 4 1\nhit 5 1\ngap 6 4294967295 1\ndone 1 3 0 0\n",
    );
    prints(
        "1 0\n0 0 0\n5\n",
        "gap 1 4 3\nhit 5 2\ngap 6 4294967295 3\ndone 1 3 0 0\n",
    );
    prints("1 0\n0 0\n", "gap 1 4294967295 1\ndone 0 1 0 0\n");
    refuses("1 0\n5 0\n", 4, 1);
    refuses("1 0\n0 3\n0 5 0\n", 4, 4);
    refuses("1 0\n0 0 0\n0 0 4 4\n", 4, 6);
}

#[test]
fn lines_of_runs_that_cannot_be_read() {
    let bad = [
        " ",
        " 5",
        "5 ",
        "5  6",
        "5\t6",
        "5\r",
        "\r",
        "\t",
        "x",
        "5x",
        "5 x",
        "-5",
        "+5",
        "5,6",
        "5.0",
        "0x5",
        "\u{0}",
        "5\u{0}",
        "\u{e9}",
        "\u{ff15}",
        "\u{b2}",
        "4294967296",
        "1 4294967296",
        "18446744073709551616",
        "18446744073709551621",
    ];
    for line in bad {
        refuses(format!("1 9\n{line}\n"), 12, 2);
        refuses(format!("1 9\n5\n\n{line}\n7\n"), 12, 4);
        refuses(format!("1 9\n5\n\n{line}"), 12, 4);
    }
    refuses(b"1 9\n5\n\xff\n", 12, 3);
    refuses(b"1 9\n5\n\x80\n", 12, 3);
    refuses(format!("1 9\n1{}\n", "0".repeat(10_000)), 12, 2);
}

#[test]
fn a_line_with_no_end() {
    refuses("1 0\n5", 12, 2);
    refuses("1 0\n\n\n5 6", 12, 4);
    refuses("1 0\n5\n ", 12, 3);
}

#[test]
fn a_bad_line_comes_before_every_refusal_of_the_query() {
    refuses("0 0\nx\n", 12, 2);
    refuses("9 0\n3 3\n1 ", 12, 3);
    refuses("1 0\nx\n3 3\n", 12, 2);
    refuses("1 0\n3 3\n\n\n5 \n", 12, 5);
    refuses("2 0\n2 5 9\n5 7 9 12\n1 9\n?", 12, 5);
}

#[test]
fn the_first_bad_line_counts() {
    refuses("1 0\nx\n4294967296\n", 12, 2);
    refuses("1 0\n4294967296\nx\n", 12, 2);
    refuses("1\n4294967296\nx", 12, 1);
}

#[test]
fn refusals_of_the_query() {
    refuses("0 0\n5\n", 2, 0);
    refuses("3 0\n5\n6\n", 2, 3);
    refuses("1 0\n3 3\n", 4, 1);
    refuses("1 0\n1 2\n\n5 4\n", 4, 3);
    refuses("1 0\n1 2\n1 2\n2 2\n1 1\n", 4, 5);
    refuses("2 0\n1 2 3\n4 5 6\n", 7, 1);
}

#[test]
fn run_65() {
    let runs = |count: usize| format!("1 0\n{}", "\n".repeat(count));
    prints(
        runs(64),
        &format!("gap 1 4294967295 {}\ndone 0 1 0 0\n", u64::MAX),
    );
    refuses(runs(65), 12, 66);
    refuses(runs(70), 12, 66);
    // One byte of it is enough.
    refuses(runs(64) + "5", 12, 66);
    refuses(runs(64) + "x", 12, 66);
    refuses(runs(64) + "5\n", 12, 66);
    // An earlier fault comes first, a later one does not matter.
    refuses(runs(63) + "x\n\n", 12, 65);
    refuses(runs(65) + "x\n", 12, 66);
}

/// Numbers from `first` on, with single spaces between.
fn rising(first: usize, count: usize) -> String {
    let numbers: Vec<String> = (first..first + count).map(|x| x.to_string()).collect();
    numbers.join(" ")
}

#[test]
fn number_1025() {
    is_accepted(format!("1 0\n{}\n", rising(0, 1024)));
    refuses(format!("1 0\n{}\n", rising(0, 1025)), 12, 2);
    is_accepted(format!("1 0\n{}\n{}\n", rising(0, 1000), rising(0, 24)));
    let full = format!("1 0\n{}\n\n{}\n", rising(0, 1000), rising(0, 24));
    is_accepted(format!("{full}\n\n"));
    refuses(format!("{full}\n\n0\n"), 12, 7);
    refuses(format!("{full}\n\n0"), 12, 7);
    refuses(
        format!("1 0\n{}\n\n{}\nx\n", rising(0, 1000), rising(0, 25)),
        12,
        4,
    );
    refuses(
        format!("1 0\n{}\nx\n{}\n", rising(0, 1000), rising(0, 25)),
        12,
        3,
    );
    // It stands there even if the numbers before it do not rise.
    refuses(format!("1 0\n{}\n", vec!["7"; 1025].join(" ")), 12, 2);
    refuses(format!("1 0\n{}\n", vec!["7"; 1024].join(" ")), 4, 1);
    // Marks count.
    is_accepted(format!("1 0\n{}\n", vec!["0"; 1024].join(" ")));
    refuses(format!("1 0\n{}\n", vec!["0"; 1025].join(" ")), 12, 2);
    is_accepted(format!("1 0\n{}\n5\n", vec!["0"; 1023].join(" ")));
    refuses(format!("1 0\n{}\n5\n", vec!["0"; 1024].join(" ")), 12, 3);
}

#[test]
fn the_largest_output_fits_the_buffers() {
    let numbers: Vec<String> = (0..1024).map(|i| (3 * i + 2).to_string()).collect();
    let input = format!("1 0\n{}\n", numbers.join(" "));
    let output = String::from_utf8(hits(input.as_bytes(), false)).unwrap();
    assert!(output.ends_with("done 1024 2049 0 0\n"));
    assert_eq!(output.lines().count(), 2050);
}

#[test]
fn byte_65537() {
    const LIMIT: usize = 65_536;
    // Fills the input up to `length` bytes with zeros before a 7.
    let filled = |front: &str, length: usize| {
        let zeros = length - front.len() - 2;
        format!("{front}{}7\n", "0".repeat(zeros))
    };
    is_accepted(filled("1 0\n", LIMIT));
    refuses(filled("1 0\n", LIMIT + 1), 12, 2);
    is_accepted(filled("1 0\n5\n\n", LIMIT));
    refuses(filled("1 0\n5\n\n", LIMIT + 1), 12, 4);
    refuses(filled("1 0\n5\n\n", LIMIT + 1000), 12, 4);
    // In line 1.
    refuses(filled("1 0", LIMIT), 1, 0);
    refuses(filled("1 0", LIMIT + 1), 12, 1);
    // The last byte within the limit ends a line: the next one is at fault,
    // whatever the byte.
    for next in ["\n", "5", "5\n", "x", " "] {
        refuses(filled("1 0\n", LIMIT) + next, 12, 3);
        refuses(filled("1 0\n5\n\n", LIMIT) + next, 12, 5);
    }
    // A line that is bad for another reason and stands before it comes first.
    refuses(filled("1 0\nx\n", LIMIT + 1), 12, 2);
    refuses(filled("1 0\n5\n5 \n", LIMIT + 9), 12, 3);
    // In the same line there is one place only.
    refuses(filled("1 0\n5\nx", LIMIT + 1), 12, 3);
    // What stands behind it does not matter.
    refuses(filled("1 0\n", LIMIT + 1) + "x\n\n", 12, 2);
    // 64 runs and one more byte, which is both in run 65 and too far.
    let runs = format!("1 0\n{}", "\n".repeat(63));
    is_accepted(filled(&runs, LIMIT));
    refuses(filled(&runs, LIMIT) + "5", 12, 66);
    // Number 1,025 in the line before.
    let many = format!("1 0\n{}\n", rising(0, 1025));
    refuses(filled(&many, LIMIT + 1), 12, 2);
    let many = format!("1 0\n{}\n", rising(0, 1024));
    refuses(filled(&many, LIMIT + 1), 12, 3);
    // Too many bytes come before the refusals of the query.
    refuses(filled("0 0\n3 3\n", LIMIT + 1), 12, 3);
}

#[test]
fn sixty_four_equal_runs() {
    let mask = u64::MAX;
    prints(
        format!("64 0\n{}", "7\n".repeat(64)),
        &format!("gap 1 6 {mask}\nhit 7 {mask}\ngap 8 {M} {mask}\ndone 1 3 0 0\n"),
    );
}

/// What the program prints, by the plain walk.
fn expected_output(runs: &[Vec<u32>], threshold: u32, allowance: u32) -> String {
    let walk = PlainWalk::new(runs, Weighting::Plain, threshold);
    let probes = walk.probes();
    if probes.total() > u64::from(allowance) {
        let (outcome, ..) = walk.stopped(allowance, 1024, 65536);
        let reference::Outcome::Refused { number, place, .. } = outcome else {
            panic!("the allowance is too small");
        };
        return format!("refuse {number} {place}\n");
    }
    let mut text = String::new();
    let mut answers = 0;
    for part in walk.parts() {
        match part {
            Part::Answer { value, mask } => {
                answers += 1;
                text += &format!("hit {value} {mask}\n");
            }
            Part::Gap { first, last, mask } => text += &format!("gap {first} {last} {mask}\n"),
        }
    }
    let parts = walk.parts().len();
    let (doublings, halvings) = (probes.doublings, probes.halvings);
    text + &format!("done {answers} {parts} {doublings} {halvings}\n")
}

#[test]
fn random_queries() {
    let mut random = Random(2);
    for _ in 0..3_000 {
        let runs = any_runs(&mut random, 8, 20);
        let threshold = random.from_to(1, runs.len()) as u32;
        let allowance = random.below(60) as u32;
        let mut input = format!("{threshold} {allowance}\n");
        for run in &runs {
            let numbers: Vec<String> = run.iter().map(|x| x.to_string()).collect();
            input += &(numbers.join(" ") + "\n");
        }
        prints(input, &expected_output(&runs, threshold, allowance));
    }
}

/// The first line that cannot be read in a short input, byte by byte.
fn first_bad_line(input: &[u8]) -> Option<u64> {
    let mut line = 1;
    let mut words = 0;
    // The number read so far, if the last byte was a digit.
    let mut number: Option<u64> = None;
    let mut after_space = false;
    for &byte in input {
        match byte {
            b'0'..=b'9' => {
                words += usize::from(number.is_none());
                let value = number.unwrap_or(0) * 10 + u64::from(byte - b'0');
                if value > u64::from(M) || (line == 1 && words > 2) {
                    return Some(line);
                }
                number = Some(value);
                after_space = false;
            }
            b' ' if number.is_some() => {
                number = None;
                after_space = true;
            }
            b'\n' if !after_space && (line > 1 || words == 2) => {
                line += 1;
                words = 0;
                number = None;
            }
            _ => return Some(line),
        }
    }
    let ended = input.last() == Some(&b'\n');
    (!ended).then_some(line)
}

/// Short inputs of few kinds of bytes, many of which can be read.
#[test]
fn random_inputs() {
    let mut random = Random(3);
    let bytes = b"0112349   \n\n\n\n\rx";
    let (mut readable, mut refused) = (0, 0);
    for round in 0..100_000 {
        let length = random.below(24);
        let mut input: Vec<u8> = (0..length)
            .map(|_| bytes[random.below(bytes.len())])
            .collect();
        if round % 2 == 0 {
            input.splice(0..0, *b"1 4\n");
            input.retain(|&byte| byte != b'x' && byte != b'\r');
            input.push(b'\n');
        }
        let output = hits(&input, false);
        let bad_line = first_bad_line(&input);
        match bad_line {
            Some(line) => {
                refused += 1;
                assert_eq!(output, format!("refuse 12 {line}\n").as_bytes());
            }
            None => {
                readable += 1;
                assert!(!output.starts_with(b"refuse 12"));
            }
        }
        // A read that fails is a fault in the line of the byte after the input.
        let line_ends = input.iter().filter(|&&byte| byte == b'\n').count();
        let line = bad_line.unwrap_or(1 + line_ends as u64);
        let output = hits(&input, true);
        assert_eq!(output, format!("refuse 12 {line}\n").as_bytes());
    }
    assert!(readable > 1_000 && refused > 1_000);
}
