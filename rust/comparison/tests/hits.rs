//! The program `hits` against the reference, byte for byte: stored runs, and
//! good questions, broken texts and texts at the limits from seeds.

use comparison::printed::{front, Comparer};
use comparison::program;
use comparison::seeds;
use comparison::texts::{break_bytes, near_a_limit, short_bytes, Text, MOST_BYTES, MOST_NUMBERS};
use reference::testing::{instances, Random, M};
use std::fs;

/// The stored inputs; the reference prints the stored outputs.
#[test]
fn stored_runs() {
    let mut comparer = Comparer::of_hits();
    let folder = program::repository().join("examples/hits");
    for entry in fs::read_dir(folder).unwrap() {
        let path = entry.unwrap().path();
        if path.extension().is_some_and(|extension| extension == "txt") {
            let name = path.display().to_string();
            let input = fs::read(&path).unwrap();
            let output = fs::read(path.with_extension("out")).unwrap();
            assert_eq!(
                front(&reference::hits(&input, false)),
                front(&output),
                "{name}"
            );
            comparer.compare(&name, &input);
        }
    }
    comparer.met(&[
        (0, 5, 3),
        (1, 1, 1),
        (2, 2, 2),
        (4, 2, 2),
        (7, 2, 2),
        (12, 8, 5),
    ]);
}

#[test]
fn instances_of_document_01() {
    let mut comparer = Comparer::of_hits();
    // The program's input has no weights.
    for instance in instances() {
        if instance.wanted.weights.is_some() {
            continue;
        }
        let threshold = instance.wanted.threshold;
        let text = Text::of(threshold, instance.allowance, &instance.runs);
        comparer.compare(&instance.name, &text.bytes());
    }
    comparer.met(&[
        (0, 60, 3),
        (1, 1, 1),
        (2, 60, 60),
        (4, 1, 1),
        (7, 2, 2),
        (12, 1, 1),
    ]);
}

/// Questions that can be read.
#[test]
fn good_questions() {
    let mut comparer = Comparer::of_hits();
    for seed in seeds(51, 2_500) {
        let mut random = Random(seed);
        let mut text = Text::any(&mut random);
        text.add_zeros(&mut random);
        comparer.compare_seed(seed, &text.bytes());
    }
    comparer.met(&[(0, 1_500, 30), (2, 100, 10), (4, 100, 30), (7, 200, 20)]);
}

/// Good questions with one to three changes.
#[test]
fn broken_texts() {
    let mut comparer = Comparer::of_hits();
    for seed in seeds(52, 3_000) {
        let mut random = Random(seed);
        let mut text = Text::any(&mut random);
        if random.one_in(4) {
            text.enlarge(&mut random);
        }
        let mut bytes = text.bytes();
        for _ in 0..random.below(4) {
            break_bytes(&mut random, &mut bytes);
        }
        comparer.compare_seed(seed, &bytes);
    }
    comparer.met(&[
        (0, 300, 1),
        (1, 50, 1),
        (2, 40, 8),
        (4, 50, 20),
        (7, 40, 10),
        (12, 1_500, 60),
    ]);
}

/// Texts with about as many bytes, runs or numbers as there may be.
#[test]
fn texts_near_the_limits() {
    let mut comparer = Comparer::of_hits();
    for seed in seeds(53, 1_500) {
        let mut random = Random(seed);
        let mut bytes = near_a_limit(&mut random).bytes();
        if random.one_in(4) {
            break_bytes(&mut random, &mut bytes);
        }
        comparer.compare_seed(seed, &bytes);
    }
    comparer.met(&[(0, 300, 1), (12, 500, 60)]);
}

/// Inputs of every length about the limit of bytes, whatever stands there and
/// whether they end there or a read then fails.
#[test]
fn every_length_about_the_limit() {
    let mut comparer = Comparer::of_hits();
    let mut compare = |name: &str, input: &[u8]| {
        for failed in [false, true] {
            comparer.compare_pieces(name, &[input], failed);
        }
    };
    for length in MOST_BYTES - 3..=MOST_BYTES + 3 {
        for (front, back) in [
            ("1 0\n5\n", "7\n"),
            ("1 0\n5\n", "7"),
            ("1 0\n5\n", " \n"),
            ("1 0\n5\n", "7\n\n"),
            ("1 0\n5\n", "7\nx"),
            ("1 ", "9\n"),
            ("x", "\n"),
            ("1 0\nx\n", "7\n"),
            ("", ""),
        ] {
            let zeros = "0".repeat(length - front.len() - back.len());
            let input = format!("{front}{zeros}{back}");
            compare(&format!("{length} bytes, {back:?}"), input.as_bytes());
        }
        let line_ends = vec![b'\n'; length];
        compare(&format!("{length} line ends"), &line_ends);
        let others = vec![0xff; length];
        compare(&format!("{length} bytes 255"), &others);
    }
    comparer.met(&[(0, 3, 1), (1, 1, 1), (12, 100, 4)]);
}

/// Short inputs, and all of at most two bytes of a few kinds.
#[test]
fn short_inputs() {
    let mut comparer = Comparer::of_hits();
    for seed in seeds(54, 1_500) {
        let mut random = Random(seed);
        comparer.compare_seed(seed, &short_bytes(&mut random));
    }
    let kinds = b"1 \n\rx\xff";
    comparer.compare("no bytes", b"");
    for &first in kinds {
        comparer.compare("one byte", &[first]);
        for &second in kinds {
            comparer.compare("two bytes", &[first, second]);
        }
    }
    comparer.met(&[(0, 100, 1), (4, 20, 2), (12, 900, 5)]);
}

/// Lines of a run, and first lines, at the edges of the form.
#[test]
fn lines_at_the_edges() {
    let mut comparer = Comparer::of_hits();
    let long = format!("{}1", "0".repeat(5_000));
    let words = [
        "",
        " ",
        "0",
        "5",
        "00",
        " 5",
        "5 ",
        "5  6",
        "5\t6",
        "5\r",
        "\r",
        "\t",
        "x",
        "-5",
        "+5",
        "5,6",
        "5.0",
        "0x5",
        "5 6",
        "6 5",
        "5 5",
        "0 0",
        "0 00 5",
        "5 0",
        "0 0 5 0",
        "0 0 5 5",
        "4294967295",
        "4294967296",
        "04294967296",
        "42949672950",
        "18446744073709551621",
        "123456789012345678901234567890",
        "\u{0}",
        "\u{b2}",
        "/",
        ":",
        &long,
    ];
    for word in words {
        for ending in ["\n", "", "\n\n", "\r\n"] {
            comparer.compare("a run", format!("1 9\n{word}{ending}").as_bytes());
            comparer.compare("a threshold", format!("{word} 9{ending}5\n").as_bytes());
            comparer.compare("an allowance", format!("1 {word}{ending}5 6\n").as_bytes());
        }
        comparer.compare("line 1", format!("{word}\n5\n").as_bytes());
    }
    let most = format!("{M} {M}\n{M}\n");
    comparer.compare("the largest numbers", most.as_bytes());
    comparer.met(&[(0, 20, 1), (1, 5, 1), (2, 10, 4), (4, 2, 1), (12, 300, 2)]);
}

/// As many unmapped marks as there may be numbers, and one more: alone, with a
/// bin after them, and in a run before one of a bin.
#[test]
fn most_marks() {
    let mut comparer = Comparer::of_hits();
    for marks in MOST_NUMBERS - 2..=MOST_NUMBERS + 1 {
        let zeros = vec![0; marks];
        let bin = vec![5];
        let two_runs = [zeros.clone(), bin];
        let later = [&zeros[..marks / 2], &[5], &zeros[marks / 2..]].concat();
        for runs in [&two_runs[..1], &[two_runs.concat()], &two_runs, &[later]] {
            let text = Text::of(1, 0, runs);
            comparer.compare(&format!("{marks} marks"), &text.bytes());
        }
    }
    comparer.met(&[(0, 7, 1), (4, 2, 1), (12, 7, 2)]);
}

/// An input that reaches the program bit by bit is read to its end.
#[test]
fn inputs_in_pieces() {
    let mut comparer = Comparer::of_hits();
    for seed in seeds(55, 60) {
        let mut random = Random(seed);
        let mut text = Text::any(&mut random);
        if random.one_in(3) {
            text.fill(&mut random, MOST_BYTES + seed as usize % 3);
        }
        let bytes = text.bytes();
        let size = bytes.len() / random.from_to(2, 12) + 1;
        let pieces: Vec<&[u8]> = bytes.chunks(size).collect();
        comparer.compare_pieces(&format!("seed {seed}"), &pieces, false);
    }
    comparer.met(&[(0, 10, 1)]);
}
