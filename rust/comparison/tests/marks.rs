//! What is generated for the other tests: in a third of all cases runs begin
//! with unmapped marks, which are zeros: one, two, a few, or so many that they fill
//! blocks of 64 numbers, with bins after them or alone. Broken runs have a 0
//! further on.

use comparison::broken::break_rows;
use comparison::met::Met;
use comparison::seeds;
use comparison::shapes::{any_runs, shaped_runs, SHAPES};
use comparison::texts::{near_a_limit, Text};
use reference::testing::{lay_out, mark_later, Random};
use reference::{first_checks, leading_zeros, Refusal};

/// How a run with marks begins.
#[derive(Clone, Copy, Debug, PartialEq, Eq, PartialOrd, Ord)]
enum Start {
    /// With one mark.
    One,
    /// With two.
    Two,
    /// With 3 to 62.
    Few,
    /// With 64 or 128, or one more or less.
    Blocks,
    /// With any other number from 66 on.
    Many,
    /// With one mark and nothing after it.
    OneAlone,
    /// With several and nothing after them.
    SeveralAlone,
}

impl Start {
    fn of(run: &[u32]) -> Start {
        match leading_zeros(run) {
            1 if run.len() == 1 => Start::OneAlone,
            marks if run.len() == marks => Start::SeveralAlone,
            1 => Start::One,
            2 => Start::Two,
            3..=62 => Start::Few,
            63..=65 | 127..=129 => Start::Blocks,
            _ => Start::Many,
        }
    }
}

/// Asserts that runs begin with marks in about a third of the cases, and in each
/// way, with different numbers of marks, in one run to 150 cases at least.
fn in_a_third(name: &str, cases: impl Iterator<Item = Vec<Vec<u32>>>) {
    let (mut all, mut with_marks) = (0, 0);
    let mut starts = Met::default();
    for runs in cases {
        let marked = runs.iter().filter(|run| run.first() == Some(&0));
        for run in marked.clone() {
            starts.count(Start::of(run), leading_zeros(run) as u64);
        }
        all += 1;
        with_marks += usize::from(marked.count() > 0);
    }
    println!("{name}: of {all} cases {with_marks} with marks");
    assert!((30 * all..37 * all).contains(&(100 * with_marks)), "{name}");
    let different = [
        (Start::One, 1),
        (Start::Two, 1),
        (Start::Few, 12),
        (Start::Blocks, 6),
        (Start::Many, 20),
        (Start::OneAlone, 1),
        (Start::SeveralAlone, 12),
    ];
    starts.met(
        name,
        &different.map(|(start, numbers)| (start, all / 150, numbers)),
    );
}

#[test]
fn runs() {
    for (group, k, length) in [(121, 1, 20), (122, 4, 8), (123, 20, 10), (124, 64, 40)] {
        let any = seeds(group, 6_000).map(|seed| any_runs(&mut Random(seed), k, length));
        in_a_third(&format!("{k} runs of any shape"), any);
        for shape in SHAPES {
            let runs = |seed| shaped_runs(&mut Random(seed), shape, k, length);
            let shaped = seeds(group, 6_000).map(runs);
            in_a_third(&format!("{k} runs, {shape:?}"), shaped);
        }
    }
}

/// The runs of a text, which can be read.
fn runs_of(text: Text) -> Vec<Vec<u32>> {
    let number = |word: &String| word.parse().expect("a number");
    let run = |line: &Vec<String>| line.iter().map(number).collect();
    text.lines[1..].iter().map(run).collect()
}

#[test]
fn texts() {
    let any = seeds(125, 6_000).map(|seed| runs_of(Text::any(&mut Random(seed))));
    in_a_third("texts", any);
    let large = seeds(126, 6_000).map(|seed| runs_of(near_a_limit(&mut Random(seed))));
    in_a_third("texts near a limit", large);
}

/// Marks at the start of runs are not refused, however many. A 0 after another
/// number of its run is, as 4 at its place in the row.
#[test]
fn later_marks() {
    // By how many marks the run with the 0 begins with: none, one, several.
    let mut seen = [0; 3];
    for seed in seeds(127, 20_000) {
        let mut random = Random(seed);
        let k = random.from_to(1, 5);
        let mut runs = any_runs(&mut random, k, 6);
        let (numbers, ends) = lay_out(&runs);
        assert_eq!(first_checks(&numbers, &ends, 1), Ok(()), "seed {seed}");

        let run = random.below(k);
        let marks = leading_zeros(&runs[run]);
        let Some(place) = mark_later(&mut random, &mut runs[run]) else {
            continue;
        };
        let before: usize = runs[..run].iter().map(Vec::len).sum();
        let (number, place) = (4, (before + place) as u64);
        let (numbers, ends) = lay_out(&runs);
        let refusal = Err(Refusal { number, place });
        assert_eq!(first_checks(&numbers, &ends, 1), refusal, "seed {seed}");
        seen[marks.min(2)] += 1;
    }
    println!("a 0 after a bin, by the marks before it: {seen:?}");
    assert!(seen.iter().all(|&count| count > 500), "{seen:?}");
}

/// Broken rows are often refused for a 0 after another number.
#[test]
fn broken_rows() {
    let mut seen = 0;
    for seed in seeds(128, 20_000) {
        let mut random = Random(seed);
        let k = random.from_to(1, 5);
        let (mut numbers, mut ends) = lay_out(&any_runs(&mut random, k, 6));
        break_rows(&mut random, &mut numbers, &mut ends);
        if let Err(Refusal { number: 4, place }) = first_checks(&numbers, &ends, 1) {
            seen += u32::from(numbers[place as usize] == 0);
        }
    }
    println!("rows refused for a 0: {seen}");
    assert!(seen > 1_000, "{seen}");
}
