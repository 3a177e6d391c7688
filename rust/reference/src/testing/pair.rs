//! Pairs of runs: the specification's instances and the edges near them.

use super::{lay_out, marked, tens, M, THREE_RUNS};
use crate::{digits, PairOutcome, Refusal, MAX_NUMBERS};

/// Two runs, or rows that are refused, and what is expected of them.
#[derive(Clone, Debug)]
pub struct PairInstance {
    /// What the instance shows.
    pub name: String,
    /// All runs, one after another.
    pub numbers: Vec<u32>,
    /// Where each run ends.
    pub ends: Vec<u32>,
    /// The length of the answer buffer.
    pub room: usize,
    /// The answers written.
    pub answers: Vec<u32>,
    /// The refusal.
    pub refusal: Option<Refusal>,
    /// How deep the partitions are nested that are begun.
    pub nesting: u32,
}

impl PairInstance {
    /// Rows with more room than they need that are refused before anything is
    /// written.
    fn refused(
        name: impl Into<String>,
        (numbers, ends): (Vec<u32>, Vec<u32>),
        (number, place): (u8, usize),
    ) -> Self {
        PairInstance {
            name: name.into(),
            room: numbers.len() + 3,
            numbers,
            ends,
            answers: Vec::new(),
            refusal: Some(Refusal::new(number, place)),
            nesting: 0,
        }
    }

    /// Two runs with more room than they need.
    fn accepted<R: AsRef<[u32]>>(
        name: impl Into<String>,
        runs: [R; 2],
        answers: &[u32],
        nesting: u32,
    ) -> Self {
        PairInstance {
            answers: answers.to_vec(),
            refusal: None,
            nesting,
            ..PairInstance::refused(name, lay_out(&runs), (0, 0))
        }
    }

    /// The same with less room than there are answers, by which the nesting is
    /// perhaps not reached.
    fn in_room(mut self, room: usize, nesting: u32) -> Self {
        self.name = format!("{}, room for {room}", self.name);
        self.room = room;
        self.answers.truncate(room);
        self.refusal = Some(Refusal::new(5, room));
        self.nesting = nesting;
        self
    }

    /// What the call returns.
    pub fn outcome(&self) -> PairOutcome {
        PairOutcome {
            answers: self.answers.len() as u64,
            refusal: self.refusal,
            nesting: self.nesting,
        }
    }
}

/// The instances of pairs and the edges near them.
pub fn pair_instances() -> Vec<PairInstance> {
    let [first, second, _] = THREE_RUNS;
    let two = |answers, nesting| {
        PairInstance::accepted("two of three runs", [first, second], answers, nesting)
    };
    let fives: Vec<u32> = (1..=32).map(|i| 5 * i).collect();
    let sixteen = || PairInstance::accepted("tens in fives", [&tens(16), &fives], &tens(16), 5);
    let mut all = vec![
        two(&[5, 9], 2),
        two(&[5, 9], 2).in_room(1, 2),
        // The second side is not entered: 5 is due before it.
        two(&[5, 9], 2).in_room(0, 1),
        PairInstance::accepted("the same exchanged", [second, first], &[5, 9], 2),
        PairInstance::accepted("equal lengths", [[1, 2, 3, 4], [2, 4, 6, 8]], &[2, 4], 2),
        PairInstance::accepted("a number in front", [&[4, 8][..], &[1, 6, 9]], &[], 2),
        sixteen(),
        sixteen().in_room(15, 5),
        sixteen().in_room(0, 5),
        PairInstance::accepted("fives and tens", [&fives, &tens(16)], &tens(16), 5),
    ];
    for marks in [[0, 1], [2, 0], [3, 3], [64, 65]] {
        let runs = marked(&[first, second], &marks);
        let name = format!("two of three runs after {marks:?} marks");
        all.push(PairInstance::accepted(
            name,
            [&runs[0], &runs[1]],
            &[5, 9],
            2,
        ));
    }
    all.extend(edges());
    all.extend(of_each_length());
    all.extend(refusals());
    all
}

/// Empty runs, marks, and the ends of the line.
fn edges() -> Vec<PairInstance> {
    let second = THREE_RUNS[1];
    let of = |runs: [&[u32]; 2], answers: &[u32], nesting| {
        PairInstance::accepted(format!("{runs:?}"), runs, answers, nesting)
    };
    let mut all = vec![
        of([&[], &[]], &[], 0),
        of([&[], &[1]], &[], 0),
        of([&[1], &[]], &[], 0),
        of([&[0, 0], &[0]], &[], 0),
        of([&[0, 0], &[5]], &[], 0),
        of([&[0, 0, 5], &[0, 5]], &[5], 1),
        of([&[0, 1], &[1]], &[1], 1),
        of([&[1], &[M]], &[], 1),
        of([&[M], &[1, M]], &[M], 1),
        of([&[1, M], &[1, M]], &[1, M], 2),
        of([&[M - 1, M], &[0, M]], &[M], 1),
        of([&[1, 2], &[3, 4]], &[], 1),
        of([&[7], second], &[7], 1),
        of([&[], second], &[], 0),
        of([&[3, 4], &[1, 2]], &[], 2),
    ];
    // Just as much room as is needed.
    for instance in &mut all {
        instance.room = instance.answers.len();
    }
    all.push(of([&[0, M], &[M]], &[M], 1).in_room(0, 1));
    all
}

/// Two runs of each number of bins: equal ones, ones that come in turn, and one
/// that is above or below all of the other.
fn of_each_length() -> Vec<PairInstance> {
    let mut all = Vec::new();
    for n in 0..=40 {
        let nesting = digits(n.into());
        let run = |start: u32, step: usize| -> Vec<u32> {
            (start..).step_by(step).take(n as usize).collect()
        };
        let (even, odd) = (run(2, 2), run(1, 2));
        let (low, high) = (run(1, 1), run(n + 1, 1));
        // Only what is above the pivot is entered, which of an even count is less.
        let upper_halves = digits(u64::from(n) + 1) - 1;
        let of = |name: &str, runs: [&[u32]; 2], answers: &[u32], nesting| {
            PairInstance::accepted(format!("{n} {name}"), runs, answers, nesting)
        };
        all.push(of("equal numbers", [&even, &even], &even, nesting));
        all.push(of("above", [&high, &low], &[], nesting));
        all.push(of("below", [&low, &high], &[], upper_halves));
        all.push(of("interleaved", [&odd, &even], &[], nesting));
        if n > 0 {
            let full = of("equal numbers", [&even, &even], &even, nesting);
            // The first answer is due where the nesting is deepest.
            all.push(full.clone().in_room(0, nesting));
            all.push(full.in_room(n as usize - 1, nesting));
        }
    }
    all
}

/// What the first checks refuse, and in which order.
fn refusals() -> Vec<PairInstance> {
    let rows = |numbers: &[u32], ends: &[u32]| (numbers.to_vec(), ends.to_vec());
    let runs = |runs: &[&[u32]]| lay_out(runs);
    let [first, second, third] = THREE_RUNS;
    let mut too_many: Vec<u32> = (1..MAX_NUMBERS as u32).collect();
    too_many.extend([7, 9]);
    let many_ends = vec![MAX_NUMBERS as u32 - 1, MAX_NUMBERS as u32 + 1];
    [
        ("no runs", rows(&[], &[]), (1, 0)),
        ("no runs and a number", rows(&[5], &[]), (1, 0)),
        ("one run", runs(&[first]), (1, 1)),
        ("three runs", runs(&[first, second, third]), (1, 3)),
        ("three empty runs", runs(&[&[], &[], &[]]), (1, 3)),
        ("three bins", runs(&[&[1], &[2], &[3]]), (1, 3)),
        ("65 runs", lay_out(&[[7]; 65]), (1, 65)),
        (
            "three runs that do not fit",
            rows(&[3, 3], &[9, 2, 1]),
            (1, 3),
        ),
        ("an end that falls", rows(&[3, 3], &[2, 1]), (3, 1)),
        ("too far an end that falls", rows(&[3, 3], &[9, 2]), (3, 1)),
        ("a number in no run", rows(&[3, 3], &[1, 1]), (3, 2)),
        ("ends past the numbers", rows(&[3, 3], &[1, 3]), (3, 2)),
        ("one number too many", (too_many, many_ends), (3, 2)),
        ("a bin twice", runs(&[&[3, 3], &[1]]), (4, 1)),
        (
            "a bin of the second run twice",
            runs(&[&[1], &[3, 3]]),
            (4, 2),
        ),
        ("a mark after a bin", runs(&[&[3], &[1, 0]]), (4, 2)),
        ("a mark between bins", runs(&[&[0, 3, 0, 4], &[4]]), (4, 2)),
        (
            "two runs that do not rise",
            runs(&[&[0, 5, 4], &[9, 9]]),
            (4, 2),
        ),
    ]
    .map(|(name, rows, refusal)| PairInstance::refused(name, rows, refusal))
    .into()
}
