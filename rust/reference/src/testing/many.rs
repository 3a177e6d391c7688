//! Many questions over the same runs: what they come to for the chosen runs
//! alone, and the specification's instances.

use super::{
    answers_of, gap, hit, marked, marked_three_runs, sixteen_and_one, M, SIXTEEN_AND_ONE_PARTS,
    THREE_RUNS, THREE_RUNS_PARTS,
};
use crate::{encode, named_runs, ManyOutcome, Part, Refusal, Verdict};

/// The parts of the first two of the three runs with threshold 2.
pub const FIRST_TWO_PARTS: [Part; 5] = [
    gap(1, 4, 2),
    hit(5, 3),
    gap(6, 8, 1),
    hit(9, 3),
    gap(10, M, 1),
];

/// The parts of the first and the last of the three runs with threshold 1.
pub const OUTER_TWO_PARTS: [Part; 7] = [
    hit(1, 4),
    hit(2, 1),
    gap(3, 4, 5),
    hit(5, 1),
    gap(6, 8, 5),
    hit(9, 5),
    gap(10, M, 5),
];

/// The parts of the last two of the three runs with threshold 1.
pub const LAST_TWO_PARTS: [Part; 10] = [
    hit(1, 4),
    gap(2, 4, 6),
    hit(5, 2),
    gap(6, 6, 6),
    hit(7, 2),
    gap(8, 8, 6),
    hit(9, 6),
    gap(10, 11, 6),
    hit(12, 2),
    gap(13, M, 6),
];

/// The chosen runs alone.
pub fn choose<R: AsRef<[u32]>>(runs: &[R], mask: u64) -> Vec<&[u32]> {
    named_runs(mask).map(|i| runs[i].as_ref()).collect()
}

/// The parts of a certificate of the chosen runs alone, with masks in the
/// numbering of all runs.
pub fn renumber(parts: &[Part], chosen: u64) -> Vec<Part> {
    let among_all = |mask: u64| -> u64 {
        let numbers = named_runs(chosen).enumerate();
        let named = numbers.filter(|(i, _)| mask >> i & 1 == 1);
        named.map(|(_, number)| 1 << number).sum()
    };
    let part = |part: &Part| match *part {
        Part::Answer { value, mask } => hit(value, among_all(mask)),
        Part::Gap { first, last, mask } => gap(first, last, among_all(mask)),
    };
    parts.iter().map(part).collect()
}

/// An outcome as one row: refusal, place, question, answers, parts, bytes,
/// doublings and halvings, the first three 0 if there is no refusal.
pub fn many_row(outcome: ManyOutcome) -> [u64; 8] {
    match outcome {
        ManyOutcome::Accepted {
            answers,
            parts,
            bytes,
            doublings,
            halvings,
        } => [0, 0, 0, answers, parts, bytes, doublings, halvings],
        ManyOutcome::Refused {
            number,
            place,
            question,
            answers,
            parts,
            bytes,
            doublings,
            halvings,
        } => [
            number.into(),
            place,
            question,
            answers,
            parts,
            bytes,
            doublings,
            halvings,
        ],
    }
}

/// A call of many questions and what is expected of it.
#[derive(Clone, Debug)]
pub struct ManyInstance {
    /// What the instance shows.
    pub name: &'static str,
    /// The runs.
    pub runs: Vec<Vec<u32>>,
    /// The runs that each question is about.
    pub masks: Vec<u64>,
    /// How many of these must hold an answer.
    pub thresholds: Vec<u32>,
    /// The probes allowed.
    pub allowance: u32,
    /// The places of the answer buffer, the certificate buffer and the row of
    /// results.
    pub room: [usize; 3],
    /// The parts written, of all questions.
    pub parts: Vec<Part>,
    /// The results written.
    pub results: Vec<u64>,
    /// The outcome, as [`many_row`] gives it.
    pub row: [u64; 8],
}

impl ManyInstance {
    /// A call over [`THREE_RUNS`] with ample room and allowance that is refused
    /// before anything is written.
    fn new(name: &'static str, masks: &[u64], thresholds: &[u32], row: [u64; 8]) -> Self {
        ManyInstance {
            name,
            runs: THREE_RUNS.map(<[u32]>::to_vec).to_vec(),
            masks: masks.to_vec(),
            thresholds: thresholds.to_vec(),
            allowance: 1_000,
            room: [100, 1_000, 2 * masks.len() + 3],
            parts: Vec::new(),
            results: Vec::new(),
            row,
        }
    }

    /// The same with parts and results that are written.
    fn writing(mut self, parts: &[&[Part]], results: &[u64]) -> Self {
        self.parts = parts.concat();
        self.results = results.to_vec();
        self
    }

    /// The answers written.
    pub fn answers(&self) -> Vec<u32> {
        answers_of(&self.parts)
    }
}

/// The instances of many questions and the edges near them.
pub fn many_instances() -> Vec<ManyInstance> {
    let (first, second, third) = (&THREE_RUNS_PARTS, &FIRST_TWO_PARTS, &OUTER_TWO_PARTS);
    let last_two = &LAST_TWO_PARTS;
    let three = |row| ManyInstance::new("three questions", &[7, 3, 5], &[2, 2, 1], row);
    let two = |row| ManyInstance::new("two questions", &[7, 6], &[2, 1], row);
    let whole = three([0, 0, 0, 8, 18, 310, 5, 0])
        .writing(&[first, second, third], &[2, 106, 4, 193, 8, 310]);
    let refused = |name, masks: &[u64], thresholds: &[u32], [number, place, question]: [u64; 3]| {
        let row = [number, place, question, 0, 0, 0, 0, 0];
        ManyInstance::new(name, masks, thresholds, row)
    };
    let mut all = marked_instances();
    for marks in [[0, 0], [1, 0], [3, 64]] {
        all.extend(search_instances(&marks));
    }
    for runs in marked_three_runs().into_iter().skip(1) {
        let name = "three questions after marks";
        let whole = whole.clone();
        all.push(ManyInstance {
            name,
            runs,
            ..whole
        });
    }
    all.extend([
        whole.clone(),
        ManyInstance {
            name: "three questions, exactly what they need",
            allowance: 5,
            room: [8, 310, 6],
            ..whole
        },
        ManyInstance {
            name: "three questions, spent after the second gap",
            allowance: 3,
            ..three([7, 1, 1, 2, 7, 125, 3, 0]).writing(&[first, &second[..1]], &[2, 106])
        },
        ManyInstance {
            name: "three questions, spent at the last search",
            allowance: 4,
            ..three([7, 3, 1, 3, 9, 159, 4, 0]).writing(&[first, &second[..3]], &[2, 106])
        },
        ManyInstance {
            name: "three questions, spent in the first",
            allowance: 2,
            ..three([7, 4, 0, 1, 4, 72, 2, 0]).writing(&[&first[..4]], &[])
        },
        ManyInstance {
            name: "two questions, room for three answers",
            room: [3, 1_000, 4],
            ..two([5, 2, 1, 3, 8, 140, 3, 0]).writing(&[first, &last_two[..2]], &[2, 106])
        },
        ManyInstance {
            name: "two questions, room for 130 bytes",
            room: [100, 130, 4],
            ..two([6, 1, 1, 3, 7, 121, 3, 0]).writing(&[first, &last_two[..1]], &[2, 106])
        },
        ManyInstance {
            name: "two questions, room for the first alone",
            room: [3, 106, 4],
            ..two([6, 0, 1, 2, 6, 106, 3, 0]).writing(&[first], &[2, 106])
        },
        ManyInstance {
            name: "two questions, room for the answers of the first alone",
            room: [2, 106, 4],
            ..two([5, 0, 1, 2, 6, 106, 3, 0]).writing(&[first], &[2, 106])
        },
        ManyInstance::new(
            "one question over one run",
            &[4],
            &[1],
            [0, 0, 0, 2, 4, 68, 0, 0],
        )
        .writing(
            &[&[hit(1, 4), gap(2, 8, 4), hit(9, 4), gap(10, M, 4)]],
            &[2, 68],
        ),
        refused("a run not below k", &[7, 8], &[2, 1], [13, 1, 1]),
        refused("no run is chosen", &[7, 0], &[2, 1], [13, 1, 1]),
        refused("every bit", &[u64::MAX, 7], &[2, 2], [13, 0, 0]),
        refused("13 before 2", &[7, 8], &[2, 0], [13, 1, 1]),
        refused(
            "2 of a question before 13 of the next",
            &[7, 0],
            &[4, 1],
            [2, 3, 0],
        ),
        refused(
            "a threshold above the chosen runs",
            &[7, 5],
            &[2, 3],
            [2, 2, 1],
        ),
        refused("a threshold of 0", &[7, 5], &[2, 0], [2, 2, 1]),
        refused("one mask and two thresholds", &[7], &[2, 2], [14, 1, 0]),
        refused("two masks and one threshold", &[7, 7], &[2], [14, 2, 0]),
        refused("14 before 13", &[0, 7], &[0], [14, 2, 0]),
        ManyInstance {
            room: [100, 1_000, 3],
            ..refused("three result places", &[7, 3], &[2, 2], [14, 2, 0])
        },
        refused("a threshold but no mask", &[], &[2], [14, 0, 0]),
        ManyInstance::new("no question", &[], &[], [0; 8]),
        ManyInstance {
            allowance: 0,
            room: [0, 0, 0],
            ..ManyInstance::new("no question and no room", &[], &[], [0; 8])
        },
    ]);
    all
}

/// Those about runs that begin with marks, of which some have nothing else and
/// some a mark further on.
fn marked_instances() -> Vec<ManyInstance> {
    let first = &[gap(1, 3, 1), hit(4, 1), gap(5, M, 1)];
    let second = &[
        gap(1, 3, 2),
        hit(4, 2),
        gap(5, 5, 2),
        hit(6, 2),
        gap(7, M, 2),
    ];
    let both = &[gap(1, 3, 3), hit(4, 3), gap(5, M, 1)];
    let (third, outer) = (&[gap(1, M, 4)], &[gap(1, 3, 5), hit(4, 1), gap(5, M, 5)]);
    let of = |runs: &[&[u32]], masks: &[u64], thresholds: &[u32], row| ManyInstance {
        runs: runs.iter().map(|run| run.to_vec()).collect(),
        allowance: 0,
        ..ManyInstance::new("runs that begin with marks", masks, thresholds, row)
    };
    let two_runs: [&[u32]; 2] = [&[0, 4], &[0, 0, 0, 4, 6]];
    let several: [&[u32]; 3] = [&[0, 0, 0, 4], &[0, 4, 6], &[0, 0]];
    let broken: [&[u32]; 2] = [&[0, 0, 4], &[0, 6, 0]];
    let refused = [4, 5, 0, 0, 0, 0, 0, 0];
    vec![
        of(
            &two_runs,
            &[1, 2, 3],
            &[1, 1, 2],
            [0, 0, 0, 4, 11, 193, 0, 0],
        )
        .writing(&[first, second, both], &[1, 53, 3, 140, 4, 193]),
        of(
            &several,
            &[1, 2, 3, 4, 5],
            &[1, 1, 2, 1, 1],
            [0, 0, 0, 5, 15, 265, 0, 0],
        )
        .writing(
            &[first, second, both, third, outer],
            &[1, 53, 3, 140, 4, 193, 4, 212, 5, 265],
        ),
        // Of a run that is not chosen too, with no question too, and before 14.
        of(&broken, &[1], &[1], refused),
        of(&broken, &[], &[], refused),
        of(&broken, &[3], &[], refused),
    ]
}

/// Those about a search that halves, asked twice, in runs after so many marks.
fn search_instances(marks: &[usize]) -> [ManyInstance; 4] {
    let parts = &SIXTEEN_AND_ONE_PARTS;
    let twice = |allowance, row| ManyInstance {
        runs: marked(&sixteen_and_one(), marks),
        allowance,
        ..ManyInstance::new("a search that halves, asked twice", &[3, 3], &[2, 2], row)
    };
    [
        twice(14, [0, 0, 0, 0, 6, 114, 8, 6]).writing(&[parts, parts], &[0, 57, 0, 114]),
        // Cut in the second search's halving, at its seam, and before it.
        twice(12, [7, 1, 1, 0, 4, 76, 8, 4]).writing(&[parts, &parts[..1]], &[0, 57]),
        twice(11, [7, 1, 1, 0, 4, 76, 8, 3]).writing(&[parts, &parts[..1]], &[0, 57]),
        twice(7, [7, 1, 1, 0, 4, 76, 4, 3]).writing(&[parts, &parts[..1]], &[0, 57]),
    ]
}

/// Certificates checked for some of the three runs: the mask, the threshold,
/// the certificate's bytes and the verdict. Marks in front of the runs change none.
pub fn chosen_instances() -> Vec<(u64, u32, Vec<u8>, Verdict)> {
    let valid = |answers, parts| Verdict::Valid { answers, parts };
    let invalid = |number, place| Verdict::Invalid { number, place };
    let of_all = encode(&THREE_RUNS_PARTS);
    let of_first_two = encode(&FIRST_TWO_PARTS);
    let of_outer_two = encode(&OUTER_TWO_PARTS);
    let from_0 = [&[gap(0, 4, 2)], &FIRST_TWO_PARTS[1..]].concat();
    let and_before = |part| encode(&[&[part], &FIRST_TWO_PARTS[..]].concat());
    vec![
        (3, 2, of_first_two.clone(), valid(2, 5)),
        (3, 2, of_all.clone(), invalid(10, 19)),
        (0, 2, of_first_two.clone(), invalid(13, 0)),
        (8, 2, of_first_two.clone(), invalid(13, 0)),
        (11, 2, of_first_two.clone(), invalid(13, 0)),
        (3, 3, of_first_two.clone(), invalid(2, 3)),
        (3, 0, of_first_two.clone(), invalid(2, 0)),
        (8, 0, of_first_two.clone(), invalid(13, 0)),
        (7, 2, of_all, valid(2, 6)),
        (5, 1, of_outer_two.clone(), valid(4, 7)),
        // The answer 1 names one run, and two are needed.
        (5, 2, of_outer_two, invalid(10, 0)),
        // Of all three runs a gap names too few.
        (7, 2, of_first_two.clone(), invalid(10, 0)),
        // The gap from 1 to 4 names run 1, which is not chosen.
        (5, 2, of_first_two, invalid(10, 0)),
        (4, 1, encode(&[gap(1, M, 4)]), invalid(11, 0)),
        (4, 1, encode(&[gap(0, M, 4)]), invalid(9, 0)),
        // True but for bin 0, which they cover too.
        (3, 2, encode(&from_0), invalid(9, 0)),
        (3, 2, and_before(gap(0, 0, 3)), invalid(9, 0)),
        (3, 2, and_before(hit(0, 3)), invalid(9, 0)),
        (4, 1, vec![], invalid(9, 0)),
    ]
}

/// Bounds on the probes in some of the three runs: the mask, the parts and
/// what is returned.
pub fn bound_instances() -> Vec<(u64, u32, Result<u64, Refusal>)> {
    let refused = Err(Refusal::new(13, 0));
    vec![
        (7, 6, Ok(2 * 6 * (2 + 3 + 2))),
        (3, 5, Ok(2 * 5 * (2 + 3))),
        (5, 8, Ok(2 * 8 * (2 + 2))),
        (4, u32::MAX, Ok(2 * u64::from(u32::MAX) * 2)),
        (2, 0, Ok(0)),
        (0, 6, refused),
        (8, 6, refused),
        (u64::MAX, 6, refused),
    ]
}
