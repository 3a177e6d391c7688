//! What the first run holds alone: the definition, and the specification's
//! instances.

use super::{
    accepted, gap, hit, marked, refused, refused_first, sixteen_and_one, tens, M, THREE_RUNS,
};
use crate::{other_runs, Outcome, Part, MAX_RUNS};

/// The parts of the three runs after a first one, with threshold 2.
const OTHER_THREE_PARTS: [Part; 6] = [
    gap(1, 1, 6),
    gap(2, 4, 12),
    hit(5, 6),
    gap(6, 8, 10),
    hit(9, 14),
    gap(10, M, 10),
];

/// The parts of {10, 20, .., 160} and {115} after a first run, with threshold 2.
const OTHER_SIXTEEN_PARTS: [Part; 3] = [gap(1, 114, 4), gap(115, 119, 2), gap(120, M, 4)];

/// The bins of the first of at least one run that fewer than `threshold` of the
/// others hold, found by counting.
pub fn held_alone<R: AsRef<[u32]>>(runs: &[R], threshold: u32) -> Vec<u32> {
    let first = runs[0].as_ref().iter().copied();
    let holds = |run: &R, x: u32| run.as_ref().binary_search(&x).is_ok();
    let count = |x: u32| runs[1..].iter().filter(|run| holds(run, x)).count();
    first
        .filter(|&x| x > 0 && count(x) < threshold as usize)
        .collect()
}

/// A question about what the first run holds alone, and what is expected of it.
#[derive(Clone, Debug)]
pub struct AloneInstance {
    /// What the instance shows.
    pub name: String,
    /// The runs.
    pub runs: Vec<Vec<u32>>,
    /// A bin of the first run is an answer if fewer of the other runs hold it.
    pub threshold: u32,
    /// The probes allowed: exactly those needed if the question is accepted.
    pub allowance: u32,
    /// The places of the answer buffer and of the certificate buffer.
    pub room: [usize; 2],
    /// The answers written.
    pub answers: Vec<u32>,
    /// The parts written.
    pub parts: Vec<Part>,
    /// What the question returns.
    pub outcome: Outcome,
}

impl AloneInstance {
    /// A question with ample room that is refused before anything is written.
    fn new<R: AsRef<[u32]>>(
        name: impl Into<String>,
        runs: &[R],
        (threshold, allowance): (u32, u32),
        outcome: Outcome,
    ) -> Self {
        AloneInstance {
            name: name.into(),
            runs: runs.iter().map(|run| run.as_ref().to_vec()).collect(),
            threshold,
            allowance,
            room: [100, 1_000],
            answers: Vec::new(),
            parts: Vec::new(),
            outcome,
        }
    }

    /// The same with answers and parts that are written.
    fn writing(mut self, answers: &[u32], parts: &[Part]) -> Self {
        self.answers = answers.to_vec();
        self.parts = parts.to_vec();
        self
    }

    /// The same with buffers of other lengths.
    fn in_room(mut self, room: [usize; 2]) -> Self {
        self.room = room;
        self
    }

    /// Whether the question is accepted.
    pub fn is_accepted(&self) -> bool {
        matches!(self.outcome, Outcome::Accepted { .. })
    }
}

/// {2, 5, 8, 9} before the three runs.
fn before_three() -> [&'static [u32]; 4] {
    let [first, second, third] = THREE_RUNS;
    [&[2, 5, 8, 9], first, second, third]
}

/// The instances of what a run holds alone and the edges near them.
pub fn alone_instances() -> Vec<AloneInstance> {
    let parts = &OTHER_THREE_PARTS;
    let four = |name: &str, question, outcome| {
        let name = format!("a run before three, {name}");
        AloneInstance::new(name, &before_three(), question, outcome)
    };
    let whole = accepted(2, 6, 106, [3, 0]);
    let full = |answers| refused(5, 6, answers, 106, [3, 0]);
    let mut all = vec![
        four("two of them", (2, 3), whole).writing(&[2, 8], parts),
        four("exactly what is needed", (2, 3), whole)
            .writing(&[2, 8], parts)
            .in_room([2, 106]),
        four("room for one answer", (2, 3), full(1))
            .writing(&[2], parts)
            .in_room([1, 1_000]),
        four("room for no answer", (2, 3), full(0))
            .writing(&[], parts)
            .in_room([0, 106]),
        four("one probe short", (2, 2), refused(7, 4, 0, 72, [2, 0])).writing(&[], &parts[..4]),
        four("no probe", (2, 0), refused(7, 1, 0, 19, [0, 0])).writing(&[], &parts[..1]),
        four("room for 60 bytes", (2, 3), refused(6, 3, 0, 53, [2, 0]))
            .writing(&[], &parts[..3])
            .in_room([100, 60]),
        four("one byte short", (2, 3), refused(6, 5, 0, 87, [3, 0]))
            .writing(&[], &parts[..5])
            .in_room([100, 105]),
        // The walk comes to its end, or does not, before an answer is due.
        four("no room and no probe", (2, 0), refused(6, 0, 0, 0, [0, 0])).in_room([0, 0]),
        four(
            "no room for answers and one probe short",
            (2, 2),
            refused(7, 4, 0, 72, [2, 0]),
        )
        .writing(&[], &parts[..4])
        .in_room([0, 106]),
        four("three of them", (3, 5), accepted(3, 4, 72, [5, 0])).writing(
            &[2, 5, 8],
            &[gap(1, 4, 4), gap(5, 8, 8), hit(9, 14), gap(10, M, 10)],
        ),
        four("one of them", (1, 0), accepted(1, 11, 185, [0, 0])).writing(
            &[8],
            &[
                hit(1, 8),
                hit(2, 2),
                gap(3, 4, 14),
                hit(5, 6),
                gap(6, 6, 14),
                hit(7, 4),
                gap(8, 8, 14),
                hit(9, 14),
                gap(10, 11, 14),
                hit(12, 4),
                gap(13, M, 14),
            ],
        ),
        four("more than the others", (4, 9), refused_first(2, 4)),
        four("none", (0, 9), refused_first(2, 0)),
    ];
    for marks in [[1, 0, 0, 0], [2, 1, 3, 1], [64, 0, 65, 129]] {
        let name = format!("a run before three after {marks:?} marks");
        let runs = marked(&before_three(), &marks);
        all.push(AloneInstance::new(name, &runs, (2, 3), whole).writing(&[2, 8], parts));
    }
    all.extend(edges());
    all.extend(search_instances());
    all.extend(limits());
    all.extend(refusals());
    all
}

/// Empty runs, marks, and the ends of the line.
fn edges() -> Vec<AloneInstance> {
    let [first, second, third] = THREE_RUNS;
    let of = |name: &str, runs: &[&[u32]], threshold, outcome| {
        AloneInstance::new(name, runs, (threshold, 0), outcome)
    };
    let sevens = [gap(1, 6, 6), hit(7, 6), gap(8, M, 6)];
    let mut all = vec![
        of(
            "after marks what two others hold",
            &[&[0, 0, 7], &[7], &[7]],
            2,
            accepted(0, 3, 53, [0, 0]),
        )
        .writing(&[], &sevens),
        of(
            "after a mark the last bin, and one before what the other holds",
            &[&[0, 6, 7, M], &[0, 7]],
            1,
            accepted(2, 3, 53, [0, 0]),
        )
        .writing(&[6, M], &[gap(1, 6, 2), hit(7, 2), gap(8, M, 2)]),
        of("both ends", &[&[1, M], &[1]], 1, accepted(1, 2, 34, [0, 0]))
            .writing(&[M], &[hit(1, 2), gap(2, M, 2)]),
        of("the last bin", &[&[M], &[M]], 1, accepted(0, 2, 34, [0, 0]))
            .writing(&[], &[gap(1, M - 1, 2), hit(M, 2)]),
        of(
            "the last bin, of one of two",
            &[&[3, M], &[3], &[M]],
            2,
            accepted(2, 2, 38, [0, 0]),
        )
        .writing(&[3, M], &[gap(1, M - 1, 4), gap(M, M, 2)]),
        of("two empty runs", &[&[], &[]], 1, accepted(0, 1, 19, [0, 0]))
            .writing(&[], &[gap(1, M, 2)]),
        of(
            "beside an empty run",
            &[&[0, 1, 5, M], &[]],
            1,
            accepted(3, 1, 19, [0, 0]),
        )
        .writing(&[1, 5, M], &[gap(1, M, 2)]),
        of(
            "beside a run of marks alone, room for two of three",
            &[&[0, 1, 5, M], &[0, 0]],
            1,
            refused(5, 1, 2, 19, [0, 0]),
        )
        .writing(&[1, 5], &[gap(1, M, 2)])
        .in_room([2, 19]),
    ];
    // A first run with no bins has no answer, and needs no room for one.
    for none in [&[][..], &[0], &[0, 0, 0]] {
        let runs = [none, first, second, third];
        let outcome = accepted(0, 6, 106, [3, 0]);
        let name = format!("{none:?} before three");
        all.push(
            AloneInstance::new(name, &runs, (2, 3), outcome)
                .writing(&[], &OTHER_THREE_PARTS)
                .in_room([0, 106]),
        );
    }
    all
}

/// A search that halves, whole and cut in its doubling, at the seam and in its
/// halving.
fn search_instances() -> Vec<AloneInstance> {
    let [sixteen, one] = sixteen_and_one();
    let parts = &OTHER_SIXTEEN_PARTS;
    let of = |marks: &[usize], allowance, outcome| {
        let name = format!("one number among sixteen after {marks:?} marks, {allowance} probes");
        let runs = marked(&[tens(2), sixteen.clone(), one.clone()], marks);
        AloneInstance::new(name, &runs, (2, allowance), outcome)
    };
    let mut all = Vec::new();
    for marks in [[0, 0, 0], [1, 2, 0], [64, 3, 1]] {
        let whole = accepted(2, 3, 57, [4, 3]);
        all.push(of(&marks, 7, whole).writing(&[10, 20], parts));
        for (allowance, probes) in [(3, [3, 0]), (4, [4, 0]), (5, [4, 1]), (6, [4, 2])] {
            let cut = refused(7, 1, 0, 19, probes);
            all.push(of(&marks, allowance, cut).writing(&[], &parts[..1]));
        }
    }
    all
}

/// Every number of runs, with the largest threshold and one more.
fn limits() -> Vec<AloneInstance> {
    let mut all = Vec::new();
    for k in 2..=MAX_RUNS {
        let mut runs = vec![vec![7]; k];
        runs[0] = vec![6, 7, 8];
        let mask = other_runs(k);
        let parts = [gap(1, 6, mask), hit(7, mask), gap(8, M, mask)];
        let whole = accepted(2, 3, 53, [0, 0]);
        let above = refused_first(2, k as u64);
        let named = |rest: &str| format!("{k} runs, {rest}");
        let t = k as u32;
        all.extend([
            AloneInstance::new(named("all others"), &runs, (t - 1, 0), whole)
                .writing(&[6, 8], &parts),
            AloneInstance::new(named("one too many"), &runs, (t, 0), above),
            AloneInstance::new(named("none"), &runs, (0, 0), refused_first(2, 0)),
        ]);
    }
    for threshold in [0, 1, 64, 65] {
        let refusal = refused_first(1, 65);
        all.push(AloneInstance::new(
            "65 runs",
            &[[7]; 65],
            (threshold, 0),
            refusal,
        ));
    }
    all
}

/// What the first checks refuse, and in which order.
fn refusals() -> Vec<AloneInstance> {
    let none: [&[u32]; 0] = [];
    let of = |name: &str, runs: &[&[u32]], threshold, number, place| {
        let refusal = refused_first(number, place);
        AloneInstance::new(name, runs, (threshold, 9), refusal)
    };
    let mut all = vec![
        of("no runs", &none, 1, 1, 0),
        of("no runs and no threshold", &none, 0, 1, 0),
        of("the first run does not rise", &[&[3, 3], &[7]], 1, 4, 1),
        of("its bin twice", &[&[7, 7], &[5]], 1, 4, 1),
        of("a mark after a bin of it", &[&[5, 0], &[7]], 1, 4, 1),
        of("another run does not rise", &[&[7], &[5, 0]], 1, 4, 2),
        of("2 before 4", &[&[3, 3], &[7]], 2, 2, 2),
        of("1 before 2 and 4", &[&[3, 3][..]; 65], 0, 1, 65),
    ];
    // A run with no other.
    for threshold in [0, 1, 2, M] {
        for run in [&[7][..], &[], &[3, 3]] {
            let place = threshold.into();
            all.push(of("a run with no other", &[run], threshold, 2, place));
        }
    }
    all
}
