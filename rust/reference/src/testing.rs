//! What the tests of this crate and the comparison share: short forms, rows
//! from runs, all small inputs, random numbers, marks and weights, and the
//! specification's instances: queries as a list of runs, weights, threshold,
//! allowance, expected parts and outcome, checks as one of certificates and
//! verdicts, parts between two numbers, and those about some of the runs, about
//! what the first run holds alone, about pairs of runs, about checks by weight and
//! about tracefiles in lists of their own.

use crate::{encode, Outcome, Part, Verdict};
use std::iter;

mod alone;
mod lcov;
mod many;
mod marks;
mod pair;
mod weights;

pub use alone::{alone_instances, held_alone, AloneInstance};
pub use lcov::{
    lcov_instances, record_forms, LcovInstance, FOUR_SECTIONS, OTHER_LINES, SHORT_RECORD_FORMS,
};
pub use many::{
    bound_instances, choose, chosen_instances, many_instances, many_row, renumber, ManyInstance,
    FIRST_TWO_PARTS, LAST_TWO_PARTS, OUTER_TWO_PARTS,
};
pub use marks::{any_marks, mark_later, mark_some, marked, marked_three_runs, BETWEEN_INSTANCES};
pub use pair::{pair_instances, PairInstance};
pub use weights::{
    any_weights, break_weights, weight_of, weighted_checks, Wanted, THREE_WEIGHTED_PARTS,
};

/// The last bin.
pub const M: u32 = u32::MAX;

/// The runs of the specification's first instance.
pub const THREE_RUNS: [&[u32]; 3] = [&[2, 5, 9], &[5, 7, 9, 12], &[1, 9]];

/// The parts of [`THREE_RUNS`] with threshold 2.
pub const THREE_RUNS_PARTS: [Part; 6] = [
    gap(1, 1, 3),
    gap(2, 4, 6),
    hit(5, 3),
    gap(6, 8, 5),
    hit(9, 7),
    gap(10, M, 5),
];

/// Seven runs that are asked about with two thresholds.
pub const SEVEN_RUNS: [&[u32]; 7] = [
    &[9],
    &[1, 2, 9, 11],
    &[3, 9, 12, 13],
    &[9, 14, 15, 16],
    &[4, 10, 17, 18],
    &[5, 6, 7, 10],
    &[8, 10, 19, 20],
];

/// The parts of [`seven_and_one`] with threshold 2.
const SEVEN_AND_ONE_PARTS: [Part; 3] = [gap(1, 54, 2), gap(55, 59, 1), gap(60, M, 2)];

/// {10, 20, .., 70} and {55}. With threshold 2 the first search probes, after
/// places 1, 2 and 4, place 5 by halving if that rounds down, but places 6 and 5 if
/// it rounds up.
fn seven_and_one() -> [Vec<u32>; 2] {
    [tens(7), vec![55]]
}

/// The parts of [`sixteen_and_one`] with threshold 2.
pub const SIXTEEN_AND_ONE_PARTS: [Part; 3] = [gap(1, 114, 2), gap(115, 119, 1), gap(120, M, 2)];

/// {10, 20, .., 160} and {115}. With threshold 2 there is one search that
/// probes: after places 1, 2, 4 and 8 it halves at 12, 10 and 11.
pub fn sixteen_and_one() -> [Vec<u32>; 2] {
    [tens(16), vec![115]]
}

/// The first multiples of ten.
fn tens(count: u32) -> Vec<u32> {
    (1..=count).map(|i| 10 * i).collect()
}

/// An answer, for short lists of expected parts.
pub const fn hit(value: u32, mask: u64) -> Part {
    Part::Answer { value, mask }
}

/// A gap, for short lists of expected parts.
pub const fn gap(first: u32, last: u32, mask: u64) -> Part {
    Part::Gap { first, last, mask }
}

/// The outcome of an accepted query; of the probes the doublings come first.
pub const fn accepted(answers: u64, parts: u64, bytes: u64, probes: [u64; 2]) -> Outcome {
    let [doublings, halvings] = probes;
    Outcome::Accepted {
        answers,
        parts,
        bytes,
        doublings,
        halvings,
    }
}

/// The outcome of a refused query.
pub const fn refused(
    number: u8,
    place: u64,
    answers: u64,
    bytes: u64,
    probes: [u64; 2],
) -> Outcome {
    let [doublings, halvings] = probes;
    Outcome::Refused {
        number,
        place,
        answers,
        bytes,
        doublings,
        halvings,
    }
}

/// The outcome of a query that a first check refuses.
pub const fn refused_first(number: u8, place: u64) -> Outcome {
    refused(number, place, 0, 0, [0, 0])
}

/// The values of the answers among some parts.
pub fn answers_of(parts: &[Part]) -> Vec<u32> {
    let value = |part: &Part| match part {
        Part::Answer { value, .. } => Some(*value),
        Part::Gap { .. } => None,
    };
    parts.iter().filter_map(value).collect()
}

/// The row of numbers and the row of ends of some runs.
pub fn lay_out<R: AsRef<[u32]>>(runs: &[R]) -> (Vec<u32>, Vec<u32>) {
    let mut numbers = Vec::new();
    let mut ends = Vec::new();
    for run in runs {
        numbers.extend_from_slice(run.as_ref());
        ends.push(numbers.len() as u32);
    }
    (numbers, ends)
}

/// The runs as slices.
pub fn slices<R: AsRef<[u32]>>(runs: &[R]) -> Vec<&[u32]> {
    runs.iter().map(|run| run.as_ref()).collect()
}

/// All choices of `k` runs over three numbers, the first bin and the last two,
/// each after no unmapped mark, one or two.
pub fn small_inputs(k: u32) -> impl Iterator<Item = Vec<Vec<u32>>> {
    let run = |choice: usize| -> Vec<u32> {
        let is_chosen = |i: &usize| choice >> i & 1 == 1;
        let bins = (0..3).filter(is_chosen).map(|i| [1, M - 1, M][i]);
        iter::repeat_n(0, choice / 8).chain(bins).collect()
    };
    let runs = move |choice| (0..k).map(|i| run(choice / 24_usize.pow(i) % 24)).collect();
    (0..24_usize.pow(k)).map(runs)
}

/// A splitmix64 generator: equal seeds give equal numbers.
pub struct Random(pub u64);

impl Random {
    /// The next 64 bits.
    pub fn bits(&mut self) -> u64 {
        self.0 = self.0.wrapping_add(0x9e37_79b9_7f4a_7c15);
        let mut z = self.0;
        z = (z ^ (z >> 30)).wrapping_mul(0xbf58_476d_1ce4_e5b9);
        z = (z ^ (z >> 27)).wrapping_mul(0x94d0_49bb_1331_11eb);
        z ^ (z >> 31)
    }

    /// Any 32-bit number.
    pub fn word(&mut self) -> u32 {
        self.bits() as u32
    }

    /// A number below `limit`, which is above 0.
    pub fn below(&mut self, limit: usize) -> usize {
        (self.bits() % limit as u64) as usize
    }

    /// A number from `first` to `last`.
    pub fn from_to(&mut self, first: usize, last: usize) -> usize {
        first + self.below(last - first + 1)
    }

    /// True once in `n` times.
    pub fn one_in(&mut self, n: usize) -> bool {
        self.below(n) == 0
    }

    /// One of the choices, of which there is at least one.
    pub fn pick<T: Copy>(&mut self, choices: &[T]) -> T {
        choices[self.below(choices.len())]
    }
}

/// A query with ample buffers and what is expected of it.
#[derive(Clone, Debug)]
pub struct Instance {
    /// What the instance shows.
    pub name: String,
    /// The runs.
    pub runs: Vec<Vec<u32>>,
    /// How many runs must hold an answer, or how much they must weigh.
    pub wanted: Wanted,
    /// The probes allowed: exactly those needed if the query is accepted.
    pub allowance: u32,
    /// The parts written.
    pub parts: Vec<Part>,
    /// What the query returns.
    pub outcome: Outcome,
}

impl Instance {
    fn new<R: AsRef<[u32]>>(
        name: impl Into<String>,
        runs: &[R],
        (threshold, allowance): (u32, u32),
        parts: &[Part],
        outcome: Outcome,
    ) -> Self {
        Instance {
            name: name.into(),
            runs: runs.iter().map(|run| run.as_ref().to_vec()).collect(),
            wanted: Wanted::plain(threshold),
            allowance,
            parts: parts.to_vec(),
            outcome,
        }
    }

    /// Whether the query is accepted.
    pub fn is_accepted(&self) -> bool {
        matches!(self.outcome, Outcome::Accepted { .. })
    }

    /// The answers written.
    pub fn answers(&self) -> Vec<u32> {
        answers_of(&self.parts)
    }
}

/// The instances of docs/SPECIFICATION.md and the edges near them.
pub fn instances() -> Vec<Instance> {
    let against_ten = [vec![100], tens(10)];
    let none: [&[u32]; 0] = [];
    let three = THREE_RUNS_PARTS;
    let sixteen = SIXTEEN_AND_ONE_PARTS;
    let mut all = vec![
        Instance::new(
            "three runs",
            &THREE_RUNS,
            (2, 3),
            &three,
            accepted(2, 6, 106, [3, 0]),
        ),
        Instance::new(
            "three runs, one probe short",
            &THREE_RUNS,
            (2, 2),
            &three[..4],
            refused(7, 4, 1, 72, [2, 0]),
        ),
        Instance::new(
            "three runs, no probe",
            &THREE_RUNS,
            (2, 0),
            &three[..1],
            refused(7, 1, 0, 19, [0, 0]),
        ),
        Instance::new(
            "one number against ten",
            &against_ten,
            (2, 5),
            &[gap(1, 99, 1), hit(100, 3), gap(101, M, 3)],
            accepted(1, 3, 53, [4, 1]),
        ),
        Instance::new(
            "one number against ten, spent in the search",
            &against_ten,
            (2, 3),
            &[gap(1, 99, 1)],
            refused(7, 1, 0, 19, [3, 0]),
        ),
        Instance::new(
            "two blocks",
            &[[1, 2, 3], [4, 5, 6]],
            (2, 2),
            &[gap(1, 3, 2), gap(4, M, 1)],
            accepted(0, 2, 38, [2, 0]),
        ),
        Instance::new(
            "the first bin",
            &[[1]],
            (1, 0),
            &[hit(1, 1), gap(2, M, 1)],
            accepted(1, 2, 34, [0, 0]),
        ),
        Instance::new(
            "one empty run",
            &[[]],
            (1, 0),
            &[gap(1, M, 1)],
            accepted(0, 1, 19, [0, 0]),
        ),
        Instance::new(
            "two equal runs",
            &[[7], [7]],
            (2, 0),
            &[gap(1, 6, 3), hit(7, 3), gap(8, M, 3)],
            accepted(1, 3, 53, [0, 0]),
        ),
        Instance::new(
            "seven runs, all",
            &SEVEN_RUNS,
            (7, 11),
            &[gap(1, 8, 9), gap(9, 9, 112), gap(10, M, 1)],
            accepted(0, 3, 57, [10, 1]),
        ),
        Instance::new(
            "seven runs, four",
            &SEVEN_RUNS,
            (4, 13),
            &[
                gap(1, 4, 105),
                gap(5, 8, 31),
                hit(9, 15),
                gap(10, 10, 15),
                gap(11, 16, 113),
                gap(17, M, 47),
            ],
            accepted(1, 6, 110, [12, 1]),
        ),
        Instance::new(
            "halving rounds down",
            &seven_and_one(),
            (2, 4),
            &SEVEN_AND_ONE_PARTS,
            accepted(0, 3, 57, [3, 1]),
        ),
        Instance::new(
            "one number among sixteen",
            &sixteen_and_one(),
            (2, 7),
            &sixteen,
            accepted(0, 3, 57, [4, 3]),
        ),
        // A largest number that too few runs hold is a gap of its own.
        Instance::new(
            "no answer at the largest number",
            &[[3], [M]],
            (2, 0),
            &[gap(1, M - 1, 2), gap(M, M, 1)],
            accepted(0, 2, 38, [0, 0]),
        ),
        Instance::new("no runs", &none, (1, 0), &[], refused_first(1, 0)),
        Instance::new("65 runs", &[[7]; 65], (64, 0), &[], refused_first(1, 65)),
        Instance::new(
            "a run that repeats a number",
            &[[3, 3]],
            (1, 0),
            &[],
            refused_first(4, 1),
        ),
    ];
    all.extend(marks::instances());
    all.extend(weights::instances());
    // Cut in its doubling, at the seam and in its halving.
    for (allowance, probes) in [(3, [3, 0]), (4, [4, 0]), (5, [4, 1]), (6, [4, 2])] {
        all.push(Instance::new(
            format!("one number among sixteen, allowance {allowance}"),
            &sixteen_and_one(),
            (2, allowance),
            &sixteen[..1],
            refused(7, 1, 0, 19, probes),
        ));
    }
    for k in 1..=64 {
        let runs = vec![[7]; k as usize];
        let mask = u64::MAX >> (64 - k);
        let parts = [gap(1, 6, mask), hit(7, mask), gap(8, M, mask)];
        let named = |rest: &str| format!("{k} equal runs, {rest}");
        let whole = accepted(1, 3, 53, [0, 0]);
        let above = refused_first(2, u64::from(k) + 1);
        all.extend([
            Instance::new(named("all"), &runs, (k, 0), &parts, whole),
            Instance::new(named("one too many"), &runs, (k + 1, 0), &[], above),
            Instance::new(named("none"), &runs, (0, 0), &[], refused_first(2, 0)),
        ]);
    }
    all
}

/// The certificates of the specification's instances, checked for
/// [`THREE_RUNS`] with threshold 2, and the verdict on each. Marks in front of the
/// runs change none.
pub fn checked_instances() -> Vec<(Vec<u8>, Verdict)> {
    let parts = THREE_RUNS_PARTS;
    let whole = encode(&parts);
    let with_mask_11 = [&[gap(1, 1, 11)], &parts[1..]].concat();
    let from_0 = [&[gap(0, 1, 3)], &parts[1..]].concat();
    let and_before = |part| encode(&[&[part], &parts[..]].concat());
    let and_then = |part| encode(&[&parts[..2], &[part]].concat());
    let refused = |number, place| Verdict::Invalid { number, place };
    let accepted = Verdict::Valid {
        answers: 2,
        parts: 6,
    };
    vec![
        (whole.clone(), accepted),
        (vec![], refused(9, 0)),
        (whole[..105].to_vec(), refused(8, 87)),
        ([&whole[..], &[7]].concat(), refused(8, 106)),
        ([&whole[..], &whole[..19]].concat(), refused(9, 106)),
        (encode(&with_mask_11), refused(10, 0)),
        (encode(&parts[..2]), refused(9, 38)),
        (and_then(hit(5, 1)), refused(10, 38)),
        (and_then(hit(5, 5)), refused(11, 38)),
        (encode(&[gap(1, M, 7)]), refused(11, 0)),
        (encode(&[gap(0, M, 7)]), refused(9, 0)),
        // True but for bin 0, which they cover too.
        (encode(&from_0), refused(9, 0)),
        (and_before(gap(0, 0, 7)), refused(9, 0)),
        (and_before(hit(0, 7)), refused(9, 0)),
    ]
}
