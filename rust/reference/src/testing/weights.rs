//! Weights of runs: random ones, and the specification's instances.

use super::{
    accepted, gap, hit, marked, refused, refused_first, Instance, Random, M, THREE_RUNS,
    THREE_RUNS_PARTS,
};
use crate::{
    all_runs, encode, named_runs, Outcome, Part, Verdict, Weighting, MAX_RUNS, MAX_WEIGHT,
};

/// The parts of [`THREE_RUNS`] with weights 3, 1 and 1 and a wanted weight of 3.
pub const THREE_WEIGHTED_PARTS: [Part; 7] = [
    gap(1, 1, 3),
    hit(2, 1),
    gap(3, 4, 7),
    hit(5, 3),
    gap(6, 8, 5),
    hit(9, 7),
    gap(10, M, 5),
];

/// What a question wants of its runs: a number of them, or a weight.
#[derive(Clone, Debug, PartialEq, Eq)]
pub struct Wanted {
    /// What each run weighs, if weights are given.
    pub weights: Option<Vec<u32>>,
    /// How many runs hold an answer at least, or how much they weigh.
    pub threshold: u32,
}

impl Wanted {
    /// So many runs.
    pub fn plain(threshold: u32) -> Self {
        let weights = None;
        Wanted { weights, threshold }
    }

    /// So much of runs of these weights.
    pub fn weighted(weights: &[u32], threshold: u32) -> Self {
        let weights = Some(weights.to_vec());
        Wanted { weights, threshold }
    }

    /// Anything that `k` runs can reach, `k` above 0; with weights in half of all
    /// cases.
    pub fn any(random: &mut Random, k: usize) -> Self {
        match random.one_in(2) {
            true => Wanted::any_weighted(random, k),
            false => Wanted::plain(random.from_to(1, k) as u32),
        }
    }

    /// The same with weights in all cases.
    pub fn any_weighted(random: &mut Random, k: usize) -> Self {
        let weights = any_weights(random, k);
        Wanted::any_of(random, &weights)
    }

    /// Anything that runs of these weights can reach, of which there is at least
    /// one: the weight of some of them, one more than that, 1, that of all, or any.
    pub fn any_of(random: &mut Random, weights: &[u32]) -> Self {
        let total = weights.iter().sum::<u32>();
        let wanted = match random.below(8) {
            0 => random.pick(&[1, 2, total]),
            1 | 2 => random.from_to(1, total as usize) as u32,
            n => {
                let some = weights.iter().filter(|_| random.one_in(2));
                some.sum::<u32>() + u32::from(n == 3)
            }
        };
        Wanted::weighted(weights, wanted.clamp(1, total))
    }

    /// What it says of the weights.
    pub fn weighting(&self) -> Weighting<'_> {
        match &self.weights {
            None => Weighting::Plain,
            Some(weights) => Weighting::Given(weights),
        }
    }
}

/// Weights of `k` runs: all 1, all 255 or all the same, small, large or any, one
/// that is as heavy as the others together, or a few that are heavier.
pub fn any_weights(random: &mut Random, k: usize) -> Vec<u32> {
    let most = MAX_WEIGHT as usize;
    let kind = random.below(8);
    let same = match kind {
        0 => 1,
        1 => most,
        _ => random.from_to(1, most),
    };
    let weight = |random: &mut Random| match kind {
        0..=2 => same,
        3 | 4 => random.from_to(1, 3),
        5 => random.from_to(200, most),
        6 if random.one_in(8) => random.pick(&[8, 16, most]),
        6 => 1,
        _ => random.from_to(1, most),
    };
    let mut weights: Vec<u32> = (0..k).map(|_| weight(random) as u32).collect();
    if kind == 4 && k > 0 {
        let heavy = random.below(k);
        let others = weights.iter().sum::<u32>() - weights[heavy];
        weights[heavy] = (others + random.below(3) as u32).clamp(2, MAX_WEIGHT + 1) - 1;
    }
    weights
}

/// Breaks a row of weights in one way: another length, or a weight that is 0 or
/// above 255, of which some are no more than 255 in their low 8 or 16 bits. Several
/// such weights in one case of four.
pub fn break_weights(random: &mut Random, weights: &mut Vec<u32>) {
    match random.below(8) {
        0 => drop(weights.pop()),
        1 => weights.push(random.pick(&[1, 0, MAX_WEIGHT])),
        2 => weights.clear(),
        n => {
            for _ in 0..if n == 3 { 3 } else { 1 } {
                let bad = [0, 0, 256, 256, 257, 511, 0x0001_0001, M, M - 254, 1 << 31];
                if let Some(last) = weights.len().checked_sub(1) {
                    let any = random.below(weights.len());
                    weights[random.pick(&[0, last, any, any])] = random.pick(&bad);
                }
            }
        }
    }
}

/// An instance with weights.
fn weighted<R: AsRef<[u32]>>(
    name: impl Into<String>,
    runs: &[R],
    weights: &[u32],
    question: (u32, u32),
    parts: &[Part],
    outcome: Outcome,
) -> Instance {
    Instance {
        wanted: Wanted::weighted(weights, question.0),
        ..Instance::new(name, runs, question, parts, outcome)
    }
}

/// Queries over runs with weights.
pub(super) fn instances() -> Vec<Instance> {
    let three = &THREE_WEIGHTED_PARTS;
    let rising: [&[u32]; 3] = [&[1, 4], &[2, 4], &[3, 4]];
    let mut all = vec![
        weighted(
            "three runs, the first weighs three",
            &THREE_RUNS,
            &[3, 1, 1],
            (3, 2),
            three,
            accepted(3, 7, 121, [2, 0]),
        ),
        weighted(
            "three runs, the first weighs three, one probe short",
            &THREE_RUNS,
            &[3, 1, 1],
            (3, 1),
            &three[..5],
            refused(7, 5, 2, 87, [1, 0]),
        ),
        weighted(
            "three runs, the first and another",
            &THREE_RUNS,
            &[3, 1, 1],
            (4, 3),
            &THREE_RUNS_PARTS,
            accepted(2, 6, 106, [3, 0]),
        ),
        weighted(
            "three runs of weight 1",
            &THREE_RUNS,
            &[1, 1, 1],
            (2, 3),
            &THREE_RUNS_PARTS,
            accepted(2, 6, 106, [3, 0]),
        ),
        weighted(
            "three runs of weight 1, one probe short",
            &THREE_RUNS,
            &[1, 1, 1],
            (2, 2),
            &THREE_RUNS_PARTS[..4],
            refused(7, 4, 1, 72, [2, 0]),
        ),
        weighted(
            "three runs of the largest weight, more than one of them",
            &THREE_RUNS,
            &[255, 255, 255],
            (256, 3),
            &THREE_RUNS_PARTS,
            accepted(2, 6, 106, [3, 0]),
        ),
        weighted(
            "the heaviest, or the others together",
            &rising,
            &[1, 2, 3],
            (3, 2),
            &[
                gap(1, 1, 6),
                gap(2, 2, 5),
                hit(3, 4),
                hit(4, 7),
                gap(5, M, 7),
            ],
            accepted(2, 5, 87, [2, 0]),
        ),
        weighted(
            "all three weights",
            &rising,
            &[1, 2, 3],
            (6, 3),
            &[gap(1, 2, 4), gap(3, 3, 3), hit(4, 7), gap(5, M, 7)],
            accepted(1, 4, 72, [3, 0]),
        ),
        // Two runs have a head when run 0 has none, and they are not heavy enough.
        weighted(
            "the heavy run ends first",
            &[vec![5], vec![7, 9], vec![7, 9]],
            &[8, 1, 1],
            (3, 0),
            &[gap(1, 4, 7), hit(5, 1), gap(6, M, 1)],
            accepted(1, 3, 53, [0, 0]),
        ),
        // One run of three is enough, at a head that is not the third.
        weighted(
            "the heavy run is the second of three",
            &[vec![5, 9], vec![7, 9], vec![8, 9]],
            &[1, 3, 1],
            (3, 2),
            &[
                gap(1, 6, 6),
                hit(7, 2),
                gap(8, 8, 3),
                hit(9, 7),
                gap(10, M, 7),
            ],
            accepted(2, 5, 87, [2, 0]),
        ),
    ];
    for marks in [[1, 0, 2], [3, 64, 129]] {
        all.push(weighted(
            format!("three runs, the first weighs three, after {marks:?} marks"),
            &marked(&THREE_RUNS, &marks),
            &[3, 1, 1],
            (3, 2),
            three,
            accepted(3, 7, 121, [2, 0]),
        ));
    }
    all.extend(limits());
    all.extend(refusals());
    all
}

/// As many runs as there may be, each as heavy as it may be, and one run more.
fn limits() -> Vec<Instance> {
    let mut all = Vec::new();
    for k in 1..=MAX_RUNS {
        let runs = vec![[7]; k];
        let weights = vec![MAX_WEIGHT; k];
        let total = MAX_WEIGHT * k as u32;
        let mask = all_runs(k);
        let parts = [gap(1, 6, mask), hit(7, mask), gap(8, M, mask)];
        let whole = accepted(1, 3, 53, [0, 0]);
        let named = |wanted: u32| format!("{k} equal runs of the largest weight, {wanted}");
        for wanted in [1, MAX_WEIGHT, total - 1, total] {
            let name = named(wanted);
            all.push(weighted(name, &runs, &weights, (wanted, 0), &parts, whole));
        }
        for wanted in [0, total + 1, M] {
            let refusal = refused_first(2, wanted.into());
            let (name, question) = (named(wanted), (wanted, 0));
            all.push(weighted(name, &runs, &weights, question, &[], refusal));
        }
    }
    for wanted in [0, 1, MAX_WEIGHT * 65] {
        let refusal = refused_first(1, 65);
        for weights in [&[MAX_WEIGHT; 65][..], &[0; 65], &[1; 64], &[]] {
            let (name, runs) = ("65 runs with weights", [[7]; 65]);
            all.push(weighted(name, &runs, weights, (wanted, 0), &[], refusal));
        }
    }
    all
}

/// Weights that are refused, and in which order.
fn refusals() -> Vec<Instance> {
    let none: [&[u32]; 0] = [];
    let (two, three) = ([[7], [7]], [vec![7], vec![9], vec![]]);
    let broken = [[3, 3], [7, 9]];
    let refused = |name: &str, runs: &[Vec<u32>], weights: &[u32], wanted, number, place| {
        let refusal = refused_first(number, place);
        weighted(name, runs, weights, (wanted, 9), &[], refusal)
    };
    let two = two.map(|run: [u32; 1]| run.to_vec());
    let broken = broken.map(|run| run.to_vec());
    let none = none.map(|run| run.to_vec());
    vec![
        refused("two runs and one weight", &two, &[1], 1, 17, 2),
        refused("two runs and no weight", &two, &[], 1, 17, 2),
        refused("two runs and three weights", &two, &[1, 1, 1], 1, 17, 2),
        refused("a weight of 0", &two, &[0, 256], 1, 17, 0),
        refused("a weight of 256", &two, &[1, 256], 9, 17, 1),
        refused("the largest number as a weight", &two, &[M, 1], 1, 17, 0),
        refused(
            "weights whose sum is too large",
            &two,
            &[255, M],
            254,
            17,
            1,
        ),
        refused("the last of three weights", &three, &[255, 1, 0], 1, 17, 2),
        refused("the length before the weights", &two, &[0], 1, 17, 2),
        refused("three weights, one of them 0", &two, &[0, 1, 1], 1, 17, 2),
        refused("the length first", &two, &[1, 1, 0], 1, 17, 2),
        refused("17 before 2", &two, &[0, 1], 0, 17, 0),
        refused("the length before 2", &two, &[1, 1, 1], 4, 17, 2),
        refused("17 before 4", &broken, &[1, 256], 1, 17, 1),
        refused("2 before 4", &broken, &[1, 255], 257, 2, 257),
        refused("4 after all weights", &broken, &[1, 255], 256, 4, 1),
        refused("one more than two weigh", &two, &[1, 255], 257, 2, 257),
        refused("nothing of two", &two, &[1, 255], 0, 2, 0),
        refused("above the weight of all", &three, &[1, 2, 3], 7, 2, 7),
        refused("nothing is wanted", &three, &[1, 2, 3], 0, 2, 0),
        refused("no runs and no weights", &none, &[], 1, 1, 0),
        refused("no runs and a weight", &none, &[0], 0, 1, 0),
    ]
}

/// Certificates checked for [`THREE_RUNS`] with weights: the weights, the wanted
/// weight, the certificate's bytes and the verdict. Marks in front of the runs
/// change none.
pub fn weighted_checks() -> Vec<(Vec<u32>, u32, Vec<u8>, Verdict)> {
    let valid = |answers, parts| Verdict::Valid { answers, parts };
    let invalid = |number, place| Verdict::Invalid { number, place };
    let of = |weights: &[u32], wanted, parts: &[Part], verdict| {
        (weights.to_vec(), wanted, encode(parts), verdict)
    };
    let (own, plain) = (&THREE_WEIGHTED_PARTS, &THREE_RUNS_PARTS);
    let beyond = [&[gap(1, 1, 11)], &own[1..]].concat();
    let contradicted = [&own[..2], &[gap(3, 5, 7)]].concat();
    let from_0 = [&[gap(0, 1, 3)], &own[1..]].concat();
    // The first run alone is enough for 9, and no other for 2.
    let fewer = [&own[..5], &[hit(9, 1)], &own[6..]].concat();
    let other = [&own[..5], &[hit(9, 6)], &own[6..]].concat();
    // Run 0 is left out, which weighs enough; and it alone is named, the others
    // weighing too little.
    let without_first = [&[gap(1, 1, 2)], &own[1..]].concat();
    let first_alone = [&[gap(1, 1, 1)], &plain[1..]].concat();
    vec![
        of(&[3, 1, 1], 3, own, valid(3, 7)),
        of(&[3, 1, 1], 3, &fewer, valid(3, 7)),
        // Two runs are named, and they weigh too little.
        of(&[3, 1, 1], 3, &other, invalid(10, 87)),
        of(&[1, 1, 1], 2, plain, valid(2, 6)),
        of(&[3, 1, 1], 4, plain, valid(2, 6)),
        of(&[3, 1, 1], 4, &first_alone, valid(2, 6)),
        of(&[3, 1, 1], 3, &without_first, invalid(10, 0)),
        // The gap from 2 to 4 leaves out the run that weighs three.
        of(&[3, 1, 1], 3, plain, invalid(10, 19)),
        // One run is not enough for the answer 2.
        of(&[1, 1, 1], 2, own, invalid(10, 19)),
        of(&[3, 1, 1], 4, own, invalid(10, 19)),
        of(&[3, 1, 1], 3, &beyond, invalid(10, 0)),
        of(&[3, 1, 1], 3, &contradicted, invalid(11, 34)),
        of(&[3, 1, 1], 3, &from_0, invalid(9, 0)),
        of(&[3, 1, 1], 3, &own[..6], invalid(9, 102)),
        of(&[3, 1, 1], 3, &[], invalid(9, 0)),
        of(&[255, 255, 255], 765, &[gap(1, 8, 4)], invalid(11, 0)),
        of(&[3, 1], 3, own, invalid(17, 3)),
        of(&[3, 1, 1, 1], 3, own, invalid(17, 3)),
        of(&[3, 1, 0], 3, own, invalid(17, 2)),
        of(&[3, 1, 256], 3, own, invalid(17, 2)),
        of(&[256, 1, 0], 3, own, invalid(17, 0)),
        of(&[3, 256, 1], 0, own, invalid(17, 1)),
        of(&[3, 1, 1], 0, own, invalid(2, 0)),
        of(&[3, 1, 1], 6, own, invalid(2, 6)),
        of(&[3, 1, 1], M, own, invalid(2, M.into())),
    ]
}

/// What the runs that the mask names weigh.
pub fn weight_of(weights: &[u32], mask: u64) -> u32 {
    named_runs(mask).map(|i| weights[i]).sum()
}
