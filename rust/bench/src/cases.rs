//! The cases of the tables: a shape of input, a number of runs and a
//! threshold, perhaps with zeros before each run or with weights, or asked about the
//! first run; or a pair of runs; or a tracefile.

use crate::inputs::{self, Input, NUMBERS};
use crate::tracefiles;
use reference::testing::Random;
use std::fmt;

/// One line of a table. [`Display`](fmt::Display) gives its name, as
/// `dense k=8 t=2`.
#[derive(Clone, Copy)]
pub struct Case {
    /// The name of the input's shape.
    pub shape: &'static str,
    input: fn(usize, usize) -> Input,
    /// The number of runs.
    pub runs: usize,
    /// How many runs must hold an answer.
    pub threshold: usize,
}

impl fmt::Display for Case {
    fn fmt(&self, f: &mut fmt::Formatter<'_>) -> fmt::Result {
        write!(f, "{} k={} t={}", self.shape, self.runs, self.threshold)
    }
}

impl Case {
    /// The input with so many numbers, or as many as make equal runs.
    pub fn input(&self, count: usize) -> Input {
        (self.input)(self.runs, count)
    }
}

/// One line of the table about zeros: a case whose runs are timed after as many
/// zeros as each has numbers, and without. [`Display`](fmt::Display) gives its name, as `half
/// zeros, dense k=64 t=32`.
#[derive(Clone, Copy)]
pub struct HalfZeros(pub Case);

impl fmt::Display for HalfZeros {
    fn fmt(&self, f: &mut fmt::Formatter<'_>) -> fmt::Result {
        write!(f, "half zeros, {}", self.0)
    }
}

/// What the runs of a question weigh.
#[derive(Clone, Copy, PartialEq, Eq)]
pub enum Weights {
    /// 1 each.
    Ones,
    /// One run in eight weighs 8, the others 1.
    Eights,
    /// Any weight that a run may have.
    Any,
}

impl fmt::Display for Weights {
    fn fmt(&self, f: &mut fmt::Formatter<'_>) -> fmt::Result {
        f.pad(match self {
            Weights::Ones => "all 1",
            Weights::Eights => "1 and 8",
            Weights::Any => "1 to 255",
        })
    }
}

/// One line of the table about weights. [`Display`](fmt::Display) gives its name,
/// as `weights 1 and 8, dense k=64 wanted=60`.
#[derive(Clone, Copy)]
pub struct Weighted {
    /// The case without weights.
    pub case: Case,
    /// What its runs weigh.
    pub weights: Weights,
}

impl Weighted {
    /// What each run weighs.
    pub fn row(&self) -> Vec<u32> {
        let mut random = Random(6);
        let weight = |i: usize| match self.weights {
            Weights::Ones => 1,
            Weights::Eights if i % 8 == 3 => 8,
            Weights::Eights => 1,
            Weights::Any => random.from_to(1, 255) as u32,
        };
        (0..self.case.runs).map(weight).collect()
    }

    /// The share of all weights that the threshold is of all runs.
    pub fn wanted(&self) -> u32 {
        let (t, k) = (self.case.threshold as u32, self.case.runs as u32);
        (self.row().iter().sum::<u32>() * t).div_ceil(k)
    }
}

impl fmt::Display for Weighted {
    fn fmt(&self, f: &mut fmt::Formatter<'_>) -> fmt::Result {
        let Case { shape, runs, .. } = self.case;
        let (weights, wanted) = (self.weights, self.wanted());
        write!(f, "weights {weights}, {shape} k={runs} wanted={wanted}")
    }
}

/// One line of the table about what the first run holds alone; the threshold is of
/// the other runs. [`Display`](fmt::Display) gives its name, as `alone, dense k=8
/// t=2`.
#[derive(Clone, Copy)]
pub struct Alone(pub Case);

impl fmt::Display for Alone {
    fn fmt(&self, f: &mut fmt::Formatter<'_>) -> fmt::Result {
        write!(f, "alone, {}", self.0)
    }
}

/// One line of the table about what both of two runs hold.
/// [`Display`](fmt::Display) gives its name, as `pair, dense`.
#[derive(Clone, Copy)]
pub struct Pair(pub Case);

impl Pair {
    /// Two runs with as many numbers as are allowed, none of them a 0.
    pub fn input(&self) -> Input {
        self.0.input(NUMBERS).raised()
    }
}

impl fmt::Display for Pair {
    fn fmt(&self, f: &mut fmt::Formatter<'_>) -> fmt::Result {
        write!(f, "pair, {}", self.0.shape)
    }
}

/// A shape's name, its input of so many runs and numbers, and the numbers of runs
/// that it is tried with.
type Shape = (&'static str, fn(usize, usize) -> Input, &'static [usize]);

const QUERIED: [Shape; 6] = [
    ("dense", inputs::dense, &[2, 8, 64]),
    ("sparse", inputs::sparse, &[2, 8, 64]),
    ("nearly disjoint", inputs::nearly_disjoint, &[2, 8, 64]),
    ("blocks", inputs::blocks, &[2, 8, 64]),
    ("skewed", inputs::skewed, &[2]),
    ("half zeros", inputs::half_zeros, &[64]),
];

const CHECKED: [Shape; 4] = [
    ("dense", inputs::dense, &[64]),
    ("sparse", inputs::sparse, &[64]),
    ("nearly disjoint", inputs::nearly_disjoint, &[64]),
    ("half zeros", inputs::half_zeros, &[64]),
];

const ASKED_TOGETHER: [Shape; 4] = [
    ("dense", inputs::dense, &[64]),
    ("sparse", inputs::sparse, &[64]),
    ("nearly disjoint", inputs::nearly_disjoint, &[64]),
    ("blocks", inputs::blocks, &[64]),
];

const WEIGHTED: [Shape; 5] = [
    ("dense", inputs::dense, &[8, 60, 64]),
    ("sparse", inputs::sparse, &[8, 60, 64]),
    ("nearly disjoint", inputs::nearly_disjoint, &[8, 60, 64]),
    ("blocks", inputs::blocks, &[8, 60, 64]),
    ("skewed", inputs::skewed, &[2]),
];

const ALONE: [Shape; 4] = [
    ("dense", inputs::dense, &[2, 8, 64]),
    ("sparse", inputs::sparse, &[2, 8, 64]),
    ("nearly disjoint", inputs::nearly_disjoint, &[2, 8, 64]),
    ("blocks", inputs::blocks, &[2, 8, 64]),
];

const PAIRS: [Shape; 6] = [
    ("1,024 numbers against the rest", inputs::skewed, &[2]),
    (
        "equal lengths interleaved, none in common",
        inputs::interleaved,
        &[2],
    ),
    (
        "equal lengths, random, none in common",
        inputs::disjoint,
        &[2],
    ),
    ("dense", inputs::half_dense, &[2]),
    ("equal runs", inputs::equal, &[2]),
    ("one block after the other", inputs::blocks_in_order, &[2]),
];

/// The cases of the first table, in which queries are timed.
pub fn queried() -> Vec<Case> {
    cases(&QUERIED, all_thresholds)
}

/// One, two, half and all of so many runs.
fn all_thresholds(k: usize) -> Vec<usize> {
    let mut thresholds = vec![1, 2, k / 2, k];
    thresholds.sort_unstable();
    thresholds.dedup();
    thresholds
}

/// The cases of the second table, in which checks are timed.
pub fn checked() -> Vec<Case> {
    cases(&CHECKED, |k| vec![1, 2, k / 2])
}

/// The cases of the third table, in which many questions in one call are timed.
pub fn asked_together() -> Vec<Case> {
    cases(&ASKED_TOGETHER, |k| vec![k / 2])
}

/// The cases of the fourth table, in which they are timed after zeros.
pub fn half_zeros() -> Vec<HalfZeros> {
    asked_together().into_iter().map(HalfZeros).collect()
}

/// The cases of the fifth table, in which queries and checks by weight are timed:
/// with all weights 1, and, where there are many runs, with others.
pub fn weighted() -> Vec<Weighted> {
    let kinds = [Weights::Ones, Weights::Eights, Weights::Any];
    let with_weights = |case: Case| {
        let kinds = &kinds[..if case.runs < 60 { 1 } else { 3 }];
        kinds.iter().map(move |&weights| Weighted { case, weights })
    };
    let cases = cases(&WEIGHTED, all_thresholds).into_iter();
    cases.flat_map(with_weights).collect()
}

/// The cases of the sixth table, in which is timed what the first run holds alone.
pub fn alone() -> Vec<Alone> {
    let of_others = |k| match k {
        2 => vec![1],
        _ => all_thresholds(k - 1),
    };
    cases(&ALONE, of_others).into_iter().map(Alone).collect()
}

/// The cases of the seventh table, in which is timed what both of two runs hold.
pub fn pairs() -> Vec<Pair> {
    cases(&PAIRS, |k| vec![k]).into_iter().map(Pair).collect()
}

fn cases(shapes: &[Shape], thresholds: fn(usize) -> Vec<usize>) -> Vec<Case> {
    let mut cases = Vec::new();
    for &(shape, input, runs) in shapes {
        for &runs in runs {
            cases.extend(thresholds(runs).into_iter().map(|threshold| Case {
                shape,
                input,
                runs,
                threshold,
            }));
        }
    }
    cases
}

impl AsRef<Case> for Case {
    fn as_ref(&self) -> &Case {
        self
    }
}

impl AsRef<Case> for Weighted {
    fn as_ref(&self) -> &Case {
        &self.case
    }
}

impl AsRef<Case> for Alone {
    fn as_ref(&self) -> &Case {
        &self.0
    }
}

/// The cases with their inputs, each of which is made once for all cases that
/// follow one another with it.
pub fn with_inputs<C: AsRef<Case>>(cases: &[C]) -> impl Iterator<Item = (&[C], Input)> {
    let input_of = |case: &C| (case.as_ref().shape, case.as_ref().runs);
    let groups = cases.chunk_by(move |a, b| input_of(a) == input_of(b));
    groups.map(|group| (group, group[0].as_ref().input(NUMBERS)))
}

/// The cases of the tables that are measured.
pub struct Selected {
    /// Those of the first table.
    pub queried: Vec<Case>,
    /// Those of the second table.
    pub checked: Vec<Case>,
    /// Those of the third table.
    pub asked_together: Vec<Case>,
    /// Those of the fourth table.
    pub half_zeros: Vec<HalfZeros>,
    /// Those of the fifth table.
    pub weighted: Vec<Weighted>,
    /// Those of the sixth table.
    pub alone: Vec<Alone>,
    /// Those of the seventh table.
    pub pairs: Vec<Pair>,
    /// Those of the eighth table.
    pub read: Vec<tracefiles::Case>,
}

/// Returns the cases whose names have the substring. If there are none, an
/// error that lists all names. Each case of the second and the third table is one
/// of the first too.
pub fn select(substring: &str) -> Result<Selected, String> {
    let selected = Selected {
        queried: having(substring, queried()),
        checked: having(substring, checked()),
        asked_together: having(substring, asked_together()),
        half_zeros: having(substring, half_zeros()),
        weighted: having(substring, weighted()),
        alone: having(substring, alone()),
        pairs: having(substring, pairs()),
        read: having(substring, tracefiles::cases()),
    };
    let Selected {
        queried,
        half_zeros,
        weighted,
        alone,
        pairs,
        read,
        ..
    } = &selected;
    let is_none = queried.is_empty() && half_zeros.is_empty() && weighted.is_empty();
    if is_none && alone.is_empty() && pairs.is_empty() && read.is_empty() {
        return Err(format!(
            "no case has `{substring}` in its name; there are\n{}",
            all_names().join("\n")
        ));
    }
    Ok(selected)
}

/// The cases whose names have the substring.
fn having<C: fmt::Display>(substring: &str, mut cases: Vec<C>) -> Vec<C> {
    cases.retain(|case| case.to_string().contains(substring));
    cases
}

/// The names of all cases.
fn all_names() -> Vec<String> {
    [
        names(&queried()),
        names(&half_zeros()),
        names(&weighted()),
        names(&alone()),
        names(&pairs()),
        names(&tracefiles::cases()),
    ]
    .concat()
}

fn names<C: fmt::Display>(cases: &[C]) -> Vec<String> {
    cases.iter().map(C::to_string).collect()
}

#[cfg(test)]
mod tests {
    use super::*;

    const TRACEFILES: [&str; 2] = ["tracefile, last section", "tracefile, one section"];

    #[test]
    fn all_cases() {
        let all = select("").unwrap();
        let counts = [&all.queried, &all.checked, &all.asked_together].map(Vec::len);
        assert_eq!(counts, [46, 12, 4]);
        assert_eq!((all.half_zeros.len(), all.weighted.len()), (4, 114));
        assert_eq!((all.alone.len(), all.pairs.len()), (36, 6));
        assert_eq!(
            names(&all.queried)[..3],
            ["dense k=2 t=1", "dense k=2 t=2", "dense k=8 t=1"]
        );
        assert_eq!(names(&all.read), TRACEFILES);
    }

    #[test]
    fn all_cases_are_queried() {
        let all = names(&queried());
        let others = [checked(), asked_together()].concat();
        assert!(names(&others).iter().all(|name| all.contains(name)));
    }

    #[test]
    fn a_substring_selects() {
        let some = select("dense k=64 t=").unwrap();
        assert_eq!(
            names(&some.queried),
            [
                "dense k=64 t=1",
                "dense k=64 t=2",
                "dense k=64 t=32",
                "dense k=64 t=64"
            ]
        );
        assert_eq!(
            names(&some.checked),
            ["dense k=64 t=1", "dense k=64 t=2", "dense k=64 t=32"]
        );
        assert_eq!(names(&some.asked_together), ["dense k=64 t=32"]);
        assert_eq!(names(&some.half_zeros), ["half zeros, dense k=64 t=32"]);
        assert!(some.weighted.is_empty() && some.read.is_empty());
        assert_eq!(
            names(&some.alone),
            [
                "alone, dense k=64 t=1",
                "alone, dense k=64 t=2",
                "alone, dense k=64 t=31",
                "alone, dense k=64 t=63"
            ]
        );
        let alone = select("alone, sparse k=2").unwrap();
        assert_eq!(names(&alone.alone), ["alone, sparse k=2 t=1"]);
        assert!(alone.queried.is_empty() && alone.weighted.is_empty());
        let pairs = select("none in common").unwrap();
        assert_eq!(
            names(&pairs.pairs),
            [
                "pair, equal lengths interleaved, none in common",
                "pair, equal lengths, random, none in common"
            ]
        );
        assert!(pairs.queried.is_empty() && pairs.alone.is_empty());
        let one = select("skewed k=2 t=2").unwrap();
        assert_eq!(names(&one.queried), ["skewed k=2 t=2"]);
        assert!(one.checked.is_empty() && one.asked_together.is_empty());
        let zeros = select("half zeros, blocks").unwrap();
        assert_eq!(names(&zeros.half_zeros), ["half zeros, blocks k=64 t=32"]);
        assert!(zeros.queried.is_empty() && zeros.read.is_empty());
        let weights = select("nearly disjoint k=64 wanted=").unwrap();
        let names_of = names(&weights.weighted);
        assert_eq!(
            names_of[..3],
            [
                "weights all 1, nearly disjoint k=64 wanted=1",
                "weights 1 and 8, nearly disjoint k=64 wanted=2",
                "weights 1 to 255, nearly disjoint k=64 wanted=132"
            ]
        );
        assert_eq!(names_of.len(), 12);
        assert!(weights.queried.is_empty() && weights.read.is_empty());
        let sixty = select("k=60").unwrap();
        let names_of = names(&sixty.weighted);
        assert_eq!(
            names_of[9..13],
            [
                "weights all 1, dense k=60 wanted=60",
                "weights 1 and 8, dense k=60 wanted=116",
                "weights 1 to 255, dense k=60 wanted=7881",
                "weights all 1, sparse k=60 wanted=1"
            ]
        );
        assert_eq!(names_of.len(), 48);
        assert!(sixty.queried.is_empty() && sixty.read.is_empty());
        let few = select("weights all 1, dense k=8").unwrap();
        assert_eq!(few.weighted.len(), 4);
        let read = select("tracefile, last").unwrap();
        assert_eq!(names(&read.read), TRACEFILES[..1]);
        assert!(read.queried.is_empty() && read.checked.is_empty());
    }

    #[test]
    fn an_unknown_name_lists_all() {
        let error = select("denser").err().unwrap();
        let mut lines = error.lines();
        assert_eq!(
            lines.next(),
            Some("no case has `denser` in its name; there are")
        );
        let all = [
            names(&queried()),
            names(&half_zeros()),
            names(&weighted()),
            names(&alone()),
            names(&pairs()),
            TRACEFILES.map(str::to_string).to_vec(),
        ];
        assert!(lines.eq(all.concat()));
    }

    /// The weights are some that a run may have, and what is wanted can be reached.
    #[test]
    fn weights() {
        for weighted in weighted() {
            let row = weighted.row();
            assert_eq!(row.len(), weighted.case.runs);
            assert!(row.iter().all(|weight| (1..=255).contains(weight)));
            assert!((1..=row.iter().sum()).contains(&weighted.wanted()));
            if weighted.weights == Weights::Ones {
                assert_eq!(weighted.wanted() as usize, weighted.case.threshold);
            }
        }
    }

    #[test]
    fn pairs_of_runs() {
        for pair in pairs() {
            let Input { numbers, ends } = pair.input();
            assert_eq!((numbers.len(), ends.len()), (NUMBERS, 2), "{pair}");
            assert!(!numbers.contains(&0), "{pair}");
        }
    }

    #[test]
    fn one_input_for_neighbours() {
        let cases = select("skewed").unwrap().queried;
        let groups: Vec<usize> = with_inputs(&cases).map(|(group, _)| group.len()).collect();
        assert_eq!(groups, [2]);
        let cases = select("skewed").unwrap().weighted;
        let groups: Vec<usize> = with_inputs(&cases).map(|(group, _)| group.len()).collect();
        assert_eq!(groups, [2]);
        let cases = select("alone, blocks").unwrap().alone;
        let groups: Vec<usize> = with_inputs(&cases).map(|(group, _)| group.len()).collect();
        assert_eq!(groups, [1, 4, 4]);
    }
}
