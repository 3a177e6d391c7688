//! What the first run holds alone, asked of both sides.

use crate::broken::any_threshold;
use crate::question::{needed, walk_of, Asked, Comparer, Limits, Question};
use crate::shapes::any_runs;
use quorum::{Counts, Stopped};
use reference::testing::{answers_of, lay_out, Random, M};
use reference::{bins, leading_zeros, other_runs, split_runs};
use std::fmt;

/// The runs and the threshold of a question about what the first run holds alone.
#[derive(Clone, Copy)]
pub struct Alone<'a> {
    /// All runs, one after another.
    pub numbers: &'a [u32],
    /// Where each run ends.
    pub ends: &'a [u32],
    /// A bin of the first run is an answer if fewer of the other runs hold it.
    pub threshold: u32,
}

impl<'a> Alone<'a> {
    /// A question about some runs.
    pub fn new(numbers: &'a [u32], ends: &'a [u32], threshold: u32) -> Self {
        Alone {
            numbers,
            ends,
            threshold,
        }
    }

    /// The mask of the other runs.
    pub fn mask(self) -> u64 {
        other_runs(self.ends.len())
    }

    /// The question about the other runs, whose certificate is written.
    pub fn others(self) -> Question<'a> {
        Question::plain(self.numbers, self.ends, self.threshold).choosing(self.mask())
    }
}

impl fmt::Debug for Alone<'_> {
    fn fmt(&self, f: &mut fmt::Formatter<'_>) -> fmt::Result {
        write!(f, "of the first run alone: {:?}", self.others())
    }
}

impl Asked for Alone<'_> {
    fn expect(
        self,
        allowance: u32,
        answers: &mut [u32],
        certificate: &mut [u8],
    ) -> reference::Outcome {
        let (n, e, t) = (self.numbers, self.ends, self.threshold);
        reference::query_alone(n, e, t, allowance, answers, certificate)
    }

    fn ask(
        self,
        allowance: u32,
        answers: &mut [u32],
        certificate: &mut [u8],
    ) -> Result<Counts, Stopped> {
        let (n, e, t) = (self.numbers, self.ends, self.threshold);
        quorum::query_alone(n, e, t, allowance, answers, certificate)
    }

    fn ask_row(self, allowance: u32, answers: &mut [u32], certificate: &mut [u8]) -> [u64; 7] {
        let (n, e, t) = (self.numbers, self.ends, self.threshold);
        quorum::ffi::query_alone(n, e, t, allowance, answers, certificate)
    }

    fn whole(self) -> Option<Limits> {
        let walk = walk_of(self.others()).ok()?;
        let held = answers_of(&walk.parts);
        let [first, ..] = split_runs(self.numbers, self.ends);
        let alone = first.iter().filter(|x| held.binary_search(x).is_err());
        Some(Limits {
            answers: alone.count(),
            ..needed(&walk)
        })
    }
}

/// Returns `k` runs, of which the first is in half of all cases one like the
/// others, and else made from what these hold: nothing, all of it, what at least
/// two hold, every other bin, the neighbours of all bins, or a bin at an end of the
/// line. It begins with as many marks as it did.
pub fn any_runs_and_first(random: &mut Random, k: usize, length: usize) -> Vec<Vec<u32>> {
    let mut runs = any_runs(random, k, length);
    let Some((first, others)) = runs.split_first_mut() else {
        return runs;
    };
    let mut held: Vec<u32> = others.iter().flat_map(|run| bins(run)).copied().collect();
    held.sort_unstable();
    let mut made: Vec<u32> = match random.below(12) {
        0 => vec![],
        1 => held,
        2 => {
            let pairs = held.windows(2).filter(|pair| pair[0] == pair[1]);
            pairs.map(|pair| pair[0]).collect()
        }
        3 => held.into_iter().step_by(2).collect(),
        4 => {
            let beside = |x: u32| [x.saturating_sub(1).max(1), x.saturating_add(1)];
            held.into_iter().flat_map(beside).collect()
        }
        5 => vec![random.pick(&[1, M - 1, M])],
        _ => return runs,
    };
    made.sort_unstable();
    made.dedup();
    first.truncate(leading_zeros(first));
    first.extend(made);
    runs
}

/// Asks about random runs with limits of every kind.
pub fn compare_random(
    mut comparer: Comparer,
    seeds: impl Iterator<Item = u64>,
    runs: [usize; 2],
    length: usize,
) -> Comparer {
    for seed in seeds {
        let mut random = Random(seed);
        let k = random.from_to(runs[0], runs[1]);
        let length = random.below(length + 1);
        let (numbers, ends) = lay_out(&any_runs_and_first(&mut random, k, length));
        let threshold = any_threshold(&mut random, k.saturating_sub(1));
        let question = Alone::new(&numbers, &ends, threshold);
        comparer.compare_limits(seed, &mut random, question);
    }
    comparer
}
