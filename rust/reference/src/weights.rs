//! What the runs of a question weigh.

use crate::first_checks::{Refusal, MAX_RUNS};
use crate::mask::{all_runs, named_runs};

/// The largest weight of a run; the smallest is 1.
pub const MAX_WEIGHT: u32 = 255;

/// What a question says of the weights of its runs, allowed or not.
#[derive(Clone, Copy, Debug, PartialEq, Eq)]
pub enum Weighting<'a> {
    /// Every run weighs 1.
    Plain,
    /// The question is about the runs that the mask names, which weigh 1 each.
    Chosen(u64),
    /// Run `i` weighs the number at place `i`.
    Given(&'a [u32]),
}

impl Weighting<'_> {
    /// Returns those of `k` runs that the question is about, each with its
    /// weight. Whether the weighting is allowed is not looked at.
    pub fn each(self, k: usize) -> Vec<(usize, u64)> {
        match self {
            Weighting::Plain => (0..k).map(|i| (i, 1)).collect(),
            Weighting::Chosen(mask) => {
                let chosen = named_runs(mask).filter(|&i| i < k);
                chosen.map(|i| (i, 1)).collect()
            }
            Weighting::Given(row) => {
                let weights = row.iter().map(|&weight| u64::from(weight));
                (0..k).zip(weights).collect()
            }
        }
    }

    /// Returns the weights of `k` runs, `k` being from 1 to 64. Refusal 13 of a
    /// mask, 17 of a row.
    pub(crate) fn weights(self, k: usize) -> Result<Weights, Refusal> {
        match self {
            Weighting::Plain => Ok(Weights::ones(all_runs(k))),
            Weighting::Chosen(mask) if is_choice(mask, k) => Ok(Weights::ones(mask)),
            Weighting::Chosen(_) => Err(Refusal::new(13, 0)),
            Weighting::Given(row) => {
                check_weights(row, k)?;
                let mut weights = Weights::ones(all_runs(k));
                weights.of_run[..k].copy_from_slice(row);
                Ok(weights)
            }
        }
    }
}

/// Whether the mask names a run, and only runs below `k`.
pub(crate) fn is_choice(mask: u64, k: usize) -> bool {
    mask != 0 && mask & !all_runs(k) == 0
}

/// Refusal 17: the length before the weights.
fn check_weights(row: &[u32], k: usize) -> Result<(), Refusal> {
    if row.len() != k {
        return Err(Refusal::new(17, k));
    }
    let is_bad = |weight: &u32| !(1..=MAX_WEIGHT).contains(weight);
    match row.iter().position(is_bad) {
        Some(i) => Err(Refusal::new(17, i)),
        None => Ok(()),
    }
}

/// The runs that a question is about and what they weigh.
pub(crate) struct Weights {
    chosen: u64,
    /// That of a run that is not chosen is never asked for.
    of_run: [u32; MAX_RUNS],
}

impl Weights {
    /// The runs that the mask names weigh 1 each.
    pub(crate) fn ones(chosen: u64) -> Self {
        let of_run = [1; MAX_RUNS];
        Weights { chosen, of_run }
    }

    /// Returns the mask of the runs that the question is about.
    pub(crate) fn chosen(&self) -> u64 {
        self.chosen
    }

    /// Returns what run `i` weighs, which is one of them.
    pub(crate) fn of_run(&self, i: usize) -> u32 {
        self.of_run[i]
    }

    /// Returns what the runs that the mask names weigh together.
    pub(crate) fn of(&self, mask: u64) -> u32 {
        named_runs(mask).map(|i| self.of_run[i]).sum()
    }

    /// Returns what all runs of the question weigh together.
    pub(crate) fn total(&self) -> u32 {
        self.of(self.chosen)
    }

    /// Whether the threshold is above 0 and not above the total.
    pub(crate) fn allow(&self, threshold: u32) -> bool {
        (1..=self.total()).contains(&threshold)
    }
}
