//! The walk (docs/SPECIFICATION.md, 'The walk'), apart from where its parts and
//! probes go.

use crate::bins::FIRST_BIN;
use crate::first_checks::MAX_RUNS;
use crate::heads::Heads;
use crate::mask::{bit, named_runs};
use crate::probes::Probe;
use crate::weights::Weights;

/// Receives what a walk does, in order. An error is the number of the refusal
/// that ends the walk there.
pub(crate) trait Recorder {
    /// A search begins.
    fn search(&mut self) {}
    /// One more probe of the search is due, in the given run.
    fn probe(&mut self, run: usize, probe: Probe) -> Result<(), u8>;
    /// An answer is due.
    fn answer(&mut self, value: u32, mask: u64) -> Result<(), u8>;
    /// A gap is due.
    fn gap(&mut self, first: u32, last: u32, mask: u64) -> Result<(), u8>;
}

/// Walks the runs that have weights and no others, each under its number among
/// all runs, by their bins. They pass the first checks with `threshold`.
/// Returns the number of the refusal if the recorder ends it.
pub(crate) fn walk<R: Recorder>(
    runs: &[&[u32]; MAX_RUNS],
    weights: &Weights,
    threshold: u32,
    recorder: &mut R,
) -> Result<(), u8> {
    let chosen = weights.chosen();
    let mut position = [0; MAX_RUNS];
    let mut heads = Heads::new(runs, chosen);
    let mut floor = FIRST_BIN;
    loop {
        // Steps 1 and 2.
        let Some(v) = heads.least_enough(weights, threshold) else {
            let without_head = chosen & !heads.runs();
            return recorder.gap(floor, u32::MAX, without_head);
        };
        let (below, at) = heads.runs_below_and_at(v);

        // Step 3.
        if floor < v {
            recorder.gap(floor, v - 1, chosen & !below)?;
        }

        // Step 4.
        let mut holding = at;
        for i in named_runs(below) {
            recorder.search();
            position[i] = search(runs[i], position[i], v, |probe| recorder.probe(i, probe))?;
            if runs[i].get(position[i]) == Some(&v) {
                holding |= bit(i);
            }
        }

        // Steps 5 and 6.
        let mut moved = below;
        if weights.of(holding) >= threshold {
            recorder.answer(v, holding)?;
            if v == u32::MAX {
                return Ok(());
            }
            for i in named_runs(holding) {
                position[i] += 1;
            }
            moved |= holding;
            floor = v + 1;
        } else {
            floor = v;
        }
        heads.renew(moved, |i| runs[i].get(position[i]).copied());
    }
}

/// Returns the first place of `run` after `position` whose number is at least
/// `v`, or the length of the run. The number at `position` is below `v`.
/// `due` is told of each probe before it is made and may end the search.
fn search(
    run: &[u32],
    position: usize,
    v: u32,
    mut due: impl FnMut(Probe) -> Result<(), u8>,
) -> Result<usize, u8> {
    // The number at `low` is below v; the one at `high`, if any, is not.
    let mut low = position;
    let mut step = 1;
    let mut high = loop {
        let place = position + step;
        let Some(&x) = run.get(place) else {
            break run.len();
        };
        due(Probe::Doubling)?;
        if x >= v {
            break place;
        }
        low = place;
        step *= 2;
    };
    while high - low > 1 {
        let middle = low + (high - low) / 2;
        due(Probe::Halving)?;
        if run[middle] < v {
            low = middle;
        } else {
            high = middle;
        }
    }
    Ok(high)
}
