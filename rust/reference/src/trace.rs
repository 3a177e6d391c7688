//! The whole walk, with nothing that runs out.

use crate::certificate::Part;
use crate::first_checks::{checked_weights, split_runs, Refusal};
use crate::probes::{Probe, Probes};
use crate::walk::{walk, Recorder};
use crate::weights::Weighting;

/// What [`trace()`] returns.
#[derive(Clone, Debug, PartialEq, Eq)]
pub struct Trace {
    /// The parts of the whole certificate.
    pub parts: Vec<Part>,
    /// The probes made in each run, chosen or not.
    pub probes: Vec<Probes>,
    /// The probes of each search, in order.
    pub searches: Vec<Probes>,
}

impl Trace {
    /// Returns the probes in all runs together.
    pub fn all_probes(&self) -> Probes {
        self.probes.iter().copied().sum()
    }
}

/// Returns the parts of the whole walk and its probes, or the first refusal if
/// the runs or the threshold fail the first checks.
pub fn trace(numbers: &[u32], ends: &[u32], threshold: u32) -> Result<Trace, Refusal> {
    trace_by(numbers, ends, Weighting::Plain, threshold)
}

/// The same for any weighting, with 13 or 17 among the first checks.
pub fn trace_by(
    numbers: &[u32],
    ends: &[u32],
    weighting: Weighting,
    threshold: u32,
) -> Result<Trace, Refusal> {
    let weights = checked_weights(numbers, ends, weighting, threshold)?;
    let runs = split_runs(numbers, ends);
    let mut trace = Trace {
        parts: Vec::new(),
        probes: vec![Probes::default(); ends.len()],
        searches: Vec::new(),
    };
    walk(&runs, &weights, threshold, &mut trace).expect("a trace ends no walk");
    Ok(trace)
}

impl Recorder for Trace {
    fn search(&mut self) {
        self.searches.push(Probes::default());
    }

    fn probe(&mut self, run: usize, probe: Probe) -> Result<(), u8> {
        self.probes[run].add(probe);
        self.searches
            .last_mut()
            .expect("a search has begun")
            .add(probe);
        Ok(())
    }

    fn answer(&mut self, value: u32, mask: u64) -> Result<(), u8> {
        self.parts.push(Part::Answer { value, mask });
        Ok(())
    }

    fn gap(&mut self, first: u32, last: u32, mask: u64) -> Result<(), u8> {
        self.parts.push(Part::Gap { first, last, mask });
        Ok(())
    }
}
