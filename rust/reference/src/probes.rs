//! The probes of a search by their kind.

use std::iter::Sum;

/// Which step of a search makes a probe.
#[derive(Clone, Copy, Debug, PartialEq, Eq)]
pub enum Probe {
    /// The step that doubles its distance from the position.
    Doubling,
    /// The step that halves what is left.
    Halving,
}

/// How many probes of each kind were made.
#[derive(Clone, Copy, Debug, Default, PartialEq, Eq)]
pub struct Probes {
    /// Those made by doubling.
    pub doublings: u64,
    /// Those made by halving.
    pub halvings: u64,
}

impl Probes {
    /// Counts one more.
    pub(crate) fn add(&mut self, probe: Probe) {
        match probe {
            Probe::Doubling => self.doublings += 1,
            Probe::Halving => self.halvings += 1,
        }
    }

    /// Both kinds together: what an allowance is held against, and what the
    /// bound speaks of.
    pub fn total(self) -> u64 {
        self.doublings + self.halvings
    }
}

impl Sum for Probes {
    fn sum<I: Iterator<Item = Probes>>(all: I) -> Probes {
        all.fold(Probes::default(), |sum, probes| Probes {
            doublings: sum.doublings + probes.doublings,
            halvings: sum.halvings + probes.halvings,
        })
    }
}
