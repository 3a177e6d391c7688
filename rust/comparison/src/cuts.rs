//! Where an allowance ends a search.

use reference::testing::Random;
use reference::Probes;

/// The probe that is due when the allowance is used up.
#[derive(Clone, Copy, Debug, PartialEq, Eq)]
pub enum Cut {
    /// The first probe of a search.
    Start,
    /// A later one of its doubling.
    Doubling,
    /// The first one of its halving.
    Seam,
    /// A later one of its halving.
    Halving,
}

/// All kinds.
const KINDS: [Cut; 4] = [Cut::Start, Cut::Doubling, Cut::Seam, Cut::Halving];

/// For each probe of searches that follow each other, what it is to its search
/// and which probes come before it.
fn all_cuts(searches: impl IntoIterator<Item = Probes>) -> Vec<(Cut, Probes)> {
    let mut cuts = Vec::new();
    let mut made = Probes::default();
    for search in searches {
        for i in 0..search.doublings {
            cuts.push((if i == 0 { Cut::Start } else { Cut::Doubling }, made));
            made.doublings += 1;
        }
        for i in 0..search.halvings {
            cuts.push((if i == 0 { Cut::Seam } else { Cut::Halving }, made));
            made.halvings += 1;
        }
    }
    cuts
}

/// Counts the cuts of each kind.
#[derive(Default)]
pub struct Cuts {
    seen: [u64; 4],
}

impl Cuts {
    /// Of each kind that the searches have, the probes before any one cut: the
    /// allowance that makes it is their total.
    pub fn any_of_each(
        &mut self,
        random: &mut Random,
        searches: impl IntoIterator<Item = Probes>,
    ) -> Vec<Probes> {
        let all = all_cuts(searches);
        let mut picked = Vec::new();
        for kind in KINDS {
            let of_kind = all.iter().filter(|(cut, _)| *cut == kind);
            let made: Vec<Probes> = of_kind.map(|&(_, made)| made).collect();
            if !made.is_empty() {
                self.seen[kind as usize] += 1;
                picked.push(random.pick(&made));
            }
        }
        picked
    }

    /// Each kind was met often enough.
    ///
    /// # Panics
    ///
    /// If one was not.
    pub fn met(&self, times: u64) {
        println!("cuts {KINDS:?}: {:?}", self.seen);
        assert!(self.seen.iter().all(|&seen| seen >= times));
    }
}
