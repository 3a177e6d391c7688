//! What a comparison met: how often each way to end, and at which places.

use std::collections::{BTreeMap, BTreeSet};
use std::fmt::Debug;
use std::ops::Index;

/// How often each refusal was met, by its number; 0 stands for accepted.
#[derive(Clone, Copy, Debug, Default)]
pub struct Refusals([u64; 18]);

impl Refusals {
    /// Counts one more.
    pub fn count(&mut self, number: u64) {
        self.0[number as usize] += 1;
    }

    /// How often any was met.
    pub fn all(&self) -> u64 {
        self.0.iter().sum()
    }

    /// Each of the numbers was met so often.
    ///
    /// # Panics
    ///
    /// If one was not.
    pub fn met(&self, calls: &str, numbers: &[usize], times: u64) {
        let Refusals(seen) = self;
        println!("{} {calls}, by refusal {seen:?}", self.all());
        assert!(numbers.iter().all(|&i| seen[i] >= times), "{seen:?}");
    }
}

impl Index<usize> for Refusals {
    type Output = u64;

    fn index(&self, number: usize) -> &u64 {
        &self.0[number]
    }
}

/// The places at which each way to end was met, once for each time.
pub struct Met<K> {
    places: BTreeMap<K, Vec<u64>>,
}

impl<K> Default for Met<K> {
    fn default() -> Self {
        Met {
            places: BTreeMap::new(),
        }
    }
}

impl<K: Copy + Debug + Ord> Met<K> {
    /// Counts one more.
    pub fn count(&mut self, end: K, place: u64) {
        self.places.entry(end).or_default().push(place);
    }

    /// Each of these was met so often, and at so many places.
    ///
    /// # Panics
    ///
    /// If one was not.
    pub fn met(&self, name: &str, expected: &[(K, usize, usize)]) {
        let counts: BTreeMap<K, (usize, usize)> = self
            .places
            .iter()
            .map(|(&end, places)| {
                let different: BTreeSet<_> = places.iter().collect();
                (end, (places.len(), different.len()))
            })
            .collect();
        println!("{name}: times and different places: {counts:?}");
        for (end, times, places) in expected {
            let found = counts.get(end).unwrap_or(&(0, 0));
            let is_enough = found.0 >= *times && found.1 >= *places;
            assert!(is_enough, "{name}: {end:?} is rare: {counts:?}");
        }
    }
}
