//! Buffers that are lent to a call, with what lies around them.

/// Places before and after a lent buffer that must not change.
const MARGIN: usize = 5;

/// A buffer with a margin on both sides, all filled with noise.
#[derive(Default)]
pub struct Lent<T> {
    places: Vec<T>,
}

impl<T: Copy + PartialEq> Lent<T> {
    /// Makes it a buffer of `length` places; `noise` gives what stands in each
    /// place, those of the margins included.
    pub fn fill(&mut self, length: usize, noise: impl FnMut(usize) -> T) {
        self.places.clear();
        self.places.extend((0..length + 2 * MARGIN).map(noise));
    }

    /// The buffer without its margins.
    pub fn lend(&mut self) -> &mut [T] {
        let end = self.places.len() - MARGIN;
        &mut self.places[MARGIN..end]
    }

    /// The same to be read.
    pub fn read(&self) -> &[T] {
        &self.places[MARGIN..self.places.len() - MARGIN]
    }

    /// The first place at which two buffers differ, counted in the lent part.
    pub fn difference(&self, other: &Lent<T>) -> Option<isize> {
        assert_eq!(self.places.len(), other.places.len());
        let mut pairs = self.places.iter().zip(&other.places);
        let place = pairs.position(|(a, b)| a != b)?;
        Some(place as isize - MARGIN as isize)
    }
}

/// What stands in place `i` of a row before a call: equal seeds give equal
/// noise.
pub fn noise(seed: u64, i: usize) -> u64 {
    let mixed = (seed ^ i as u64).wrapping_mul(0x9e37_79b9_7f4a_7c15);
    mixed ^ mixed >> 29
}
