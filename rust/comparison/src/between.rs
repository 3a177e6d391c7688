//! The bins of one list between two numbers, found on both sides.

use crate::Row;

/// Compares the part of the list on both sides, and returns how many bins it has.
/// Where an empty part lies is free; any other lies at one place only.
///
/// # Panics
///
/// If the two differ.
pub fn compare(seed: u64, list: &[u32], first: u32, last: u32) -> usize {
    let context = || format!("seed {seed}: {first} to {last} of {:?}", Row(list));
    let expected = reference::between(list, first, last);
    let part = quorum::between(list, first, last);
    assert_eq!(part, &list[expected.clone()], "{}", context());
    let places = quorum::ffi::between(list, first, last);
    assert!(places.start <= places.end && places.end <= list.len() as u64);
    if !expected.is_empty() {
        let start = expected.start as u64;
        assert_eq!(places, start..expected.end as u64, "{}", context());
        assert!(std::ptr::eq(part, &list[expected]), "{}", context());
    }
    part.len()
}
