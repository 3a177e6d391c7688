//! The bins of one list between two numbers.

use crate::bins::{first_not_rising, FIRST_BIN};
use std::ops::Range;

/// Returns the places of `list` that hold exactly its bins from `first` to
/// `last`, both included: none if `first` is above `last` or the list does not
/// rise after the zeros at its start. They always lie in the list, and never hold
/// a 0.
pub fn between(list: &[u32], first: u32, last: u32) -> Range<usize> {
    let first = first.max(FIRST_BIN);
    if first > last || first_not_rising(list).is_some() {
        return 0..0;
    }
    let start = list.partition_point(|&x| x < first);
    let end = list.partition_point(|&x| x <= last);
    start..end
}
