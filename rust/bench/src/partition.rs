//! Ways to what both of two runs hold: the library's own in Rust, which is mutual
//! partition, and a merge. Both see first that the runs rise.

use crate::ordered::Runs;
use std::cmp::Ordering;

/// Writes the bins that both runs hold to a buffer that is large enough. Returns how
/// many there are, `None` where a run does not rise.
pub fn pair(numbers: &[u32], ends: &[u32], answers: &mut [u32]) -> Option<usize> {
    let runs = Runs::new(numbers, ends)?;
    Some(partition(runs.bins(0), runs.bins(1), answers, 0))
}

/// Adds what both sides hold to the answers, of which so many are written. Returns
/// how many then are.
fn partition(first: &[u32], second: &[u32], answers: &mut [u32], written: usize) -> usize {
    if first.is_empty() || second.is_empty() {
        return written;
    }
    // The shorter side gives the pivot: where it stands, and where it would stand in
    // the other.
    let first_gives = first.len() <= second.len();
    let (i, j) = if first_gives {
        let middle = first.len() / 2;
        (middle, rank(second, first[middle]))
    } else {
        let middle = second.len() / 2;
        (rank(first, second[middle]), middle)
    };
    let mut written = partition(&first[..i], &second[..j], answers, written);
    let both_hold = i < first.len() && j < second.len() && first[i] == second[j];
    if both_hold {
        answers[written] = first[i];
        written += 1;
    }
    // The pivot is in neither side.
    let first = &first[i + usize::from(first_gives || both_hold)..];
    let second = &second[j + usize::from(!first_gives || both_hold)..];
    partition(first, second, answers, written)
}

/// How many numbers of a list are below `v`.
fn rank(list: &[u32], v: u32) -> usize {
    list.partition_point(|&x| x < v)
}

/// The same by going through both runs.
pub fn merge(numbers: &[u32], ends: &[u32], answers: &mut [u32]) -> Option<usize> {
    let runs = Runs::new(numbers, ends)?;
    let (first, second) = (runs.bins(0), runs.bins(1));
    let (mut i, mut j, mut written) = (0, 0, 0);
    while i < first.len() && j < second.len() {
        match first[i].cmp(&second[j]) {
            Ordering::Less => i += 1,
            Ordering::Greater => j += 1,
            Ordering::Equal => {
                answers[written] = first[i];
                written += 1;
                i += 1;
                j += 1;
            }
        }
    }
    Some(written)
}

#[cfg(test)]
mod tests {
    use super::*;
    use reference::testing::pair_instances;

    /// The instances that are accepted, in a buffer that holds just what is written,
    /// and those that do not rise.
    #[test]
    fn every_instance() {
        let mut seen = [0; 2];
        for instance in pair_instances() {
            let expected = match instance.refusal.map(|refusal| refusal.number) {
                None => Some(instance.answers.len()),
                Some(4) => None,
                Some(_) => continue,
            };
            for way in [pair, merge] {
                let mut answers = vec![1; instance.answers.len()];
                let count = way(&instance.numbers, &instance.ends, &mut answers);
                assert_eq!(count, expected, "{}", instance.name);
                assert_eq!(answers, instance.answers, "{}", instance.name);
            }
            seen[usize::from(expected.is_some())] += 1;
        }
        assert!(seen[0] > 3 && seen[1] > 100, "{seen:?}");
    }
}
