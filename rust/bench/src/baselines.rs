//! Other ways to the answers. None checks its input, writes a certificate or
//! counts probes.

use reference::bins;
use std::cmp::Reverse;
use std::collections::binary_heap::{BinaryHeap, PeekMut};

/// A head, its run and its place in the run.
type Head = Reverse<(u32, u32, u32)>;

/// The bins of the runs: zeros at the start of one are passed over.
fn runs_of<'a>(numbers: &'a [u32], ends: &[u32]) -> Vec<&'a [u32]> {
    let runs = ends.iter().scan(0, |start, &end| {
        let run = *start..end as usize;
        *start = end as usize;
        Some(run)
    });
    runs.map(|run| bins(&numbers[run])).collect()
}

fn heads_of(runs: &[&[u32]]) -> BinaryHeap<Head> {
    let runs = runs.iter().enumerate();
    runs.filter_map(|(i, run)| Some(Reverse((*run.first()?, i as u32, 0))))
        .collect()
}

/// Writes the bins that at least `threshold` runs hold, by a merge with the
/// standard library's heap of the heads that goes through every bin: each
/// head is taken out and the next one of its run put in. Returns how many there
/// are.
pub fn heap_merge(numbers: &[u32], ends: &[u32], threshold: usize, answers: &mut [u32]) -> usize {
    let runs = runs_of(numbers, ends);
    let mut heap = heads_of(&runs);
    let mut written = 0;
    let mut holding = 0;
    while let Some(Reverse((v, i, place))) = heap.pop() {
        holding += 1;
        if let Some(&next) = runs[i as usize].get(place as usize + 1) {
            heap.push(Reverse((next, i, place + 1)));
        }
        if heap.peek().is_some_and(|&Reverse((x, _, _))| x == v) {
            continue;
        }
        if holding >= threshold {
            answers[written] = v;
            written += 1;
        }
        holding = 0;
    }
    written
}

/// The same with the next head put in the place of the one at the top, which
/// costs little where the same run goes on.
pub fn heap_merge_replacing(
    numbers: &[u32],
    ends: &[u32],
    threshold: usize,
    answers: &mut [u32],
) -> usize {
    let runs = runs_of(numbers, ends);
    let mut heap = heads_of(&runs);
    let mut written = 0;
    while let Some(&Reverse((v, _, _))) = heap.peek() {
        let mut holding = 0;
        while let Some(mut head) = heap.peek_mut() {
            let Reverse((x, i, place)) = *head;
            if x != v {
                break;
            }
            holding += 1;
            match runs[i as usize].get(place as usize + 1) {
                Some(&next) => *head = Reverse((next, i, place + 1)),
                None => {
                    PeekMut::pop(head);
                }
            }
        }
        if holding >= threshold {
            answers[written] = v;
            written += 1;
        }
    }
    written
}

/// The same by sorting a copy of all numbers in `scratch` and counting equal
/// ones.
pub fn sort_and_count(
    numbers: &[u32],
    threshold: usize,
    scratch: &mut [u32],
    answers: &mut [u32],
) -> usize {
    scratch.copy_from_slice(numbers);
    scratch.sort_unstable();
    let mut written = 0;
    let mut equal = 0;
    let mut last = 0;
    // The zeros are no bins.
    let first = scratch.partition_point(|&x| x == 0);
    for &x in &scratch[first..] {
        equal = if x == last { equal + 1 } else { 1 };
        last = x;
        if equal == threshold {
            answers[written] = x;
            written += 1;
        }
    }
    written
}

#[cfg(test)]
mod tests {
    use super::*;
    use std::collections::BTreeMap;

    fn counted(numbers: &[u32], threshold: usize) -> Vec<u32> {
        let mut counts = BTreeMap::new();
        for &x in numbers.iter().filter(|&&x| x > 0) {
            *counts.entry(x).or_insert(0) += 1;
        }
        let held = counts.into_iter().filter(|&(_, count)| count >= threshold);
        held.map(|(x, _)| x).collect()
    }

    #[test]
    fn all_give_the_counted_answers() {
        let m = u32::MAX;
        let inputs: [(&[u32], &[u32]); 9] = [
            (&[], &[0]),
            (&[0, 0, 4, 0, 1], &[1, 3, 5]),
            (&[0, 0, 0, 0, 4, 0, 0, 0, 1, 4], &[2, 5, 10]),
            (&[0; 100], &[99, 100]),
            (&[0, m], &[2]),
            (&[2, 5, 9, 5, 7, 9, 12, 1, 9], &[3, 7, 9]),
            (&[0, m, m, 0, 1, m], &[2, 3, 3, 6]),
            (
                &[7; 64],
                &std::array::from_fn::<u32, 64, _>(|i| i as u32 + 1),
            ),
            (&[1, 2, 3, 0, 2, 4, m], &[0, 3, 3, 7, 7]),
        ];
        for (numbers, ends) in inputs {
            for threshold in 1..=ends.len() {
                let expected = counted(numbers, threshold);
                let mut answers = vec![3; numbers.len()];
                let written = heap_merge(numbers, ends, threshold, &mut answers);
                assert_eq!(answers[..written], expected);
                let written = heap_merge_replacing(numbers, ends, threshold, &mut answers);
                assert_eq!(answers[..written], expected);
                let mut scratch = numbers.to_vec();
                let written = sort_and_count(numbers, threshold, &mut scratch, &mut answers);
                assert_eq!(answers[..written], expected);
            }
        }
    }
}
