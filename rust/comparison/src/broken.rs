//! Rows, weights and thresholds that the first checks refuse.

use crate::question::Limits;
use crate::shapes::any_runs;
use reference::testing::{any_weights, break_weights, lay_out, mark_later, Random, Wanted, M};

/// A row of numbers and a row of ends.
pub type Lists = (Vec<u32>, Vec<u32>);

/// Returns a threshold: mostly good, at times 0, one above `k` or far too
/// large.
pub fn any_threshold(random: &mut Random, k: usize) -> u32 {
    match random.below(20) {
        0 => random.pick(&[0, k as u32 + 1, M]),
        1 => random.pick(&[1, 2, k as u32 / 2, k as u32]),
        _ => random.from_to(1, k.max(1)) as u32,
    }
}

/// Returns what a question wants of `k` runs, with weights or without: mostly
/// something that they can reach, at times 0, one more than they come to or far too
/// much.
pub fn any_wanted(random: &mut Random, k: usize, weighted: bool) -> Wanted {
    if !weighted {
        return Wanted::plain(any_threshold(random, k));
    }
    let weights = any_weights(random, k);
    let total = weights.iter().sum::<u32>();
    match random.one_in(20) || k == 0 {
        true => Wanted::weighted(&weights, random.pick(&[0, total + 1, M])),
        false => Wanted::any_of(random, &weights),
    }
}

/// The same with weights that are broken in one or two ways, in half of the cases
/// that have weights.
pub fn any_broken(random: &mut Random, k: usize, weighted: bool) -> Wanted {
    let mut wanted = any_wanted(random, k, weighted);
    if let (Some(weights), true) = (&mut wanted.weights, random.one_in(2)) {
        for _ in 0..random.from_to(1, 2) {
            break_weights(random, weights);
        }
    }
    wanted
}

/// The rows of up to 65 short runs, broken in one to three ways.
pub fn any_broken_rows(random: &mut Random) -> Lists {
    let k = random.pick(&[0, 1, 2, 3, 3, 4, 5, 8, 63, 64, 65]);
    broken_rows(random, k)
}

/// The rows of `k` short runs, broken in one to three ways.
pub fn broken_rows(random: &mut Random, k: usize) -> Lists {
    let length = random.below(8);
    let (mut numbers, mut ends) = lay_out(&any_runs(random, k, length));
    for _ in 0..random.from_to(1, 3) {
        break_rows(random, &mut numbers, &mut ends);
    }
    (numbers, ends)
}

/// The rows of `k` runs, and their refusal, of number 3 or 4, if there is one. In
/// all combinations: the ends fit, the last one falls, or there is a number too many;
/// all runs rise, or the first or the last does not.
pub fn faulty_rows(k: usize) -> Vec<(Lists, Option<(u8, u64)>)> {
    let mut all = Vec::new();
    for end in 0..3 {
        for not_rising in [None, Some(1), Some((2 * k).saturating_sub(1))] {
            let (mut numbers, mut ends) = lay_out(&vec![[3, 9]; k]);
            let not_rising = not_rising.filter(|_| k > 0);
            if let Some(place) = not_rising {
                numbers[place] = 3;
            }
            let mut refusal = not_rising.map(|place| (4, place as u64));
            if end == 1 && k > 1 {
                ends[k - 1] = 1;
                refusal = Some((3, k as u64 - 1));
            }
            if end == 2 {
                numbers.push(12);
                refusal = Some((3, k as u64));
            }
            all.push(((numbers, ends), refusal));
        }
    }
    all
}

/// Limits that a short walk may reach or not.
pub fn any_limits(random: &mut Random) -> Limits {
    Limits {
        allowance: random.pick(&[0, 1, 5, M]),
        answers: random.below(20),
        bytes: random.below(300),
    }
}

/// Any rows at all, of small numbers. In half of all cases the ends fit.
pub fn noise_rows(random: &mut Random) -> Lists {
    let mut numbers: Vec<u32> = (0..random.below(7)).map(|_| any_small(random)).collect();
    if random.one_in(4) {
        numbers.splice(0..0, vec![0; random.from_to(1, 4)]);
    }
    let mut ends: Vec<u32> = (0..random.below(4)).map(|_| any_small(random)).collect();
    if random.one_in(2) {
        ends.sort_unstable();
        ends.push(numbers.len() as u32);
    }
    (numbers, ends)
}

/// A number up to 5, at times any.
pub fn any_small(random: &mut Random) -> u32 {
    match random.below(12) {
        0 => random.word(),
        n => n as u32 / 2,
    }
}

/// Breaks the rows in one way. They may still pass the first checks.
pub fn break_rows(random: &mut Random, numbers: &mut Vec<u32>, ends: &mut Vec<u32>) {
    match random.below(12) {
        // An end that falls.
        0 if ends.len() > 1 => {
            let i = random.from_to(1, ends.len() - 1);
            ends[i] = random.below(ends[i - 1].max(1) as usize) as u32;
        }
        1 if ends.len() > 1 => {
            let i = random.from_to(1, ends.len() - 1);
            ends.swap(i - 1, i);
        }
        2 if !ends.is_empty() => {
            let i = random.below(ends.len());
            ends[i] = any_end(random, numbers.len());
        }
        // A last end that is wrong.
        3 if !ends.is_empty() => {
            let last = ends.len() - 1;
            ends[last] = match random.below(3) {
                0 => ends[last].wrapping_add(1),
                1 => ends[last].wrapping_sub(1),
                _ => any_end(random, numbers.len()),
            };
        }
        4 => drop(numbers.pop()),
        5 => numbers.push(random.word()),
        // A number that is not above the one before it.
        6 if numbers.len() > 1 => {
            let i = random.from_to(1, numbers.len() - 1);
            numbers[i] = numbers[i - 1];
        }
        7 if numbers.len() > 1 => {
            let i = random.from_to(1, numbers.len() - 1);
            numbers.swap(i - 1, i);
        }
        8 if !numbers.is_empty() => {
            let i = random.below(numbers.len());
            numbers[i] = random.pick(&[0, M, numbers[i].wrapping_sub(1)]);
        }
        // A 0 after a bin of its run.
        9 | 10 if !ends.is_empty() => {
            let run = random.below(ends.len());
            let start = run.checked_sub(1).map_or(0, |before| ends[before] as usize);
            if let Some(run) = numbers.get_mut(start..ends[run] as usize) {
                mark_later(random, run);
            }
        }
        // One run more or less.
        _ if random.one_in(2) => ends.push(numbers.len() as u32),
        _ => drop(ends.pop()),
    }
}

fn any_end(random: &mut Random, length: usize) -> u32 {
    match random.below(4) {
        0 => random.word(),
        1 => random.pick(&[M, M - 1, 1_048_576, 1_048_577]),
        _ => random.below(length + 3) as u32,
    }
}
