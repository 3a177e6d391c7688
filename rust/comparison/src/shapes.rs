//! Random runs of several shapes.

use reference::testing::{mark_some, Random, M};
use reference::MAX_NUMBERS;

/// How the numbers of the runs lie to one another.
#[derive(Clone, Copy, Debug)]
pub enum Shape {
    /// Most runs hold most numbers of one range.
    Dense,
    /// Numbers from a wide range, few of them in several runs.
    Sparse,
    /// Runs that interleave; each number is in one or two of them.
    NearlyDisjoint,
    /// Each run has most numbers of one list and a few of its own.
    Shared,
    /// Each run has a range of its own.
    Blocks,
    /// One long run, the others short.
    Skewed,
}

/// All shapes.
pub const SHAPES: [Shape; 6] = [
    Shape::Dense,
    Shape::Sparse,
    Shape::NearlyDisjoint,
    Shape::Shared,
    Shape::Blocks,
    Shape::Skewed,
];

/// Returns `k` runs of up to about `length` numbers each, of any shape, some
/// of them with 4294967295, some empty. In a third of all cases runs begin with
/// unmapped marks, which are zeros: one, two or many.
pub fn any_runs(random: &mut Random, k: usize, length: usize) -> Vec<Vec<u32>> {
    changed_runs(random, k, length, |random, runs| match random.below(4) {
        0 => add_last(random, runs),
        1 => cut_some(random, runs),
        _ => (),
    })
}

/// Returns such runs of very different lengths, so that they end one by one.
pub fn uneven_runs(random: &mut Random, k: usize, length: usize) -> Vec<Vec<u32>> {
    changed_runs(random, k, length, cut_each)
}

fn changed_runs(
    random: &mut Random,
    k: usize,
    length: usize,
    change: impl FnOnce(&mut Random, &mut [Vec<u32>]),
) -> Vec<Vec<u32>> {
    let shape = random.pick(&SHAPES);
    let mut runs = placed_runs(random, shape, k, length);
    change(random, &mut runs);
    mark_some(random, &mut runs);
    runs
}

/// Returns `k` runs of a shape, which have as many numbers in all as are allowed;
/// the last run makes up for what the others leave.
pub fn full_runs(random: &mut Random, shape: Shape, k: usize) -> Vec<Vec<u32>> {
    let mut runs = shaped_runs(random, shape, k, 3 * MAX_NUMBERS / (4 * k));
    let others: usize = runs[..k - 1].iter().map(Vec::len).sum();
    runs[k - 1] = (0..).step_by(3).take(MAX_NUMBERS - others).collect();
    runs
}

/// Returns `k` runs of a shape, of up to about `length` numbers each. In a third
/// of all cases runs begin with unmapped marks.
pub fn shaped_runs(random: &mut Random, shape: Shape, k: usize, length: usize) -> Vec<Vec<u32>> {
    let mut runs = placed_runs(random, shape, k, length);
    mark_some(random, &mut runs);
    runs
}

fn placed_runs(random: &mut Random, shape: Shape, k: usize, length: usize) -> Vec<Vec<u32>> {
    let lists = match shape {
        Shape::Dense => {
            let tenths = random.pick(&[5, 8, 9, 10]);
            subsets(random, &(0..length as u64).collect::<Vec<_>>(), k, tenths)
        }
        Shape::Sparse => {
            let step = random.pick(&[4, 30, 1_000]);
            lists(k, |_| rising(random, 0, length, step))
        }
        Shape::NearlyDisjoint => nearly_disjoint(random, k, length),
        Shape::Shared => {
            let step = random.pick(&[1, 3, 100]);
            let common = rising(random, 0, length, step);
            let mut runs = subsets(random, &common, k, 8);
            for run in &mut runs {
                run.extend(rising(random, 0, length / 8, 8 * step));
            }
            runs
        }
        Shape::Blocks => {
            let width = 2 * length as u64 + 1;
            let turn = random.below(k.max(1));
            lists(k, |i| {
                let start = ((i + turn) % k) as u64 * width;
                rising(random, start, length, 2)
            })
        }
        Shape::Skewed => {
            let long = random.below(k.max(1));
            let (few, step) = (1 + length / 50, 2 * length / (1 + length / 50));
            lists(k, |i| match i == long {
                true => rising(random, 0, length, 2),
                false => rising(random, 0, few, step as u64),
            })
        }
    };
    place(random, lists)
}

fn lists(k: usize, list: impl FnMut(usize) -> Vec<u64>) -> Vec<Vec<u64>> {
    (0..k).map(list).collect()
}

/// Up to `length` numbers from `start` on with random steps up to `step`.
fn rising(random: &mut Random, start: u64, length: usize, step: u64) -> Vec<u64> {
    let count = match random.one_in(3) {
        true => random.below(length + 1),
        false => length,
    };
    let mut next = start;
    let mut list = Vec::with_capacity(count);
    for _ in 0..count {
        next += 1 + random.bits() % step.max(1);
        list.push(next - 1);
    }
    list
}

/// `k` lists that each take a number of `list` in about `tenths` of 10 cases.
fn subsets(random: &mut Random, list: &[u64], k: usize, tenths: usize) -> Vec<Vec<u64>> {
    lists(k, |_| {
        let taken = list.iter().filter(|_| random.below(10) < tenths);
        taken.copied().collect()
    })
}

fn nearly_disjoint(random: &mut Random, k: usize, length: usize) -> Vec<Vec<u64>> {
    let mut runs = vec![Vec::new(); k];
    let step = random.pick(&[1, 2, 50]);
    for x in rising(random, 0, k * length, step) {
        let i = random.below(k);
        runs[i].push(x);
        let j = random.below(k);
        if random.one_in(4) && i != j {
            runs[j].push(x);
        }
    }
    runs
}

/// Puts the lists at the front, in the middle or at the back of the line, or
/// spreads them over all of it; orders each and leaves out repetitions.
fn place(random: &mut Random, lists: Vec<Vec<u64>>) -> Vec<Vec<u32>> {
    let largest = lists.iter().flatten().copied().max().unwrap_or(0);
    let room = u64::from(M) - largest;
    let factor = match random.one_in(5) {
        true => u64::from(M) / largest.max(1),
        false => 1,
    };
    let shift = match factor {
        1 => random.pick(&[0, 1, room, room - 1, room / 2]),
        _ => 0,
    };
    let place_one = |list: Vec<u64>| {
        let mut run: Vec<u32> = list.iter().map(|x| (factor * x + shift) as u32).collect();
        run.sort_unstable();
        run.dedup();
        run
    };
    lists.into_iter().map(place_one).collect()
}

/// Adds 4294967295 to some runs.
fn add_last(random: &mut Random, runs: &mut [Vec<u32>]) {
    for run in runs {
        if random.one_in(2) && run.last() != Some(&M) {
            run.push(M);
        }
    }
}

/// Shortens each run, many to a small part of it.
fn cut_each(random: &mut Random, runs: &mut [Vec<u32>]) {
    for run in runs {
        let most = run.len() >> random.below(4);
        run.truncate(random.below(most + 1));
    }
}

/// Empties some runs and shortens others.
fn cut_some(random: &mut Random, runs: &mut [Vec<u32>]) {
    for run in runs {
        match random.below(4) {
            0 => run.clear(),
            1 => run.truncate(random.below(run.len() + 1)),
            _ => (),
        }
    }
}
