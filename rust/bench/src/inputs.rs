//! Inputs of a given number of numbers, equal in every run of the program.

use reference::testing::{lay_out, Random};

/// The numbers of an input, zeros included; without its zeros an input may have
/// fewer, and so may one of equal runs, whose number may not divide this.
pub const NUMBERS: usize = 1_048_576;

/// Runs laid one after another.
pub struct Input {
    /// All numbers.
    pub numbers: Vec<u32>,
    /// Where each run ends.
    pub ends: Vec<u32>,
}

impl Input {
    fn new(runs: impl IntoIterator<Item = Vec<u32>>, count: usize) -> Self {
        let (numbers, ends) = lay_out(&runs.into_iter().collect::<Vec<_>>());
        assert_eq!(numbers.len(), count);
        Input { numbers, ends }
    }

    /// `k` runs, each of `count / k` numbers, which `run` is told.
    fn of_equal_runs(
        k: usize,
        count: usize,
        mut run: impl FnMut(usize, usize) -> Vec<u32>,
    ) -> Self {
        let length = count / k;
        Input::new((0..k).map(|i| run(i, length)), k * length)
    }

    /// The same runs with every number one higher, so that none begins with a 0.
    pub fn raised(mut self) -> Self {
        self.numbers.iter_mut().for_each(|x| *x += 1);
        self
    }

    /// The same runs but the first.
    pub fn without_first(&self) -> Self {
        let first = self.ends[0];
        Input {
            numbers: self.numbers[first as usize..].to_vec(),
            ends: self.ends[1..].iter().map(|end| end - first).collect(),
        }
    }

    /// The same runs, each after as many zeros as it has numbers.
    pub fn after_zeros(&self) -> Self {
        let starts = [0].into_iter().chain(self.ends.iter().copied());
        let runs = starts.zip(&self.ends).map(|(start, &end)| {
            let run = &self.numbers[start as usize..end as usize];
            [&vec![0; run.len()], run].concat()
        });
        Input::new(runs, 2 * self.numbers.len())
    }
}

/// `count` numbers from `start` on, each above the one before by `step`.
fn rising(start: u32, count: usize, mut step: impl FnMut() -> usize) -> Vec<u32> {
    let mut next = u64::from(start);
    let mut run = Vec::with_capacity(count);
    for _ in 0..count {
        run.push(u32::try_from(next).expect("a 32-bit number"));
        next += step() as u64;
    }
    run
}

/// Each run holds each number of one range in nine cases out of ten.
pub fn dense(k: usize, count: usize) -> Input {
    lacking(k, count, Random(1), 10)
}

/// Each run holds each number of one range in one case out of two.
pub fn half_dense(k: usize, count: usize) -> Input {
    lacking(k, count, Random(8), 2)
}

/// Each run lacks each number of one range once in `n` cases.
fn lacking(k: usize, count: usize, mut random: Random, n: usize) -> Input {
    let mut step = || {
        let mut step = 1;
        while random.one_in(n) {
            step += 1;
        }
        step
    };
    Input::of_equal_runs(k, count, |_, length| rising(0, length, &mut step))
}

/// Random numbers from a range 64 times as wide as there are numbers.
pub fn sparse(k: usize, count: usize) -> Input {
    let mut random = Random(2);
    let widest = 2 * 64 * k - 1;
    Input::of_equal_runs(k, count, |_, length| {
        let start = random.below(widest) as u32;
        rising(start, length, || 1 + random.below(widest))
    })
}

/// Each number of one range is in one run, or in two in one case out of
/// eight.
pub fn nearly_disjoint(k: usize, count: usize) -> Input {
    let mut random = Random(3);
    let mut runs = vec![Vec::new(); k];
    let mut left = count;
    for x in 0.. {
        if left == 0 {
            break;
        }
        let i = random.below(k);
        runs[i].push(x);
        left -= 1;
        if left > 0 && random.one_in(8) {
            let other = 1 + random.below(k - 1);
            runs[(i + other) % k].push(x);
            left -= 1;
        }
    }
    Input::new(runs, count)
}

/// Each number of one range is in one run, chosen at random, and the runs are
/// equally long.
pub fn disjoint(k: usize, count: usize) -> Input {
    let mut random = Random(9);
    let length = count / k;
    let mut run_of: Vec<usize> = (0..k * length).map(|x| x % k).collect();
    for x in 1..run_of.len() {
        run_of.swap(x, random.below(x + 1));
    }
    let mut runs = vec![Vec::with_capacity(length); k];
    for (x, i) in (0..).zip(run_of) {
        runs[i].push(x);
    }
    Input::new(runs, k * length)
}

/// Each number of one range is in one run, one after another.
pub fn interleaved(k: usize, count: usize) -> Input {
    Input::of_equal_runs(k, count, |i, length| rising(i as u32, length, || k))
}

/// All runs hold the same numbers.
pub fn equal(k: usize, count: usize) -> Input {
    Input::of_equal_runs(k, count, |_, length| {
        let mut random = Random(10);
        rising(0, length, || 1 + random.below(3))
    })
}

/// Each run has a range of its own, the first run the highest, so that the
/// row of numbers is not in order by itself.
pub fn blocks(k: usize, count: usize) -> Input {
    in_blocks(k, count, |i| k - 1 - i)
}

/// The same with the first run the lowest.
pub fn blocks_in_order(k: usize, count: usize) -> Input {
    in_blocks(k, count, |i| i)
}

/// Each run has a range of its own, and `place` tells which.
fn in_blocks(k: usize, count: usize, place: impl Fn(usize) -> usize) -> Input {
    let mut random = Random(4);
    Input::of_equal_runs(k, count, |i, length| {
        let start = place(i) * 4 * length;
        rising(start as u32, length, || 1 + random.below(3))
    })
}

/// Sparse runs of half as many numbers, each after as many zeros as it has
/// numbers.
pub fn half_zeros(k: usize, count: usize) -> Input {
    sparse(k, count / 2).raised().after_zeros()
}

/// Two runs: 1,024 numbers against all others, over the same range.
pub fn skewed(_: usize, count: usize) -> Input {
    let mut random = Random(5);
    let few = 1_024;
    let long = rising(0, count - few, || 1 + random.below(3));
    let widest = 2 * (2 * count / few) - 1;
    let short = rising(0, few, || 1 + random.below(widest));
    Input::new([short, long], count)
}

#[cfg(test)]
mod tests {
    use super::*;
    use reference::split_runs;

    /// As many numbers as are asked for, or as many as make equal runs.
    #[test]
    fn counts() {
        for (k, equally_long) in [(8, 1_000), (60, 960), (64, 960)] {
            for shape in [
                dense,
                half_dense,
                sparse,
                disjoint,
                interleaved,
                equal,
                blocks,
                blocks_in_order,
            ] {
                let Input { numbers, ends } = shape(k, 1_000);
                assert_eq!((numbers.len(), ends.len()), (equally_long, k));
                assert!(ends.iter().zip(1..).all(|(&end, i)| end == i * ends[0]));
            }
            let Input { numbers, ends } = nearly_disjoint(k, 1_000);
            assert_eq!((numbers.len(), ends.len()), (1_000, k));
        }
    }

    /// How many numbers two runs have in common, and whether the first is below the
    /// second or the second below the first.
    #[test]
    fn two_runs() {
        let seen = |shape: fn(usize, usize) -> Input| {
            let input = shape(2, 10_000).raised();
            let [first, second, ..] = split_runs(&input.numbers, &input.ends);
            assert_eq!((first.len(), second.len()), (5_000, 5_000));
            let is_held = |x: &&u32| second.binary_search(x).is_ok();
            let common = first.iter().filter(is_held).count();
            let below = |low: &[u32], high: &[u32]| low.last() < high.first();
            (common, below(first, second), below(second, first))
        };
        assert_eq!(seen(equal), (5_000, false, false));
        assert_eq!(seen(disjoint), (0, false, false));
        assert_eq!(seen(interleaved), (0, false, false));
        assert_eq!(seen(blocks_in_order), (0, true, false));
        assert_eq!(seen(blocks), (0, false, true));
        let (common, ..) = seen(half_dense);
        assert!((2_400..2_600).contains(&common), "{common}");
        let Input { numbers, .. } = interleaved(2, 10);
        assert_eq!(numbers, [0, 2, 4, 6, 8, 1, 3, 5, 7, 9]);
    }

    #[test]
    fn without_first() {
        for shape in [dense, sparse, nearly_disjoint, blocks] {
            let all = shape(4, 1_000);
            let others = all.without_first();
            assert_eq!(others.ends.len(), 3);
            let runs = split_runs(&all.numbers, &all.ends);
            assert_eq!(split_runs(&others.numbers, &others.ends)[..3], runs[1..4]);
        }
    }

    /// The bins are the same, and as many zeros are before them in each run.
    #[test]
    fn after_zeros() {
        for shape in [dense, sparse, nearly_disjoint, blocks] {
            let bins = shape(4, 1_000).raised();
            assert!(!bins.numbers.contains(&0));
            let zeros = bins.after_zeros();
            let doubled: Vec<u32> = bins.ends.iter().map(|end| 2 * end).collect();
            assert_eq!(zeros.ends, doubled);
            let runs = |input: &Input| split_runs(&input.numbers, &input.ends).concat();
            assert_eq!(runs(&zeros), runs(&bins));
            assert_eq!(runs(&bins), bins.numbers);
        }
    }
}
