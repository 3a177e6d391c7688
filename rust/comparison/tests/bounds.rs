//! The bound 2 × d × b on the probes of a run, b being the digits of the number
//! of its bins, against the fewest parts of any true certificate, found without
//! the walk: by the number of runs and by their weights.

use comparison::many::{self, whole as whole_many, Call};
use comparison::question::{walk_of, whole, Comparer, Limits, Question};
use comparison::seeds;
use comparison::shapes::any_runs;
use quorum::{probe_bound, probe_bound_chosen};
use reference::testing::{any_weights, lay_out, slices, Random, Wanted};
use reference::{
    all_runs, bins, digits, fewest_parts_by, is_true_by, trace_by, Outcome, Probes, Weighting,
};

/// Bounds summed up over runs.
#[derive(Default)]
struct Sums {
    /// Over their bins.
    sum: u64,
    /// Over their numbers as lent, marks included, which is all that the ends tell.
    as_lent: u64,
}

impl Sums {
    /// Adds the bounds of a run and returns that over its bins.
    fn add(&mut self, run: &[u32], parts: u64) -> u64 {
        let bound = |numbers: &[u32]| 2 * parts * u64::from(digits(numbers.len() as u64));
        self.as_lent += bound(run);
        self.sum += bound(bins(run));
        assert!(self.sum <= self.as_lent);
        bound(bins(run))
    }
}

/// Compares walks with the fewest parts possible, at every threshold, and for as
/// many wanted weights.
fn within_the_bound(seed: u64, random: &mut Random, runs: &[Vec<u32>]) {
    let (numbers, ends) = lay_out(runs);
    let mut comparer = Comparer::new();
    let thresholds = 1..=runs.len() as u32;
    let weights = any_weights(random, runs.len());
    let weighted = thresholds.clone();
    let weighted = weighted.map(|_| Wanted::any_of(random, &weights));
    for wanted in thresholds.map(Wanted::plain).chain(weighted) {
        let (weighting, threshold) = (wanted.weighting(), wanted.threshold);
        let question = Question::wanting(&numbers, &ends, &wanted);
        let context = || format!("seed {seed}: {question:?}");
        let fewest = fewest_parts_by(&slices(runs), weighting, threshold);
        let walk = walk_of(question).unwrap();
        assert!(is_true_by(&slices(runs), weighting, threshold, &walk.parts));

        let mut sums = Sums::default();
        for (run, &probes) in runs.iter().zip(&walk.probes) {
            let bound = sums.add(run, fewest as u64);
            assert!(probes.total() <= bound, "{}", context());
        }
        let Sums { sum, as_lent } = sums;
        assert_eq!(
            probe_bound(&ends, fewest as u32),
            Ok(as_lent),
            "{}",
            context()
        );

        // The library agrees with the reference in each of these.
        let whole = whole(question).unwrap();
        let bounded = Limits {
            allowance: sum as u32,
            ..whole
        };
        let outcome = comparer.compare(seed, question, bounded);
        let Outcome::Accepted {
            parts,
            doublings,
            halvings,
            ..
        } = outcome
        else {
            panic!("{outcome:?}, {}", context());
        };
        assert_eq!(parts, fewest as u64, "{}", context());
        let probes = Probes {
            doublings,
            halvings,
        };
        assert_eq!(probes, walk.all_probes(), "{}", context());

        // Buffers that are too small are refused for what they are.
        for (answers, bytes) in [
            (0, whole.bytes),
            (whole.answers.saturating_sub(1), whole.bytes),
            (whole.answers, whole.bytes - 1),
            (whole.answers, whole.bytes / 2),
        ] {
            let limits = Limits {
                answers,
                bytes,
                ..bounded
            };
            comparer.compare(seed, question, limits);
        }
    }
    assert_eq!(comparer.seen[7], 0, "seed {seed}");
}

/// Compares walks of random runs.
fn random_walks(group: u64, cases: u64, [fewest, most]: [usize; 2], length: usize) {
    for seed in seeds(group, cases) {
        let mut random = Random(seed);
        let k = random.from_to(fewest, most);
        let runs = any_runs(&mut random, k, length);
        within_the_bound(seed, &mut random, &runs);
    }
}

#[test]
fn small_walks() {
    random_walks(21, 5_000, [1, 6], 7);
}

#[test]
fn two_or_three_longer_runs() {
    random_walks(22, 150, [1, 3], 40);
}

#[test]
fn many_short_runs() {
    random_walks(23, 20, [10, 64], 2);
}

/// Compares questions about every choice of the runs, in one call, with the
/// fewest parts possible for the chosen runs: each run's probes and the sum over
/// all questions.
fn chosen_within_the_bound(seed: u64, random: &mut Random, runs: &[Vec<u32>]) {
    let mut call = Call::new(runs, &[], &[]);
    let mut allowance = 0;
    for mask in 1..=all_runs(runs.len()) {
        let threshold = random.from_to(1, mask.count_ones() as usize) as u32;
        call.masks.push(mask);
        call.thresholds.push(threshold);
        let weighting = Weighting::Chosen(mask);
        let fewest = fewest_parts_by(&slices(runs), weighting, threshold) as u32;
        let walk = trace_by(&call.numbers, &call.ends, weighting, threshold).unwrap();
        let mut sums = Sums::default();
        for (i, (run, &probes)) in runs.iter().zip(&walk.probes).enumerate() {
            let bound = match mask >> i & 1 {
                1 => sums.add(run, fewest.into()),
                _ => 0,
            };
            assert!(probes.total() <= bound, "seed {seed}: run {i}, {call:?}");
        }
        let bound = probe_bound_chosen(&call.ends, mask, fewest);
        assert_eq!(
            bound,
            Ok(sums.as_lent),
            "seed {seed}: mask {mask}, {call:?}"
        );
        allowance += sums.sum as u32;
    }
    let whole = whole_many(&call).unwrap();
    let limits = Limits { allowance, ..whole };
    let row = many::Comparer::new().compare(seed, &call, limits, call.results());
    assert_eq!(
        (row[0], row[6] + row[7]),
        (0, whole.allowance.into()),
        "seed {seed}: {call:?}"
    );
}

#[test]
fn every_choice() {
    for seed in seeds(25, 1_500) {
        let mut random = Random(seed);
        let k = random.from_to(1, 5);
        let runs = any_runs(&mut random, k, 7);
        chosen_within_the_bound(seed, &mut random, &runs);
    }
}
