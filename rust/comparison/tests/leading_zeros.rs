//! Runs that begin with any number of unmapped marks, which are zeros: every
//! number of them about blocks of 64 numbers, a fault at every place after them,
//! and as many as a row may have. All calls that are lent runs are compared.

use comparison::alone::Alone;
use comparison::between;
use comparison::certificates::Task;
use comparison::many::{self, Call};
use comparison::pair::{self, Pair};
use comparison::question::{whole, Asked, Comparer, Limits, Question};
use comparison::verdicts::{walks_own, Seen};
use reference::testing::{gap, lay_out, marked, slices, Wanted, M};
use reference::{all_runs, bins, encode, first_checks, Refusal, MAX_NUMBERS, MAX_RUNS};

/// What limits are lent where the first checks refuse.
const SOME: Limits = Limits {
    allowance: M,
    answers: 3,
    bytes: 50,
};

/// Both sides of all calls that are lent runs.
struct Calls {
    single: [Comparer; 2],
    alone: [Comparer; 2],
    many: [many::Comparer; 2],
    pair: pair::Comparer,
    checked: Seen,
}

impl Calls {
    fn new() -> Self {
        Calls {
            single: [Comparer::new(), Comparer::of_rows()],
            alone: [Comparer::new(), Comparer::of_rows()],
            many: [many::Comparer::new(), many::Comparer::of_rows()],
            pair: pair::Comparer::default(),
            checked: Seen::default(),
        }
    }

    /// Compares a question, the same with weights, many questions, what the first
    /// run holds alone, what the first two both hold, checks for all runs, by weight
    /// and for chosen runs, and parts of each run. Returns the refusal of the first
    /// checks, which those about all runs make.
    fn compare(&mut self, runs: &[Vec<u32>], threshold: u32) -> Option<Refusal> {
        let (numbers, ends) = lay_out(runs);
        let refusal = first_checks(&numbers, &ends, threshold).err();
        let weights: Vec<u32> = (0..runs.len()).map(|i| 1 + 84 * (i as u32 % 4)).collect();
        let weight = weights[..threshold as usize].iter().sum();
        for wanted in [Wanted::plain(threshold), Wanted::weighted(&weights, weight)] {
            let question = Question::wanting(&numbers, &ends, &wanted);
            let limits = whole(question).unwrap_or(SOME);
            for comparer in &mut self.single {
                comparer.compare(0, question, limits);
            }
            self.compare_checks(runs, question, refusal.is_none());
        }
        self.compare_many(runs, threshold);
        let of_others = threshold.min(runs.len() as u32 - 1);
        let question = Alone::new(&numbers, &ends, of_others);
        let limits = question.whole().unwrap_or(SOME);
        for comparer in &mut self.alone {
            comparer.compare(0, question, limits);
        }
        let (numbers, ends) = lay_out(&runs[..runs.len().min(2)]);
        let pair = Pair::new(&numbers, &ends);
        self.pair.compare_enough(0, pair);
        self.pair.compare(0, pair, 1);
        for run in runs {
            for (first, last) in [(0, M), (0, 0), (1, 9), (M, M)] {
                between::compare(0, run, first, last);
            }
        }
        refusal
    }

    /// Asks about all runs and about each of the first two, several times.
    fn compare_many(&mut self, runs: &[Vec<u32>], threshold: u32) {
        let questions = [(all_runs(runs.len()), threshold), (1, 1), (2, 1)];
        let questions = &questions[..runs.len().min(2) + 1];
        let (masks, thresholds): (Vec<u64>, Vec<u32>) = questions.iter().copied().unzip();
        let call = Call::new(runs, &masks.repeat(3), &thresholds.repeat(3));
        let limits = many::whole(&call).unwrap_or(SOME);
        for comparer in &mut self.many {
            comparer.compare(0, &call, limits, call.results());
        }
    }

    /// Checks the walk's own certificates, or bytes that are none if there is no
    /// walk, and one gap over all bins, which is true if the runs that it names have
    /// none.
    fn compare_checks(&mut self, runs: &[Vec<u32>], question: Question, is_walked: bool) {
        let runs = slices(runs);
        let own = |task| match is_walked {
            true => encode(&walks_own(task)),
            false => vec![7],
        };
        let all = Task {
            runs: &runs,
            weighting: question.weighting,
            threshold: question.threshold,
        };
        let number = self.checked.compare(0, question, &own(all));
        assert_eq!(number == 0, is_walked);
        let number = self
            .checked
            .compare(0, question, &encode(&[gap(1, M, all.chosen())]));
        let is_empty = runs.iter().all(|run| bins(run).is_empty());
        assert_eq!(number == 0, is_walked && is_empty);
        let first = Task::of_chosen(&runs, 1, 1);
        let question = Question::plain(question.numbers, question.ends, 1);
        self.checked.compare(0, question.choosing(1), &own(first));
    }
}

#[test]
fn every_number_of_marks() {
    let mut calls = Calls::new();
    for marks in (0..=200).chain([255, 256, 257, 1_023, 1_024, 1_025]) {
        for bins in [&[][..], &[1], &[5, 9, M]] {
            let one = marked(&[bins], &[marks]);
            assert_eq!(calls.compare(&one, 1), None);
            let others: [&[u32]; 3] = [bins, &[5, 7], &[]];
            let three = marked(&others, &[marks, marks / 2, 2 * marks]);
            for threshold in 1..=3 {
                assert_eq!(calls.compare(&three, threshold), None);
            }
        }
    }
}

/// A 0, the number before once more, or one below it, at every place after the
/// first bin. Marks before it, and in the run before its own, count in its place; a
/// fault after it does not matter.
#[test]
fn every_place_of_a_fault() {
    let mut calls = Calls::new();
    let bins: Vec<u32> = (1..=140).map(|i| 10 * i).collect();
    for [before, marks] in [
        [0, 0],
        [0, 1],
        [1, 2],
        [3, 62],
        [64, 63],
        [65, 64],
        [128, 65],
        [66, 129],
    ] {
        let runs = [&[][..], &bins, &[5, 5]];
        let good = marked(&runs, &[before, marks, 2]);
        for place in 1..bins.len() {
            for number in [0, bins[place - 1], bins[place - 1] - 1] {
                let mut runs = good.clone();
                runs[1][marks + place] = number;
                let place = (before + marks + place) as u64;
                let refusal = Refusal { number: 4, place };
                assert_eq!(calls.compare(&runs, 1), Some(refusal));
            }
        }
    }
}

/// Rows of as many numbers as are allowed, nearly all of them marks: one run, and
/// 64 of which all or the first alone begin with many.
fn most_marks() -> [Vec<Vec<u32>>; 4] {
    let three_bins: Vec<[u32; 3]> = (1..=MAX_RUNS as u32).map(|i| [i, 500, M]).collect();
    let one_bin: Vec<[u32; 1]> = (1..=MAX_RUNS as u32).map(|i| [i % 7 + 1]).collect();
    let each = MAX_NUMBERS / MAX_RUNS;
    let mut first_alone = [0; MAX_RUNS];
    first_alone[0] = MAX_NUMBERS - MAX_RUNS;
    [
        marked(&[[5, 9, M]], &[MAX_NUMBERS - 3]),
        marked(&[[]], &[MAX_NUMBERS]),
        marked(&three_bins, &[each - 3; MAX_RUNS]),
        marked(&one_bin, &first_alone),
    ]
}

#[test]
fn most_numbers() {
    let mut calls = Calls::new();
    for mut runs in most_marks() {
        let k = runs.len();
        assert_eq!(runs.iter().map(Vec::len).sum::<usize>(), MAX_NUMBERS);
        for threshold in [1, k.div_ceil(2) as u32, k as u32] {
            assert_eq!(calls.compare(&runs, threshold), None);
        }
        let refusal = |number, place: usize| {
            let place = place as u64;
            Some(Refusal { number, place })
        };
        // One mark more.
        runs[0].insert(0, 0);
        assert_eq!(calls.compare(&runs, 1), refusal(3, k));
        // One less, and a 0 at the far end, which is no mark after a bin.
        runs[0].drain(..2);
        runs[k - 1].push(0);
        let expected = match runs[k - 1].iter().any(|&x| x > 0) {
            true => refusal(4, MAX_NUMBERS - 1),
            false => None,
        };
        assert_eq!(calls.compare(&runs, 1), expected);
    }
    assert_eq!(calls.single[0].seen[3], 2 * 4);
    assert_eq!(calls.single[0].seen[4], 2 * 3);
}
