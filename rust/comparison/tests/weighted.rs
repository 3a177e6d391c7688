//! Weights alone: every combination of faults of the first checks, rows of every
//! length, bad weights at every place, and runs that weigh 1 each, which are as
//! runs without weights.

use comparison::question::{ask, limits_near, row_of, walk_of, whole, Comparer, Limits, Question};
use comparison::seeds;
use comparison::shapes::any_runs;
use comparison::verdicts::Seen;
use reference::testing::{lay_out, Random, Wanted, M};
use reference::{encode, Weighting, MAX_RUNS};

/// Both sides of the calls that are lent weights.
struct Calls {
    asked: [Comparer; 2],
    checked: Seen,
}

impl Calls {
    fn new() -> Self {
        Calls {
            asked: [Comparer::new(), Comparer::of_rows()],
            checked: Seen::default(),
        }
    }

    /// Compares a question, and a check of bytes that are no field. Returns the
    /// refusal of the first checks with its place; `None` if they pass.
    fn compare(&mut self, question: Question) -> Option<(u64, u64)> {
        let limits = Limits {
            allowance: M,
            answers: 70,
            bytes: 100,
        };
        let [comparer, of_rows] = &mut self.asked;
        of_rows.compare(0, question, limits);
        let row = row_of(comparer.compare(0, question, limits));
        let number = self.checked.compare(0, question, &[7]);
        let is_refused = !matches!(row[0], 0 | 5..=7);
        assert_eq!(number, if is_refused { row[0] } else { 8 });
        assert!(!is_refused || row[2..] == [0; 5]);
        is_refused.then_some((row[0], row[1]))
    }
}

/// A fault of each first check, and the refusal that each of them is if no other
/// comes before it.
#[test]
fn every_combination_of_faults() {
    let mut calls = Calls::new();
    let mut seen = [0; 18];
    for k in [0, 1, 2, 3, 63, 64, 65, 66] {
        for faults in 0..3 * 4 * 3 * 3 * 2 {
            let [length, weight, wanted, end, rising] = digits(faults, [3, 4, 3, 3, 2]);
            let (mut numbers, mut ends) = lay_out(&vec![[3, 9]; k]);
            let mut weights = vec![2; k];
            let total = 2 * k as u32;
            match weight {
                1 => weights.iter_mut().take(1).for_each(|weight| *weight = 0),
                2 => weights
                    .iter_mut()
                    .skip(k / 2)
                    .for_each(|weight| *weight = 256),
                3 => weights
                    .iter_mut()
                    .skip(k.max(1) - 1)
                    .for_each(|weight| *weight = M),
                _ => (),
            }
            let row_length = [k, k + 1, k.saturating_sub(1)][length];
            weights.resize(row_length, 2);
            if end == 1 && k > 1 {
                ends[k - 1] = 1;
            }
            if end == 2 {
                numbers.push(12);
            }
            if rising == 1 && k > 0 {
                numbers[1] = 3;
            }
            let question = Question {
                weighting: Weighting::Given(&weights),
                ..Question::plain(&numbers, &ends, [total, 0, total + 1][wanted])
            };
            let place = k as u64;
            let expected = if !(1..=MAX_RUNS).contains(&k) {
                Some((1, place))
            } else if length > 0 {
                Some((17, place))
            } else if weight > 0 {
                Some((17, [0, k / 2, k - 1][weight - 1] as u64))
            } else if wanted > 0 {
                Some((2, question.threshold.into()))
            } else if end == 1 && k > 1 {
                Some((3, place - 1))
            } else if end == 2 {
                Some((3, place))
            } else if rising == 1 {
                Some((4, 1))
            } else {
                None
            };
            assert_eq!(calls.compare(question), expected, "{question:?}");
            seen[expected.map_or(0, |(number, _)| number as usize)] += 1;
        }
    }
    assert!(
        [0, 1, 2, 3, 4, 17].iter().all(|&number| seen[number] > 0),
        "{seen:?}"
    );
}

/// A number written with digits of these bases, the first the lowest.
fn digits<const N: usize>(mut number: usize, bases: [usize; N]) -> [usize; N] {
    bases.map(|base| {
        let digit = number % base;
        number /= base;
        digit
    })
}

#[test]
fn every_length() {
    let mut calls = Calls::new();
    for k in 1..=MAX_RUNS {
        let (numbers, ends) = lay_out(&vec![[7]; k]);
        for length in (0..=130).chain([255, 256, 257, 1_000]) {
            for weight in [0, 1, 255, 256] {
                let wanted = Wanted::weighted(&vec![weight; length], 1);
                let expected = match (length == k, weight) {
                    (false, _) => Some((17, k as u64)),
                    (true, 0 | 256) => Some((17, 0)),
                    (true, _) => None,
                };
                let question = Question::wanting(&numbers, &ends, &wanted);
                assert_eq!(calls.compare(question), expected, "{question:?}");
            }
        }
    }
}

/// The first bad weight is told, whatever comes after it.
#[test]
fn every_place() {
    let mut calls = Calls::new();
    for k in 1..=MAX_RUNS {
        let (numbers, ends) = lay_out(&vec![[7]; k]);
        for place in 0..k {
            for bad in [0, 256, 257, 510, 0x0001_0001, 1 << 31, M - 254, M] {
                let mut weights = vec![255; k];
                weights[place] = bad;
                for after in &mut weights[place + 1..] {
                    *after = bad ^ 1;
                }
                let wanted = Wanted::weighted(&weights, 1);
                let question = Question::wanting(&numbers, &ends, &wanted);
                let expected = Some((17, place as u64));
                assert_eq!(calls.compare(question), expected, "{question:?}");
            }
        }
    }
}

/// Every weight of one run, and of the last of 64; all that they come to is
/// accepted, and one more is not.
#[test]
fn every_weight() {
    let mut calls = Calls::new();
    for k in [1, 2, MAX_RUNS] {
        let (numbers, ends) = lay_out(&vec![[7]; k]);
        for weight in 0..=600 {
            let mut weights = vec![255; k];
            weights[k - 1] = weight;
            let total = weights.iter().sum();
            for wanted in [1, total, total + 1] {
                let expected = match weight {
                    0 | 256.. => Some((17, k as u64 - 1)),
                    _ if wanted > total => Some((2, wanted.into())),
                    _ => None,
                };
                let wanted = Wanted::weighted(&weights, wanted);
                let question = Question::wanting(&numbers, &ends, &wanted);
                assert_eq!(calls.compare(question), expected, "{question:?}");
            }
        }
    }
}

/// With all weights 1 both calls return the same and write the same, and both
/// checkers say the same.
#[test]
fn all_weights_1() {
    let mut comparer = Comparer::new();
    let mut seen = Seen::default();
    for seed in seeds(131, 6_000) {
        let mut random = Random(seed);
        let k = random.pick(&[1, 2, 3, 5, 9, 30, 64]);
        let (numbers, ends) = lay_out(&any_runs(&mut random, k, 8));
        let threshold = random.from_to(0, k + 1) as u32;
        let wanted = [
            Wanted::plain(threshold),
            Wanted::weighted(&vec![1; k], threshold),
        ];
        let questions = [0, 1].map(|i| Question::wanting(&numbers, &ends, &wanted[i]));
        let exact = whole(questions[0]).unwrap_or(Limits {
            allowance: 9,
            answers: 9,
            bytes: 99,
        });
        for limits in limits_near(&mut random, exact) {
            comparer.compare_same(seed, questions, limits);
        }
        let parts = walk_of(questions[0]).map_or(Vec::new(), |walk| walk.parts);
        let mut bytes = encode(&parts);
        for _ in 0..4 {
            let numbers = questions.map(|question| seen.compare(seed, question, &bytes));
            assert_eq!(numbers[0], numbers[1], "seed {seed}: {:?}", questions[0]);
            if !bytes.is_empty() {
                let place = random.below(bytes.len());
                bytes[place] ^= 1 << random.below(8);
            }
        }
    }
    comparer.met(&[0, 2, 5, 6, 7], 500);
    seen.met(&[0, 2, 8, 9, 10, 11], 200);
}

/// What the library writes for runs with weights, its own checker accepts for the
/// same weights.
#[test]
fn asked_and_checked() {
    let mut seen = Seen::default();
    for seed in seeds(132, 10_000) {
        let mut random = Random(seed);
        let k = random.pick(&[1, 2, 3, 5, 9, 64]);
        let (numbers, ends) = lay_out(&any_runs(&mut random, k, 9));
        let wanted = Wanted::any_weighted(&mut random, k);
        let question = Question::wanting(&numbers, &ends, &wanted);
        let mut answers = vec![0; quorum::enough_answers(numbers.len())];
        let mut certificate = vec![0; quorum::enough_bytes(numbers.len())];
        let counts = ask(
            question,
            quorum::ENOUGH_PROBES,
            &mut answers,
            &mut certificate,
        );
        let counts = counts.expect("what is always enough");
        let certificate = &certificate[..counts.bytes];
        assert_eq!(seen.compare(seed, question, certificate), 0, "seed {seed}");
        let bound = quorum::probe_bound(&ends, counts.parts as u32).unwrap();
        assert!(counts.probes() <= bound, "seed {seed}");
    }
}
