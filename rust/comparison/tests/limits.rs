//! Buffers and allowances that are exactly enough, one too small, and always
//! enough.

use comparison::question::{self, result_of, whole, Comparer, Limits, Question};
use comparison::seeds;
use comparison::shapes::{any_runs, shaped_runs, SHAPES};
use quorum::{
    enough_answers, enough_bytes, Counts, Refusal, Stopped, ENOUGH_PROBES, MAX_NUMBERS, MAX_RUNS,
};
use reference::testing::{any_weights, lay_out, Random, Wanted, THREE_RUNS};
use reference::{bins, digits};

/// The limits with one less of each that is above 0, and the refusal that is
/// due then.
fn one_less(limits: Limits) -> impl Iterator<Item = (u64, Limits)> {
    let allowance = limits.allowance.checked_sub(1);
    let answers = limits.answers.checked_sub(1);
    let bytes = limits.bytes.checked_sub(1);
    let less = [
        answers.map(|answers| (Refusal::ANSWERS_FULL, Limits { answers, ..limits })),
        bytes.map(|bytes| (Refusal::CERTIFICATE_FULL, Limits { bytes, ..limits })),
        allowance.map(|allowance| {
            let limits = Limits {
                allowance,
                ..limits
            };
            (Refusal::ALLOWANCE_SPENT, limits)
        }),
    ];
    less.into_iter().flatten()
}

/// A query that uses up all that it is lent, with nothing more due, is
/// accepted; with one less of anything it is refused for that, having written
/// what the reference wrote.
#[test]
fn exactly_used_up() {
    let mut comparer = Comparer::new();
    for seed in seeds(71, 10_000) {
        let mut random = Random(seed);
        let k = random.pick(&[1, 2, 3, 5, 9, 64]);
        let (numbers, ends) = lay_out(&any_runs(&mut random, k, 8));
        let wanted = Wanted::any(&mut random, k);
        let question = Question::wanting(&numbers, &ends, &wanted);
        let limits = whole(question).unwrap();
        let outcome = comparer.compare(seed, question, limits);
        let counts = result_of(outcome).unwrap();
        assert_eq!(counts.answers, limits.answers, "seed {seed}");
        assert_eq!(counts.bytes, limits.bytes, "seed {seed}");
        assert_eq!(counts.probes(), limits.allowance.into(), "seed {seed}");
        for (number, limits) in one_less(limits) {
            let outcome = comparer.compare(seed, question, limits);
            let stopped = result_of(outcome).unwrap_err();
            assert_eq!(stopped.refusal.number, number, "seed {seed}");
        }
    }
    comparer.met(&[0, 5, 6, 7], 3_000);
}

/// Asks the library alone, with buffers of its own.
fn ask(question: Question, limits: Limits) -> Result<Counts, Stopped> {
    let (mut answers, mut certificate) = (vec![0; limits.answers], vec![0; limits.bytes]);
    question::ask(question, limits.allowance, &mut answers, &mut certificate)
}

/// The same of one question, in numbers.
#[test]
fn three_runs() {
    let (numbers, ends) = lay_out(&THREE_RUNS);
    let question = Question::plain(&numbers, &ends, 2);
    let exact = Limits {
        allowance: 3,
        answers: 2,
        bytes: 106,
    };
    let counts = |answers, parts, bytes, doublings| Counts {
        answers,
        parts,
        bytes,
        doublings,
        halvings: 0,
    };
    assert_eq!(ask(question, exact), Ok(counts(2, 6, 106, 3)));
    let stopped: Vec<Stopped> = one_less(exact)
        .map(|(_, limits)| ask(question, limits).unwrap_err())
        .collect();
    let refusal = |number, place| Refusal { number, place };
    let expected = [
        (refusal(5, 4), counts(1, 4, 72, 3)),
        (refusal(6, 5), counts(2, 5, 87, 3)),
        (refusal(7, 4), counts(1, 4, 72, 2)),
    ];
    let expected = expected.map(|(refusal, counts)| Stopped { refusal, counts });
    assert_eq!(stopped, expected);
}

/// The bounds of the documentation on what a query of these runs needs: the sum
/// of 2 × n × b over the runs, n being the bins of the run, and the same of all
/// numbers.
fn enough_probes(runs: &[Vec<u32>]) -> [u64; 2] {
    let enough = |n: usize| 2 * n as u64 * u64::from(digits(n as u64));
    let each = runs.iter().map(|run| enough(bins(run).len())).sum();
    [each, enough(runs.iter().map(Vec::len).sum())]
}

/// Asks with no more than the documentation calls enough.
fn within_enough(comparer: &mut Comparer, seed: u64, runs: &[Vec<u32>], wanted: &Wanted) {
    let (numbers, ends) = lay_out(runs);
    let question = Question::wanting(&numbers, &ends, wanted);
    let [each, all] = enough_probes(runs);
    assert!(each <= all && all <= ENOUGH_PROBES.into(), "seed {seed}");
    let limits = Limits {
        allowance: each as u32,
        answers: enough_answers(numbers.len()),
        bytes: enough_bytes(numbers.len()),
    };
    let outcome = comparer.compare(seed, question, limits);
    let accepted = matches!(outcome, reference::Outcome::Accepted { .. });
    assert!(accepted, "seed {seed}: {outcome:?}");
}

#[test]
fn always_enough() {
    let mut comparer = Comparer::new();
    for seed in seeds(72, 20_000) {
        let mut random = Random(seed);
        let k = random.pick(&[1, 2, 3, 4, 7, 20, 64]);
        let length = random.pick(&[1, 2, 3, 8, 30]);
        let runs = any_runs(&mut random, k, length);
        let wanted = Wanted::any(&mut random, k);
        within_enough(&mut comparer, seed, &runs, &wanted);
    }
}

#[test]
fn always_enough_for_most_numbers() {
    let mut comparer = Comparer::new();
    for (seed, shape) in seeds(73, 6).zip(SHAPES) {
        let mut random = Random(seed);
        let k = random.pick(&[2, 7, MAX_RUNS]);
        let mut runs = shaped_runs(&mut random, shape, k, MAX_NUMBERS / k);
        let mut room = MAX_NUMBERS;
        for run in &mut runs {
            run.truncate(room);
            room -= run.len();
        }
        let weights = any_weights(&mut random, k);
        for wanted in [
            Wanted::plain(1),
            Wanted::plain(2),
            Wanted::plain(k as u32),
            Wanted::any_of(&mut random, &weights),
        ] {
            within_enough(&mut comparer, seed, &runs, &wanted);
        }
    }
    let most = [(1..=MAX_NUMBERS as u32).collect()];
    assert_eq!(enough_probes(&most), [ENOUGH_PROBES.into(); 2]);
    within_enough(&mut comparer, 0, &most, &Wanted::plain(1));
    within_enough(&mut comparer, 0, &most, &Wanted::weighted(&[255], 255));
}

/// One run of numbers with gaps between them needs all the room.
#[test]
fn no_room_to_spare() {
    for n in 0..20 {
        let run: Vec<u32> = (1..=n).map(|i| 2 * i).collect();
        let ends = [n];
        let question = Question::plain(&run, &ends, 1);
        let limits = whole(question).unwrap();
        assert_eq!(limits.answers, enough_answers(run.len()));
        assert_eq!(limits.bytes, enough_bytes(run.len()));
    }
    assert_eq!(enough_bytes(usize::MAX), usize::MAX);
}
