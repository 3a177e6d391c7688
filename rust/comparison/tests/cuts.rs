//! Allowances that end a search before its first probe, in its doubling, where
//! its halving begins, and in its halving: what is told of each kind of probe,
//! by the searches of the whole walk.

use comparison::cuts::Cuts;
use comparison::many::{self, whole as whole_many, Call};
use comparison::question::{row_of, walk_of, whole, Comparer, Limits, Question};
use comparison::seeds;
use comparison::shapes::any_runs;
use reference::testing::{lay_out, Random, Wanted};
use reference::{trace_by, Probes, Weighting};

/// Runs in which searches go from a step to far.
fn searched_runs(random: &mut Random, k: usize) -> Vec<Vec<u32>> {
    let length = random.pick(&[8, 30, 100, 400]);
    any_runs(random, k, length)
}

/// Without weights, and with them in half of all cases.
#[test]
fn single_questions() {
    let mut comparers = [Comparer::new(), Comparer::of_rows()];
    let mut cuts = Cuts::default();
    for seed in seeds(111, 6_000) {
        let mut random = Random(seed);
        let k = random.from_to(2, 6);
        let (numbers, ends) = lay_out(&searched_runs(&mut random, k));
        let wanted = match Wanted::any(&mut random, k) {
            // One run of two or more needs no search.
            wanted if wanted.threshold > 1 => wanted,
            _ => Wanted::plain(2),
        };
        let question = Question::wanting(&numbers, &ends, &wanted);
        let walk = walk_of(question).unwrap();
        let whole = whole(question).unwrap();
        for made in cuts.any_of_each(&mut random, walk.searches) {
            let limits = Limits {
                allowance: made.total() as u32,
                ..whole
            };
            for comparer in &mut comparers {
                let row = row_of(comparer.compare(seed, question, limits));
                let expected = [7, made.doublings, made.halvings];
                assert_eq!([row[0], row[5], row[6]], expected, "seed {seed}");
            }
        }
    }
    cuts.met(1_000);
}

/// The probes of a call are those of the questions before, whole, and those of
/// the question that is cut.
#[test]
fn many_questions() {
    let mut comparers = [many::Comparer::new(), many::Comparer::of_rows()];
    let mut cuts = Cuts::default();
    let mut after_halvings = 0;
    for seed in seeds(112, 2_000) {
        let mut random = Random(seed);
        let k = random.from_to(2, 6);
        let runs = searched_runs(&mut random, k);
        let questions = random.from_to(2, 5);
        let call = Call::any(&mut random, &runs, questions);
        let asked = call.masks.iter().zip(&call.thresholds);
        let walk = |(&mask, &t)| trace_by(&call.numbers, &call.ends, Weighting::Chosen(mask), t);
        let walks: Vec<Vec<Probes>> = asked
            .map(|question| walk(question).unwrap().searches)
            .collect();
        let whole = whole_many(&call).unwrap();
        for made in cuts.any_of_each(&mut random, walks.concat()) {
            let limits = Limits {
                allowance: made.total() as u32,
                ..whole
            };
            for comparer in &mut comparers {
                let row = comparer.compare(seed, &call, limits, call.results());
                let expected = [7, made.doublings, made.halvings];
                assert_eq!([row[0], row[6], row[7]], expected, "seed {seed}");
                let before = walks[..row[2] as usize].concat();
                let before: Probes = before.into_iter().sum();
                after_halvings += u64::from(before.halvings > 0);
            }
        }
    }
    cuts.met(500);
    assert!(after_halvings > 500, "{after_halvings}");
}
