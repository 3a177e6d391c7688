//! The weight in play, which is that of the runs that have a number left: runs of
//! very different lengths run out one by one, by a search or by a step past an
//! answer, until those that are left weigh too little.

use comparison::many::{self, Call};
use comparison::met::Met;
use comparison::question::{walk_of, Comparer, Question};
use comparison::seeds;
use comparison::shapes::uneven_runs;
use reference::testing::{any_weights, lay_out, weight_of, Random, Wanted, M};
use reference::{named_runs, trace_by, Part, Trace, Weighting, MAX_RUNS};
use std::cmp::Reverse;

/// What a walk meets as its runs run out.
#[derive(Clone, Copy, Debug, PartialEq, Eq, PartialOrd, Ord)]
enum Event {
    /// A search leaves a run no number. Its place is what the run weighs.
    Search,
    /// A step past an answer does. Its place is how many runs the step moves.
    Step,
    /// A round searches no run. Its place is how many rounds there are.
    NoSearch,
    /// The last round but one begins with exactly what is wanted in play. Its
    /// place is that weight.
    Enough,
    /// The walk ends with one less than what is wanted. Its place is as before.
    OneShort,
    /// The walk ends with runs that have a number left. Its place is how many.
    HeadsLeft,
    /// The walk ends in its first round, as runs have no number at all. Its place
    /// is how many have one.
    AtOnce,
}

/// The mask of the chosen runs that have a head as each round of a walk begins,
/// the one that ends it included: those with a bin not below the floor.
fn heads_of(runs: &[Vec<u32>], chosen: u64, parts: &[Part]) -> Vec<u64> {
    let mut heads = Vec::new();
    let mut is_after_gap = false;
    for part in parts {
        let (floor, is_gap) = match *part {
            Part::Gap { first, .. } => (first, true),
            Part::Answer { value, .. } => (value, false),
        };
        // An answer right after a gap is of the same round.
        if is_gap || !is_after_gap {
            let has_head = |&i: &usize| runs[i].last() >= Some(&floor);
            heads.push(named_runs(chosen).filter(has_head).map(|i| 1 << i).sum());
        }
        is_after_gap = is_gap;
    }
    heads
}

/// Counts what the walk of the chosen runs meets, which have these weights.
fn look(
    met: &mut Met<Event>,
    (runs, chosen): (&[Vec<u32>], u64),
    weights: &[u32],
    wanted: u32,
    walk: &Trace,
) {
    let heads = heads_of(runs, chosen, &walk.parts);
    let mut stepped = 0;
    for part in &walk.parts {
        if let Part::Answer { value, mask } = *part {
            for i in named_runs(mask).filter(|&i| value < M && runs[i].last() == Some(&value)) {
                met.count(Event::Step, mask.count_ones().into());
                stepped |= 1 << i;
            }
        }
    }
    let left = heads[heads.len() - 1];
    // A run whose last number is no answer runs out by a search.
    for i in named_runs(heads[0] & !left & !stepped) {
        met.count(Event::Search, weights[i].into());
    }
    if walk.searches.len() + 1 < heads.len() {
        met.count(Event::NoSearch, heads.len() as u64);
    }
    let in_play = weight_of(weights, left);
    if wanted <= in_play {
        // It ended with an answer.
        return;
    }
    if in_play == wanted - 1 {
        met.count(Event::OneShort, wanted.into());
    }
    if left != 0 {
        met.count(Event::HeadsLeft, left.count_ones().into());
    }
    match heads[..] {
        [.., before, _] if weight_of(weights, before) == wanted => {
            met.count(Event::Enough, wanted.into());
        }
        [_] => met.count(Event::AtOnce, left.count_ones().into()),
        _ => (),
    }
}

/// Each was met so often, with runs of so many different weights.
fn met_each(met: &Met<Event>, name: &str, times: usize, weights: usize) {
    let places = [
        (Event::Search, weights),
        (Event::Step, 40),
        (Event::NoSearch, 40),
        (Event::Enough, 20),
        (Event::OneShort, 20),
        (Event::HeadsLeft, 40),
        (Event::AtOnce, 20),
    ];
    met.met(name, &places.map(|(event, places)| (event, times, places)));
}

fn any_uneven(random: &mut Random) -> Vec<Vec<u32>> {
    let k = random.pick(&[2, 3, 5, 9, 17, 33, 60, 64]);
    let length = random.pick(&[5, 20, 60]);
    uneven_runs(random, k, length)
}

/// What any number of the runs that end last weigh, or one more: what is in play
/// comes to that once the others have run out.
fn any_reached(random: &mut Random, runs: &[Vec<u32>], weights: &[u32]) -> u32 {
    let has_bin = |&i: &usize| runs[i].last() > Some(&0);
    let mut order: Vec<usize> = (0..runs.len()).filter(has_bin).collect();
    order.sort_by_key(|&i| Reverse(runs[i].last()));
    let last = &order[..random.below(order.len() + 1)];
    let weight: u32 = last.iter().map(|&i| weights[i]).sum();
    let total = weights.iter().sum();
    (weight + random.below(2) as u32).clamp(1, total)
}

#[test]
fn single_questions() {
    for weighted in [false, true] {
        let mut comparers = [Comparer::new(), Comparer::of_rows()];
        let mut met = Met::default();
        for seed in seeds(141, 5_000) {
            let mut random = Random(seed);
            let runs = any_uneven(&mut random);
            let (numbers, ends) = lay_out(&runs);
            let weights = match weighted {
                true => any_weights(&mut random, runs.len()),
                false => vec![1; runs.len()],
            };
            let threshold = any_reached(&mut random, &runs, &weights);
            let wanted = match weighted {
                true => Wanted::weighted(&weights, threshold),
                false => Wanted::plain(threshold),
            };
            let question = Question::wanting(&numbers, &ends, &wanted);
            let walk = walk_of(question).unwrap();
            let all = u64::MAX >> (MAX_RUNS - runs.len());
            look(&mut met, (&runs, all), &weights, threshold, &walk);
            for comparer in &mut comparers {
                comparer.compare_limits(seed, &mut random, question);
            }
        }
        let (name, different) = match weighted {
            true => ("weights", 200),
            false => ("no weights", 1),
        };
        met_each(&met, name, 400, different);
        for comparer in comparers {
            comparer.met(&[0, 5, 6, 7], 1_000);
        }
    }
}

/// Each question is about some of the runs: the others are never in play.
#[test]
fn many_questions() {
    let mut comparers = [many::Comparer::new(), many::Comparer::of_rows()];
    let mut met = Met::default();
    for seed in seeds(142, 2_000) {
        let mut random = Random(seed);
        let runs = any_uneven(&mut random);
        let questions = random.from_to(2, 5);
        let call = Call::any(&mut random, &runs, questions);
        for (&mask, &t) in call.masks.iter().zip(&call.thresholds) {
            let walk = trace_by(&call.numbers, &call.ends, Weighting::Chosen(mask), t);
            let weights = vec![1; runs.len()];
            look(&mut met, (&runs, mask), &weights, t, &walk.unwrap());
        }
        for comparer in &mut comparers {
            comparer.compare_limits(seed, &mut random, &call);
        }
    }
    met_each(&met, "many questions", 400, 1);
    for comparer in comparers {
        comparer.met(&[0, 5, 6, 7], 1_000);
    }
}
