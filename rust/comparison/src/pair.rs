//! What both of two runs hold, asked of both sides.

use crate::listing::{rooms_near, row_of, Listing, Rows};
use crate::met::Refusals;
use crate::question::{ask, written, Limits, Question};
use crate::shapes::any_runs;
use crate::Row;
use quorum::{enough_answers, enough_bytes, Refusal, StoppedPair, ENOUGH_PROBES};
use reference::testing::{lay_out, mark_some, Random, M};
use reference::{bins, split_runs};
use std::fmt;

/// Two runs, or rows that are refused.
#[derive(Clone, Copy)]
pub struct Pair<'a> {
    /// All runs, one after another.
    pub numbers: &'a [u32],
    /// Where each run ends.
    pub ends: &'a [u32],
}

impl<'a> Pair<'a> {
    /// The pair in these rows.
    pub fn new(numbers: &'a [u32], ends: &'a [u32]) -> Self {
        Pair { numbers, ends }
    }

    /// How many answers are always enough: as many as the shorter run has bins.
    pub fn enough(self) -> usize {
        let [first, second, ..] = split_runs(self.numbers, self.ends);
        first.len().min(second.len())
    }
}

impl fmt::Debug for Pair<'_> {
    fn fmt(&self, f: &mut fmt::Formatter<'_>) -> fmt::Result {
        let Pair { numbers, ends } = self;
        write!(f, "pair, ends {:?}, numbers {:?}", Row(ends), Row(numbers))
    }
}

impl Listing for Pair<'_> {
    type Stopped = StoppedPair;

    fn stopped(refusal: Refusal, answers: usize) -> StoppedPair {
        StoppedPair { refusal, answers }
    }

    fn expect(self, answers: &mut [u32]) -> [u64; 3] {
        let outcome = reference::pair(self.numbers, self.ends, answers);
        row_of(outcome.refusal, outcome.answers)
    }

    fn call(self, answers: &mut [u32]) -> Result<usize, StoppedPair> {
        quorum::pair(self.numbers, self.ends, answers)
    }

    fn call_row(self, answers: &mut [u32]) -> [u64; 3] {
        quorum::ffi::pair(self.numbers, self.ends, answers)
    }
}

/// Makes the calls on both sides, compares, and counts what was seen.
#[derive(Default)]
pub struct Comparer {
    rows: Rows,
    /// How many calls ended with each refusal.
    pub seen: Refusals,
}

impl Comparer {
    /// Compares one call, and returns the row of the C interface.
    pub fn compare(&mut self, seed: u64, pair: Pair, room: usize) -> [u64; 3] {
        let row = self.rows.compare(seed, pair, room);
        self.seen.count(row[0]);
        row
    }

    /// The answer buffer as the library left it in the last comparison.
    pub fn found(&self) -> &[u32] {
        self.rows.found()
    }

    /// Each of the outcomes was met often enough.
    pub fn met(&self, outcomes: &[usize], times: u64) {
        self.seen.met("pairs", outcomes, times);
    }

    /// Compares the pair with room that is always enough, and with a question about
    /// the same two runs. Returns the row.
    ///
    /// # Panics
    ///
    /// If it is full, or if the question, with a threshold of 2, has other answers
    /// or another refusal.
    pub fn compare_enough(&mut self, seed: u64, pair: Pair) -> [u64; 3] {
        let row = self.compare(seed, pair, pair.enough());
        let [number, place, count] = row;
        assert_ne!(number, Refusal::ANSWERS_FULL, "seed {seed}: {pair:?}");
        if pair.ends.len() == 2 {
            let expected = ask_query(pair);
            let found = match number {
                0 => Ok(self.found()[..count as usize].to_vec()),
                _ => Err(Refusal { number, place }),
            };
            assert_eq!(found, expected, "seed {seed}: {pair:?}");
        }
        row
    }

    /// The same, and then with rooms of every kind: none, one short, exactly enough,
    /// more, and any.
    pub fn compare_rooms(&mut self, seed: u64, random: &mut Random, pair: Pair) {
        let [.., exact] = self.compare_enough(seed, pair);
        let exact = exact as usize;
        for room in rooms_near(exact, pair.enough()) {
            self.compare(seed, pair, room);
        }
        self.compare(seed, pair, random.below(exact + 1));
    }

    /// The same with every room up to two more than is always enough.
    pub fn compare_every_room(&mut self, seed: u64, pair: Pair) {
        self.compare_enough(seed, pair);
        for room in 0..=pair.enough() + 2 {
            self.compare(seed, pair, room);
        }
    }
}

/// The answers of the library's query with threshold 2, or its refusal.
fn ask_query(pair: Pair) -> Result<Vec<u32>, Refusal> {
    let question = Question::plain(pair.numbers, pair.ends, 2);
    let limits = Limits {
        allowance: ENOUGH_PROBES,
        answers: enough_answers(pair.numbers.len()),
        bytes: enough_bytes(pair.numbers.len()),
    };
    let (result, answers, _) = written(limits, |answers, certificate| {
        ask(question, limits.allowance, answers, certificate)
    });
    match result {
        Ok(_) => Ok(answers),
        Err(stopped) => Err(stopped.refusal),
    }
}

/// How two runs lie to one another.
#[derive(Clone, Copy, Debug, PartialEq, Eq, PartialOrd, Ord)]
pub enum Relation {
    /// They have equally many bins, at least one.
    EqualLengths,
    /// One of them, or both, have none.
    OneEmpty,
    /// One has at least ten times as many as the other, which has some.
    MuchLonger,
    /// They have some each, and none in common.
    NoneInCommon,
    /// They have several each, which come in turn.
    Interleaved,
    /// All of one, which is shorter and not empty, are in the other.
    Within,
    /// They are equal, and not empty.
    Equal,
    /// All of one are below all of the other.
    OneBelow,
    /// One begins with marks.
    Marked,
    /// Both have the last bin.
    LastBin,
}

/// All of them.
pub const RELATIONS: [Relation; 10] = [
    Relation::EqualLengths,
    Relation::OneEmpty,
    Relation::MuchLonger,
    Relation::NoneInCommon,
    Relation::Interleaved,
    Relation::Within,
    Relation::Equal,
    Relation::OneBelow,
    Relation::Marked,
    Relation::LastBin,
];

/// Whether two runs, as lent, lie so.
pub fn is_so(relation: Relation, [first, second]: [&[u32]; 2]) -> bool {
    let marked = [first, second].iter().any(|run| run.first() == Some(&0));
    let (first, second) = (bins(first), bins(second));
    let (shorter, longer) = match first.len() <= second.len() {
        true => (first, second),
        false => (second, first),
    };
    let some = !shorter.is_empty();
    let is_held = |x: &&u32| longer.binary_search(x).is_ok();
    let common = shorter.iter().filter(is_held).count();
    let last_below_first = |low: &[u32], high: &[u32]| low.last() < high.first();
    match relation {
        Relation::EqualLengths => some && first.len() == second.len(),
        Relation::OneEmpty => !some,
        Relation::MuchLonger => some && shorter.len() * 10 <= longer.len(),
        Relation::NoneInCommon => some && common == 0,
        Relation::Interleaved => {
            let mut all = [first, second].concat();
            all.sort_unstable();
            let in_turn = |run: &[u32]| all.iter().step_by(2).eq(run);
            shorter.len() > 1 && common == 0 && (in_turn(first) || in_turn(second))
        }
        Relation::Within => some && shorter.len() < longer.len() && common == shorter.len(),
        Relation::Equal => some && first == second,
        Relation::OneBelow => {
            some && (last_below_first(first, second) || last_below_first(second, first))
        }
        Relation::Marked => marked,
        Relation::LastBin => [first, second].iter().all(|run| run.last() == Some(&M)),
    }
}

/// Returns two runs of up to about `length` numbers each, in a third of all cases
/// of any shape, and else made from all bins of two such runs. In a third of all
/// cases runs begin with unmapped marks.
pub fn any_pair(random: &mut Random, length: usize) -> Vec<Vec<u32>> {
    let mut runs = any_runs(random, 2, length);
    if random.one_in(3) {
        return runs;
    }
    runs = related(random, &runs);
    if random.one_in(2) {
        runs.swap(0, 1);
    }
    mark_some(random, &mut runs);
    runs
}

/// Returns two runs that have something to do with each other, made from all bins of
/// these.
fn related(random: &mut Random, runs: &[Vec<u32>]) -> Vec<Vec<u32>> {
    let mut list: Vec<u32> = runs.iter().flat_map(|run| bins(run)).copied().collect();
    list.sort_unstable();
    list.dedup();
    let every = |from: usize, step| list.iter().skip(from).step_by(step).copied().collect();
    match random.below(10) {
        // Equal.
        0 => vec![list.clone(), list],
        // One within the other, perhaps much shorter.
        1 | 2 => {
            let step = random.pick(&[2, 3, 10, 40]);
            let from = random.below(step);
            vec![every(from, step), list]
        }
        // One and the other in turn.
        3 => vec![every(0, 2), every(1, 2)],
        // Each number in one of them.
        4 => {
            let (first, second) = list.iter().partition(|_| random.one_in(2));
            vec![first, second]
        }
        // One block after the other.
        5 => {
            let (low, high) = list.split_at(random.below(list.len() + 1));
            vec![low.to_vec(), high.to_vec()]
        }
        // The numbers and those after them.
        6 => {
            let next = list.iter().filter_map(|x| x.checked_add(1)).collect();
            vec![list, next]
        }
        // Equal lengths.
        7 => {
            let shorter = runs.iter().map(|run| bins(run).len()).min();
            let cut = |run: &Vec<u32>| bins(run)[..shorter.unwrap_or(0)].to_vec();
            runs.iter().map(cut).collect()
        }
        // Nothing on one side.
        8 => vec![list, vec![]],
        // Each bin of a small range in either.
        _ => {
            let last = random.from_to(1, 12) as u32;
            let mut any = || (1..=last).filter(|_| random.one_in(2)).collect();
            vec![any(), any()]
        }
    }
}

/// Compares random pairs with rooms of every kind.
pub fn compare_random(seeds: impl Iterator<Item = u64>, length: usize) -> Comparer {
    let mut comparer = Comparer::default();
    for seed in seeds {
        let mut random = Random(seed);
        let length = random.below(length + 1);
        let (numbers, ends) = lay_out(&any_pair(&mut random, length));
        comparer.compare_rooms(seed, &mut random, Pair::new(&numbers, &ends));
    }
    comparer
}
