//! Certificates checked on both sides: for all runs, for chosen ones, and by
//! weight.

use crate::certificates::{compare_parts, damage_bytes, Task};
use crate::many::any_choice;
use crate::met::Refusals;
use crate::question::{walk_of, Question};
use crate::shapes::any_runs;
use quorum::{Checked, Refusal};
use reference::testing::{gap, hit, lay_out, slices, Random, Wanted, M};
use reference::{all_runs, check_by, decode, encode, is_true_by, Part, Verdict, Weighting};

/// What counts in a random check.
#[derive(Clone, Copy, Debug, PartialEq, Eq)]
pub enum Kind {
    /// Every run counts for one.
    Plain,
    /// Those of the runs that a mask chooses count for one.
    Chosen,
    /// Every run counts for its weight.
    Weighted,
}

/// Compares checks on both sides, and counts what was seen.
#[derive(Default)]
pub struct Seen {
    /// How many certificates were refused with each number; 0 stands for true.
    pub refusals: Refusals,
    /// Of certificates judged by weight and without weights: how many were true
    /// by weight alone, and without weights alone.
    pub true_of_one: [u64; 2],
}

impl Seen {
    /// How many were seen.
    pub fn all(&self) -> u64 {
        self.refusals.all()
    }

    /// Each of the verdicts was met often enough.
    pub fn met(&self, numbers: &[usize], times: u64) {
        self.refusals.met("certificates", numbers, times);
    }

    /// Compares the verdicts and rows of both sides, and the parts that they
    /// read. Returns the refusal's number, 0 for a true certificate.
    pub fn compare(&mut self, seed: u64, question: Question, bytes: &[u8]) -> u64 {
        let Question {
            numbers,
            ends,
            weighting,
            threshold,
        } = question;
        let context = || format!("seed {seed}: certificate {bytes:?}, {question:?}");
        let expected = check_by(numbers, ends, weighting, threshold, bytes);
        let (result, row) = verdict_of(expected);
        let (found, found_row) = check(question, bytes);
        assert_eq!(found, result, "{}", context());
        assert_eq!(found_row, row, "{}", context());
        compare_read(seed, bytes, result, context);
        self.refusals.count(row[0]);
        row[0]
    }

    /// Compares, and compares with the definition of truth.
    pub fn compare_with_truth(&mut self, seed: u64, task: Task, bytes: &[u8]) -> u64 {
        let Task {
            runs,
            weighting,
            threshold,
        } = task;
        let (numbers, ends) = lay_out(runs);
        let question = Question {
            weighting,
            ..Question::plain(&numbers, &ends, threshold)
        };
        let number = self.compare(seed, question, bytes);
        let truth = |parts: &Vec<Part>| is_true_by(runs, weighting, threshold, parts);
        let truth = decode(bytes).as_ref().is_some_and(truth);
        assert_eq!(truth, number == 0, "seed {seed}: {question:?}");
        number
    }

    /// Compares for the task, and for the same runs with other weights or
    /// without: what is true for the one may be false for the other.
    fn compare_both(&mut self, seed: u64, random: &mut Random, task: Task, bytes: &[u8]) -> u64 {
        let number = self.compare_with_truth(seed, task, bytes);
        let k = task.runs.len();
        let other = match task.weighting {
            Weighting::Chosen(_) => return number,
            Weighting::Plain => Wanted::any_weighted(random, k),
            Weighting::Given(_) => Wanted::plain(random.from_to(1, k) as u32),
        };
        let by_other = self.compare_with_truth(seed, Task::wanting(task.runs, &other), bytes);
        let by_weight = matches!(task.weighting, Weighting::Given(_));
        match (number, by_other) {
            (0, 1..) => self.true_of_one[usize::from(!by_weight)] += 1,
            (1.., 0) => self.true_of_one[usize::from(by_weight)] += 1,
            _ => (),
        }
        number
    }

    /// Compares a certificate with each byte set to each value, cut at each place,
    /// with a piece of it once more, and with a byte left out.
    pub fn compare_every_byte(&mut self, task: Task, whole: &[u8]) {
        for place in 0..whole.len() {
            for value in 0..=255 {
                let mut bytes = whole.to_vec();
                bytes[place] = value;
                self.compare_with_truth(0, task, &bytes);
            }
            self.compare_with_truth(0, task, &whole[..place]);
            self.compare_with_truth(0, task, &[whole, &whole[..=place]].concat());
            self.compare_with_truth(0, task, &[&whole[..place], &whole[place + 1..]].concat());
        }
    }

    /// Compares gaps and answers about numbers from 5 to 10 with every mask of four
    /// runs, and with some that name runs beyond those.
    pub fn compare_every_mask(&mut self, task: Task) {
        for mask in (0..16).chain([1 << 63, u64::MAX, 7 | 1 << 62]) {
            for value in [6, 7, 8, 9] {
                let parts = [
                    gap(1, value - 1, task.chosen()),
                    hit(value, mask),
                    gap(value + 1, M, mask),
                ];
                for kept in 1..=3 {
                    self.compare_with_truth(0, task, &encode(&parts[..kept]));
                }
                let joined = [gap(1, value, mask), parts[2]];
                self.compare_with_truth(0, task, &encode(&joined));
            }
        }
    }

    /// Compares a true certificate, what it becomes when it covers 0 too, and
    /// with parts or bytes damaged.
    fn compare_damaged(&mut self, seed: u64, random: &mut Random, task: Task, parts: &[Part]) {
        let mut bytes = encode(parts);
        assert_eq!(self.compare_both(seed, random, task, &bytes), 0);
        self.compare_from_0(seed, task, &task.from_0(random, parts));
        for _ in 0..2 {
            let mut parts = parts.to_vec();
            for _ in 0..random.pick(&[1, 1, 2]) {
                task.damage_parts(random, &mut parts);
            }
            let mut damaged = encode(&parts);
            self.compare_both(seed, random, task, &damaged);
            if random.one_in(3) {
                damage_bytes(random, &mut damaged);
                self.compare_with_truth(seed, task, &damaged);
            }
        }
        damage_bytes(random, &mut bytes);
        self.compare_with_truth(seed, task, &bytes);
    }

    /// Compares a certificate that begins at 0, which is refused for that and
    /// for nothing else.
    fn compare_from_0(&mut self, seed: u64, task: Task, parts: &[Part]) {
        let bytes = encode(parts);
        self.compare_with_truth(seed, task, &bytes);
        let (numbers, ends) = lay_out(task.runs);
        let verdict = check_by(&numbers, &ends, task.weighting, task.threshold, &bytes);
        let (number, place) = (9, 0);
        let refused = Verdict::Invalid { number, place };
        assert_eq!(verdict, refused, "seed {seed}: {parts:?}");
    }
}

/// What the library says of a certificate, and the row that the C interface
/// writes.
fn check(question: Question, bytes: &[u8]) -> (Result<Checked, Refusal>, [u64; 4]) {
    let (n, e, t) = (question.numbers, question.ends, question.threshold);
    match question.weighting {
        Weighting::Plain => (
            quorum::check(n, e, t, bytes),
            quorum::ffi::check(n, e, t, bytes),
        ),
        Weighting::Chosen(mask) => (
            quorum::check_chosen(n, e, mask, t, bytes),
            quorum::ffi::check_chosen(n, e, mask, t, bytes),
        ),
        Weighting::Given(weights) => (
            quorum::check_weighted(n, e, weights, t, bytes),
            quorum::ffi::check_weighted(n, e, weights, t, bytes),
        ),
    }
}

/// The reference's verdict as the result and the row of `quorum`.
fn verdict_of(verdict: Verdict) -> (Result<Checked, Refusal>, [u64; 4]) {
    match verdict {
        Verdict::Valid { answers, parts } => {
            let checked = Checked {
                answers: answers as usize,
                parts: parts as usize,
            };
            (Ok(checked), [0, 0, answers, parts])
        }
        Verdict::Invalid { number, place } => {
            let number = number.into();
            let refusal = Refusal { number, place };
            (Err(refusal), [number, place, 0, 0])
        }
    }
}

/// Compares the parts that both sides read, and a verdict that tells of them.
fn compare_read(
    seed: u64,
    bytes: &[u8],
    result: Result<Checked, Refusal>,
    context: impl Fn() -> String,
) {
    let is_answer = |part: &&quorum::Part| matches!(part, quorum::Part::Answer { .. });
    let read = compare_parts(seed, bytes).map(|parts| Checked {
        answers: parts.iter().filter(is_answer).count(),
        parts: parts.len(),
    });
    let number = result.map_or_else(|refusal| refusal.number, |_| 0);
    if matches!(number, 0 | Refusal::BAD_FIELD) {
        assert_eq!(read, result, "{}", context());
    }
}

/// For random runs: the walk's own certificate, other true ones, and each of them
/// damaged.
pub fn compare_random(
    kind: Kind,
    seeds: impl Iterator<Item = u64>,
    runs: [usize; 2],
    length: usize,
) -> Seen {
    let mut seen = Seen::default();
    for seed in seeds {
        let mut random = Random(seed);
        let k = random.from_to(runs[0], runs[1]);
        let length = random.below(length + 1);
        let runs = any_runs(&mut random, k, length);
        let runs = slices(&runs);
        let chosen = match kind {
            Kind::Chosen => any_choice(&mut random, k),
            Kind::Plain | Kind::Weighted => all_runs(k),
        };
        let wanted = match kind {
            Kind::Weighted => Wanted::any_weighted(&mut random, k),
            _ => Wanted::plain(random.from_to(1, chosen.count_ones() as usize) as u32),
        };
        let task = match kind {
            Kind::Chosen => Task::of_chosen(&runs, chosen, wanted.threshold),
            _ => Task::wanting(&runs, &wanted),
        };
        let own = walks_own(task);
        let mut rewritten = own.clone();
        for _ in 0..random.from_to(1, 6) {
            task.rewrite(&mut random, &mut rewritten);
        }
        let any = task.any_true(&mut random);
        for parts in [own, rewritten, any] {
            seen.compare_damaged(seed, &mut random, task, &parts);
        }
    }
    seen
}

/// The parts of the walk's own certificate.
pub fn walks_own(task: Task) -> Vec<Part> {
    let (numbers, ends) = lay_out(task.runs);
    let question = Question {
        weighting: task.weighting,
        ..Question::plain(&numbers, &ends, task.threshold)
    };
    let walk = walk_of(question);
    walk.expect("the task passes the first checks").parts
}
