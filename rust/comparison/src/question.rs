//! One query asked of both sides, with all that they return and write.

use crate::broken::any_wanted;
use crate::lent::{noise, Lent};
use crate::met::Refusals;
use crate::shapes::any_runs;
use crate::Row;
use quorum::{Counts, Refusal, Stopped};
use reference::testing::{lay_out, Random, Wanted};
use reference::Weighting;
use std::fmt;

/// The runs, the weights and the threshold of a query or a check.
#[derive(Clone, Copy)]
pub struct Question<'a> {
    /// All runs, one after another.
    pub numbers: &'a [u32],
    /// Where each run ends.
    pub ends: &'a [u32],
    /// What the runs weigh. It tells which call is made.
    pub weighting: Weighting<'a>,
    /// How many runs must hold an answer, or how much they must weigh.
    pub threshold: u32,
}

impl<'a> Question<'a> {
    /// A question in which every run counts for one.
    pub fn plain(numbers: &'a [u32], ends: &'a [u32], threshold: u32) -> Self {
        Question {
            numbers,
            ends,
            weighting: Weighting::Plain,
            threshold,
        }
    }

    /// A question without weights or with them.
    pub fn wanting(numbers: &'a [u32], ends: &'a [u32], wanted: &'a Wanted) -> Self {
        Question {
            weighting: wanted.weighting(),
            ..Question::plain(numbers, ends, wanted.threshold)
        }
    }

    /// The same about the runs that the mask chooses. Only checks have one.
    pub fn choosing(self, mask: u64) -> Self {
        let weighting = Weighting::Chosen(mask);
        Question { weighting, ..self }
    }
}

/// What can be asked of both sides with the limits of a query. Its text tells it in
/// a failure.
pub trait Asked: Copy + fmt::Debug {
    /// Asks the reference.
    fn expect(
        self,
        allowance: u32,
        answers: &mut [u32],
        certificate: &mut [u8],
    ) -> reference::Outcome;

    /// Asks the library.
    fn ask(
        self,
        allowance: u32,
        answers: &mut [u32],
        certificate: &mut [u8],
    ) -> Result<Counts, Stopped>;

    /// The same with the row that the C interface writes.
    fn ask_row(self, allowance: u32, answers: &mut [u32], certificate: &mut [u8]) -> [u64; 7];

    /// Exactly what the whole walk and its answers need; `None` if the first checks
    /// refuse.
    fn whole(self) -> Option<Limits>;
}

impl Asked for Question<'_> {
    fn expect(
        self,
        allowance: u32,
        answers: &mut [u32],
        certificate: &mut [u8],
    ) -> reference::Outcome {
        reference::query_by(
            self.numbers,
            self.ends,
            self.weighting,
            self.threshold,
            allowance,
            answers,
            certificate,
        )
    }

    fn ask(
        self,
        allowance: u32,
        answers: &mut [u32],
        certificate: &mut [u8],
    ) -> Result<Counts, Stopped> {
        ask(self, allowance, answers, certificate)
    }

    fn ask_row(self, allowance: u32, answers: &mut [u32], certificate: &mut [u8]) -> [u64; 7] {
        ask_row(self, allowance, answers, certificate)
    }

    fn whole(self) -> Option<Limits> {
        whole(self)
    }
}

/// What a query is lent: probes, places for answers, certificate bytes.
#[derive(Clone, Copy, Debug)]
pub struct Limits {
    /// The allowance of probes.
    pub allowance: u32,
    /// The length of the answer buffer.
    pub answers: usize,
    /// The length of the certificate buffer.
    pub bytes: usize,
}

impl fmt::Debug for Question<'_> {
    fn fmt(&self, f: &mut fmt::Formatter<'_>) -> fmt::Result {
        let Question {
            numbers,
            ends,
            weighting,
            threshold,
        } = self;
        write!(
            f,
            "{weighting:?}, threshold {threshold}, ends {:?}, numbers {:?}",
            Row(ends),
            Row(numbers)
        )
    }
}

/// The reference's refusal in the terms of `quorum`.
pub fn refusal_of(refusal: reference::Refusal) -> Refusal {
    let reference::Refusal { number, place } = refusal;
    let number = number.into();
    Refusal { number, place }
}

/// The reference's outcome in the terms of `quorum`.
pub fn result_of(outcome: reference::Outcome) -> Result<Counts, Stopped> {
    let [number, place, counts @ ..] = row_of(outcome);
    let counts = counts_of(counts);
    match number {
        0 => Ok(counts),
        _ => Err(Stopped {
            refusal: Refusal { number, place },
            counts,
        }),
    }
}

/// The counts of a row of results in the terms of `quorum`.
pub(crate) fn counts_of(counts: [u64; 5]) -> Counts {
    let [answers, parts, bytes, doublings, halvings] = counts;
    Counts {
        answers: answers as usize,
        parts: parts as usize,
        bytes: bytes as usize,
        doublings,
        halvings,
    }
}

/// The reference's outcome as the row of the C interface.
pub fn row_of(outcome: reference::Outcome) -> [u64; 7] {
    match outcome {
        reference::Outcome::Accepted {
            answers,
            parts,
            bytes,
            doublings,
            halvings,
        } => [0, 0, answers, parts, bytes, doublings, halvings],
        reference::Outcome::Refused {
            number,
            place,
            answers,
            bytes,
            doublings,
            halvings,
        } => {
            let parts = if matches!(number, 5..=7) { place } else { 0 };
            let number = number.into();
            [number, place, answers, parts, bytes, doublings, halvings]
        }
    }
}

/// The buffers of one side.
#[derive(Default)]
pub(crate) struct Buffers {
    pub(crate) answers: Lent<u32>,
    pub(crate) certificate: Lent<u8>,
}

impl Buffers {
    pub(crate) fn fill(&mut self, limits: Limits, seed: u64) {
        self.answers.fill(limits.answers, |i| noise(seed, i) as u32);
        self.certificate
            .fill(limits.bytes, |i| noise(seed, i) as u8);
    }

    /// Both sides' buffers are the same, with their margins.
    pub(crate) fn compare(&self, expected: &Buffers, context: impl Fn() -> String) {
        let place = self.answers.difference(&expected.answers);
        assert_eq!(place, None, "answers, {}", context());
        let place = self.certificate.difference(&expected.certificate);
        assert_eq!(place, None, "certificate, {}", context());
    }
}

/// Asks both sides, compares, and counts what was seen.
#[derive(Default)]
pub struct Comparer {
    found: Buffers,
    expected: Buffers,
    /// How many questions ended with each refusal.
    pub seen: Refusals,
    /// Compare the rows of the C interface and not the results.
    rows: bool,
}

impl Comparer {
    /// Compares what [`quorum::query`], [`quorum::query_weighted`] or
    /// [`quorum::query_alone`] returns.
    pub fn new() -> Self {
        Comparer::default()
    }

    /// Compares the rows that the C interface writes.
    pub fn of_rows() -> Self {
        Comparer {
            rows: true,
            ..Comparer::default()
        }
    }

    /// How many questions were asked.
    pub fn asked(&self) -> u64 {
        self.seen.all()
    }

    /// Each of the outcomes was met often enough.
    pub fn met(&self, outcomes: &[usize], times: u64) {
        self.seen.met("questions", outcomes, times);
    }

    /// Asks both sides and compares what they return and the whole of both
    /// buffers with their margins. Returns the outcome.
    pub fn compare(
        &mut self,
        seed: u64,
        question: impl Asked,
        limits: Limits,
    ) -> reference::Outcome {
        self.found.fill(limits, seed);
        self.expected.fill(limits, seed);
        let expected = question.expect(
            limits.allowance,
            self.expected.answers.lend(),
            self.expected.certificate.lend(),
        );
        let answers = self.found.answers.lend();
        let certificate = self.found.certificate.lend();
        let allowance = limits.allowance;
        let context = || format!("seed {seed}: {limits:?}, {question:?}");
        if self.rows {
            let row = question.ask_row(allowance, answers, certificate);
            assert_eq!(row, row_of(expected), "{}", context());
        } else {
            let result = question.ask(allowance, answers, certificate);
            assert_eq!(result, result_of(expected), "{}", context());
        }
        self.found.compare(&self.expected, context);
        self.seen.count(row_of(expected)[0]);
        expected
    }

    /// Asks with every allowance and every size of both buffers, up to one more than
    /// the whole walk and its answers need.
    pub fn compare_every_limit(&mut self, seed: u64, question: impl Asked) {
        let whole = question.whole().expect("the first checks pass");
        for allowance in 0..=whole.allowance + 1 {
            for answers in 0..=whole.answers + 1 {
                for bytes in 0..=whole.bytes + 1 {
                    let limits = Limits {
                        allowance,
                        answers,
                        bytes,
                    };
                    self.compare(seed, question, limits);
                }
            }
        }
    }

    /// Both buffers as the library left them in the last comparison.
    pub fn found(&self) -> (&[u32], &[u8]) {
        (self.found.answers.read(), self.found.certificate.read())
    }

    /// Asks the library two questions that come to the same, and compares what
    /// it returns and the whole of both buffers with their margins.
    pub fn compare_same(&mut self, seed: u64, questions: [Question; 2], limits: Limits) {
        let ask_into = |question, buffers: &mut Buffers| {
            buffers.fill(limits, seed);
            let (answers, certificate) = (buffers.answers.lend(), buffers.certificate.lend());
            ask(question, limits.allowance, answers, certificate)
        };
        let found = ask_into(questions[0], &mut self.found);
        let expected = ask_into(questions[1], &mut self.expected);
        let context = || format!("seed {seed}: {limits:?}, {questions:?}");
        assert_eq!(found, expected, "{}", context());
        self.found.compare(&self.expected, context);
        let number = found.map_or_else(|stopped| stopped.refusal.number, |_| 0);
        self.seen.count(number);
    }

    /// Asks with limits of every kind: exact, one short, one more, tiny, ample
    /// and random ones. If the first checks refuse, asks once.
    pub fn compare_limits(&mut self, seed: u64, random: &mut Random, question: impl Asked) {
        let Some(whole) = question.whole() else {
            let limits = Limits {
                allowance: random.pick(&[0, 1, u32::MAX]),
                answers: random.below(4),
                bytes: random.below(40),
            };
            self.compare(seed, question, limits);
            return;
        };
        for limits in limits_near(random, whole) {
            self.compare(seed, question, limits);
        }
    }
}

/// Asks the library.
pub fn ask(
    question: Question,
    allowance: u32,
    answers: &mut [u32],
    certificate: &mut [u8],
) -> Result<Counts, Stopped> {
    let (n, e, t) = (question.numbers, question.ends, question.threshold);
    match question.weighting {
        Weighting::Plain => quorum::query(n, e, t, allowance, answers, certificate),
        Weighting::Given(weights) => {
            quorum::query_weighted(n, e, weights, t, allowance, answers, certificate)
        }
        Weighting::Chosen(_) => panic!("a single question is about all runs"),
    }
}

/// The same with the row that the C interface writes.
fn ask_row(
    question: Question,
    allowance: u32,
    answers: &mut [u32],
    certificate: &mut [u8],
) -> [u64; 7] {
    let (n, e, t) = (question.numbers, question.ends, question.threshold);
    match question.weighting {
        Weighting::Plain => quorum::ffi::query(n, e, t, allowance, answers, certificate),
        Weighting::Given(weights) => {
            quorum::ffi::query_weighted(n, e, weights, t, allowance, answers, certificate)
        }
        Weighting::Chosen(_) => panic!("a single question is about all runs"),
    }
}

/// What a question returns, its answers and its certificate.
pub type Written = (Result<Counts, Stopped>, Vec<u32>, Vec<u8>);

/// Asks the library about some runs, in buffers of its own.
pub fn ask_runs<R: AsRef<[u32]>>(runs: &[R], threshold: u32, limits: Limits) -> Written {
    let (numbers, ends) = lay_out(runs);
    let question = Question::plain(&numbers, &ends, threshold);
    written(limits, |answers, certificate| {
        ask(question, limits.allowance, answers, certificate)
    })
}

/// What a call into new buffers returns, and what it wrote.
pub(crate) fn written(
    limits: Limits,
    call: impl FnOnce(&mut [u32], &mut [u8]) -> Result<Counts, Stopped>,
) -> Written {
    let (mut answers, mut certificate) = (vec![0; limits.answers], vec![0; limits.bytes]);
    let result = call(&mut answers, &mut certificate);
    let counts = result.unwrap_or_else(|stopped| stopped.counts);
    answers.truncate(counts.answers);
    certificate.truncate(counts.bytes);
    (result, answers, certificate)
}

/// The reference's whole walk, or its refusal.
pub fn walk_of(question: Question) -> Result<reference::Trace, reference::Refusal> {
    reference::trace_by(
        question.numbers,
        question.ends,
        question.weighting,
        question.threshold,
    )
}

/// Exactly what the whole walk needs; `None` if the first checks refuse.
pub fn whole(question: Question) -> Option<Limits> {
    walk_of(question).ok().map(|walk| needed(&walk))
}

/// Exactly what a whole walk needs.
pub(crate) fn needed(walk: &reference::Trace) -> Limits {
    let is_answer = |part: &&reference::Part| matches!(part, reference::Part::Answer { .. });
    let answers = walk.parts.iter().filter(is_answer).count();
    Limits {
        allowance: walk.all_probes().total() as u32,
        answers,
        bytes: 19 * walk.parts.len() - 4 * answers,
    }
}

/// Limits of every kind for a call that needs `whole`.
pub fn limits_near(random: &mut Random, whole: Limits) -> Vec<Limits> {
    let exact = whole.allowance;
    let mut all = Vec::new();
    for allowance in [
        0,
        1,
        exact.saturating_sub(1),
        exact,
        exact + 1,
        random.below(exact as usize + 1) as u32,
    ] {
        all.push(Limits { allowance, ..whole });
    }
    for answers in [
        0,
        whole.answers.saturating_sub(1),
        whole.answers + 1,
        random.below(whole.answers + 1),
    ] {
        all.push(Limits { answers, ..whole });
    }
    let tiny = random.pick(&[0, 1, 14, 15, 18, 19, 20, 33, 34, 38]);
    for bytes in [
        tiny,
        whole.bytes.saturating_sub(1),
        whole.bytes + random.from_to(1, 40),
        random.below(whole.bytes + 1),
    ] {
        all.push(Limits { bytes, ..whole });
    }
    // Several that may run out.
    for _ in 0..3 {
        all.push(Limits {
            allowance: random.below(exact as usize + 2) as u32,
            answers: random.below(whole.answers + 2),
            bytes: random.below(whole.bytes + 20),
        });
    }
    all.push(Limits {
        allowance: u32::MAX,
        answers: whole.answers + random.below(9),
        bytes: whole.bytes + random.below(30),
    });
    all
}

/// Asks about random runs, with weights or without, with limits of every kind.
pub fn compare_random(
    mut comparer: Comparer,
    weighted: bool,
    seeds: impl Iterator<Item = u64>,
    runs: [usize; 2],
    length: usize,
) -> Comparer {
    for seed in seeds {
        let mut random = Random(seed);
        let k = random.from_to(runs[0], runs[1]);
        let length = random.below(length + 1);
        let (numbers, ends) = lay_out(&any_runs(&mut random, k, length));
        let wanted = any_wanted(&mut random, k, weighted);
        let question = Question::wanting(&numbers, &ends, &wanted);
        comparer.compare_limits(seed, &mut random, question);
    }
    comparer
}
