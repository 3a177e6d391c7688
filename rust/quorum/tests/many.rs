//! Many questions in one call: stopped calls as errors, and what each finished
//! question wrote.

use quorum::{
    check_chosen, enough_answers, enough_bytes, enough_results, finished, query_many, Answered,
    Counts, Refusal, StoppedMany, ENOUGH_PROBES,
};
use std::error::Error;

/// Runs {2, 5, 9}, {5, 7, 9, 12} and {1, 9}.
const NUMBERS: [u32; 9] = [2, 5, 9, 5, 7, 9, 12, 1, 9];
const ENDS: [u32; 3] = [3, 7, 9];

const MASKS: [u64; 3] = [7, 3, 5];
const THRESHOLDS: [u32; 3] = [2, 2, 1];

/// The rows that a call writes to.
struct Rows {
    answers: Vec<u32>,
    certificate: Vec<u8>,
    results: Vec<u64>,
}

impl Rows {
    fn new() -> Self {
        Rows {
            answers: vec![0; 3 * enough_answers(9)],
            certificate: vec![0; 3 * enough_bytes(9)],
            results: vec![0; enough_results(3)],
        }
    }

    fn ask(
        &mut self,
        masks: &[u64],
        thresholds: &[u32],
        allowance: u32,
    ) -> Result<Counts, StoppedMany> {
        query_many(
            &NUMBERS,
            &ENDS,
            masks,
            thresholds,
            allowance,
            &mut self.answers,
            &mut self.certificate,
            &mut self.results,
        )
    }

    fn finished(&self, questions: usize) -> Vec<Answered<'_>> {
        let results = &self.results[..enough_results(questions)];
        finished(results, &self.answers, &self.certificate).collect()
    }
}

const SPENT: StoppedMany = StoppedMany {
    refusal: Refusal {
        number: Refusal::ALLOWANCE_SPENT,
        place: 3,
    },
    question: 1,
    counts: Counts {
        answers: 3,
        parts: 9,
        bytes: 159,
        doublings: 4,
        halvings: 0,
    },
};

#[test]
fn question_mark() {
    fn ask<E: From<StoppedMany>>(allowance: u32) -> Result<usize, E> {
        Ok(Rows::new().ask(&MASKS, &THRESHOLDS, allowance)?.answers)
    }
    assert_eq!(ask::<StoppedMany>(4), Err(SPENT));
    assert_eq!(ask::<Refusal>(4), Err(SPENT.refusal));
    let error = ask::<Box<dyn Error + Send + Sync>>(4).unwrap_err();
    assert_eq!(error.downcast_ref(), Some(&SPENT));
    assert_eq!(ask::<Refusal>(3 * ENOUGH_PROBES), Ok(8));
}

/// A text tells the question that was stopped, if there is one, and the
/// refusal, which is told once in the chain of errors.
#[test]
fn texts() {
    let refusal = SPENT.refusal.to_string();
    let written = "written before: answers 3, parts 9, bytes 159";
    assert_eq!(
        SPENT.to_string(),
        format!("question 1: {refusal}; {written}")
    );
    assert!(SPENT.source().is_none());

    let mut rows = Rows::new();
    let mut text = |masks: &[u64], thresholds: &[u32]| {
        let stopped = rows.ask(masks, thresholds, 9).unwrap_err();
        assert_eq!(stopped.counts, Counts::default());
        let text = stopped.to_string();
        let refusal = stopped.refusal.to_string();
        let before = text.strip_suffix(&refusal).map(str::to_string);
        (stopped.refusal.number, before.unwrap())
    };
    let of_question = |number, question: &str| (number, format!("question {question}: "));
    assert_eq!(
        text(&[7, 0], &[2, 1]),
        of_question(Refusal::BAD_CHOICE, "1")
    );
    assert_eq!(text(&[7], &[4]), of_question(Refusal::BAD_THRESHOLD, "0"));
    assert_eq!(text(&[7, 7], &[2]), (Refusal::BAD_ROWS, String::new()));
    for number in [
        Refusal::BAD_RUN_COUNT,
        Refusal::BAD_ENDS,
        Refusal::NOT_RISING,
    ] {
        let refusal = Refusal { number, place: 0 };
        let stopped = StoppedMany {
            refusal,
            question: 0,
            counts: Counts::default(),
        };
        assert_eq!(stopped.to_string(), refusal.to_string());
    }
}

/// What each question wrote is told for all questions of an accepted call, and
/// for those before the one that was stopped.
#[test]
fn finished_questions() {
    let mut rows = Rows::new();
    rows.ask(&MASKS, &THRESHOLDS, 5).unwrap();
    let all = rows.finished(3);
    let answers: Vec<&[u32]> = all.iter().map(|question| question.answers).collect();
    assert_eq!(answers, [&[5, 9][..], &[5, 9], &[1, 2, 5, 9]]);
    for (i, question) in all.iter().enumerate() {
        let (mask, threshold) = (MASKS[i], THRESHOLDS[i]);
        let checked = check_chosen(&NUMBERS, &ENDS, mask, threshold, question.certificate);
        assert_eq!(checked.unwrap().parts, [6, 5, 7][i]);
    }

    for (allowance, count) in [(0, 0), (2, 0), (3, 1), (4, 1)] {
        let mut rows = Rows::new();
        let stopped = rows.ask(&MASKS, &THRESHOLDS, allowance).unwrap_err();
        assert_eq!(stopped.finished(), count);
        let answers: Vec<u32> = rows.finished(count)[..]
            .iter()
            .flat_map(|question| question.answers.to_vec())
            .collect();
        assert_eq!(answers, [5, 9][..2 * count]);
    }
    // A question that the first checks refuse has none before it.
    let stopped = rows.ask(&[7, 3, 0], &THRESHOLDS, 5).unwrap_err();
    assert_eq!((stopped.question, stopped.finished()), (2, 0));
}

/// Any row is split: two places for each question, and nothing where they do
/// not lie in the buffers.
#[test]
fn results_of_any_kind() {
    let (answers, certificate) = ([1, 2, 3], [4, 5]);
    let split = |results: &[u64]| -> Vec<(Vec<u32>, Vec<u8>)> {
        let mut iterator = finished(results, &answers, &certificate);
        let mut all = Vec::new();
        for left in (1..=results.len() / 2).rev() {
            assert_eq!(iterator.len(), left);
            let question = iterator.next().unwrap();
            all.push((question.answers.to_vec(), question.certificate.to_vec()));
        }
        assert_eq!(iterator.size_hint(), (0, Some(0)));
        assert_eq!((iterator.next(), iterator.next()), (None, None));
        all
    };
    assert_eq!(split(&[]), []);
    assert_eq!(split(&[1]), []);
    assert_eq!(split(&[1, 2, 3]), [(vec![1], vec![4, 5])]);
    assert_eq!(
        split(&[0, 1, 3, 1, 3, 2]),
        [
            (vec![], vec![4]),
            (vec![1, 2, 3], vec![]),
            (vec![], vec![5])
        ]
    );
    // Below the one before, and beyond the buffer.
    assert_eq!(split(&[2, 1, 1, 0])[1], (vec![], vec![]));
    assert_eq!(split(&[4, 3]), [(vec![], vec![])]);
    assert_eq!(split(&[u64::MAX, u64::MAX]), [(vec![], vec![])]);
}
