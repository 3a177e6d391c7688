//! Refusals as errors: their texts, and `?` in functions whose errors differ.

use quorum::{
    check, lcov_run, pair, parts, probe_bound, query, query_alone, query_weighted, Checked, Counts,
    Part, Refusal, Stopped, StoppedPair, StoppedRun,
};
use std::collections::BTreeSet;
use std::error::Error;

/// Runs {2, 5, 9}, {5, 7, 9, 12} and {1, 9}.
const NUMBERS: [u32; 9] = [2, 5, 9, 5, 7, 9, 12, 1, 9];
const ENDS: [u32; 3] = [3, 7, 9];

/// Asks for what two of the runs hold.
fn ask(allowance: u32, certificate: &mut [u8]) -> Result<Counts, Stopped> {
    query(&NUMBERS, &ENDS, 2, allowance, &mut [0; 9], certificate)
}

/// Asks, checks and reads, with one kind of error for all.
fn ask_and_check<E>(allowance: u32) -> Result<(Checked, Vec<Part>), E>
where
    E: From<Stopped> + From<Refusal>,
{
    let mut certificate = [0; 325];
    assert_eq!(probe_bound(&ENDS, 6)?, 84);
    let counts = ask(allowance, &mut certificate)?;
    let certificate = &certificate[..counts.bytes];
    let checked = check(&NUMBERS, &ENDS, 2, certificate)?;
    let read = parts(certificate).collect::<Result<Vec<_>, _>>()?;
    Ok((checked, read))
}

const SPENT: Stopped = Stopped {
    refusal: Refusal {
        number: Refusal::ALLOWANCE_SPENT,
        place: 4,
    },
    counts: Counts {
        answers: 1,
        parts: 4,
        bytes: 72,
        doublings: 2,
        halvings: 0,
    },
};

#[test]
fn question_mark() {
    assert_eq!(ask(2, &mut [0; 325]), Err(SPENT));
    assert_eq!(ask_and_check(2), Err(SPENT.refusal));
    let error = ask_and_check::<Box<dyn Error + Send + Sync>>(2).unwrap_err();
    assert_eq!(error.downcast_ref(), Some(&SPENT));
    let (checked, read) = ask_and_check::<Refusal>(3).unwrap();
    let expected = Checked {
        answers: 2,
        parts: 6,
    };
    assert_eq!((checked, read.len()), (expected, 6));
}

/// Both kinds of probes together are what the allowance is held against: where
/// it ends a search in its halving, they are the allowance.
#[test]
fn probes_of_both_kinds() {
    assert_eq!(SPENT.counts.probes(), 2);
    let numbers: Vec<u32> = (1..=16).map(|i| 10 * i).chain([115]).collect();
    let ask = |allowance| query(&numbers, &[16, 17], 2, allowance, &mut [], &mut [0; 57]);
    let stopped = ask(6).unwrap_err();
    assert_eq!(stopped.refusal.number, Refusal::ALLOWANCE_SPENT);
    let Counts {
        doublings,
        halvings,
        ..
    } = stopped.counts;
    assert_eq!((doublings, halvings, stopped.counts.probes()), (4, 2, 6));
    assert_eq!(ask(7).unwrap().probes(), 7);
}

/// A stopped query's text tells the refusal, which is told once in the chain of
/// errors.
#[test]
fn told_once() {
    let ground = SPENT.refusal.to_string();
    assert!(SPENT.to_string().starts_with(&ground));
    assert!(SPENT.source().is_none() && SPENT.refusal.source().is_none());
    assert_eq!(Refusal::from(SPENT), SPENT.refusal);
}

/// Each ground has a text of its own, and other numbers have none.
#[test]
fn texts_of_refusals() {
    let ground = |number| {
        let text = Refusal { number, place: 17 }.to_string();
        let ground = text.strip_prefix(&format!("refusal {number} at 17: "));
        ground.map(str::to_string).expect("number and place")
    };
    let known = (1..=17).filter(|&number| number != 12);
    let grounds: BTreeSet<String> = known.map(ground).collect();
    assert_eq!(grounds.len(), 16);
    for number in [0, 12, 18, u64::MAX] {
        assert_eq!(ground(number), "an unknown ground");
    }
    assert!(!grounds.contains("an unknown ground"));
}

/// Of what was written only what there is.
#[test]
fn texts_of_stopped_queries() {
    let text = |stopped: Stopped| {
        let text = stopped.to_string();
        let refusal = stopped.refusal.to_string();
        text.strip_prefix(&refusal).map(str::to_string)
    };
    let written = "; written before: answers 1, parts 4, bytes 72";
    assert_eq!(text(SPENT).as_deref(), Some(written));

    let none = ask(3, &mut [0; 18]).unwrap_err();
    assert_eq!(none.refusal.number, Refusal::CERTIFICATE_FULL);
    assert_eq!(text(none).as_deref(), Some(""));

    let bad = query(&NUMBERS, &ENDS, 4, 3, &mut [0; 9], &mut [0; 325]).unwrap_err();
    assert_eq!(bad.refusal.number, Refusal::BAD_THRESHOLD);
    assert_eq!(bad.counts, Counts::default());
    assert_eq!(text(bad).as_deref(), Some(""));
}

/// A query with weights stops as one without, and with bad weights before anything
/// is written.
#[test]
fn stopped_with_weights() {
    let ask = |weights: &[u32]| {
        let (answers, certificate) = (&mut [0; 9], &mut [0; 325]);
        query_weighted(&NUMBERS, &ENDS, weights, 2, 2, answers, certificate)
    };
    assert_eq!(ask(&[1, 1, 1]), Err(SPENT));
    let bad = Stopped {
        refusal: Refusal {
            number: Refusal::BAD_WEIGHTS,
            place: 3,
        },
        counts: Counts::default(),
    };
    assert_eq!(ask(&[1, 1]), Err(bad));
    assert_eq!(bad.to_string(), bad.refusal.to_string());
}

/// What a run holds alone is written last: the parts stand without an answer where
/// the walk stopped, and all of them where the answers do not fit.
#[test]
fn stopped_alone() {
    // {2, 5, 8, 9} before the runs.
    let numbers = [&[2, 5, 8, 9], &NUMBERS[..]].concat();
    let ends = [4, 7, 11, 13];
    let ask = |threshold, allowance, room: usize| {
        let (answers, certificate) = (&mut [0; 4][..room], &mut [0; 325]);
        query_alone(&numbers, &ends, threshold, allowance, answers, certificate)
    };
    let spent = Stopped {
        counts: Counts {
            answers: 0,
            ..SPENT.counts
        },
        ..SPENT
    };
    assert_eq!(ask(2, 2, 4), Err(spent));
    let written = "; written before: answers 0, parts 4, bytes 72";
    assert_eq!(spent.to_string(), format!("{}{written}", spent.refusal));

    let full = ask(2, 3, 1).unwrap_err();
    let refusal = Refusal {
        number: Refusal::ANSWERS_FULL,
        place: 6,
    };
    assert_eq!(full.refusal, refusal);
    let written = "; written before: answers 1, parts 6, bytes 106";
    assert_eq!(full.to_string(), format!("{refusal}{written}"));

    let bad = ask(4, 3, 4).unwrap_err();
    let refusal = Refusal {
        number: Refusal::BAD_THRESHOLD,
        place: 4,
    };
    assert_eq!((bad.refusal, bad.counts), (refusal, Counts::default()));
    assert_eq!(bad.to_string(), refusal.to_string());
}

/// A pair that is stopped tells its refusal once and what it wrote, if anything, and
/// `?` turns it into its refusal.
#[test]
fn stopped_pairs() {
    // The first two of the runs.
    let ask = |room: usize| pair(&NUMBERS[..7], &ENDS[..2], &mut [0; 2][..room]);
    let full = |answers| StoppedPair {
        refusal: Refusal {
            number: Refusal::ANSWERS_FULL,
            place: answers as u64,
        },
        answers,
    };
    assert_eq!(ask(2), Ok(2));
    assert_eq!(ask(1), Err(full(1)));
    let written = format!("{}; written before: answers 1", full(1).refusal);
    assert_eq!(full(1).to_string(), written);
    assert!(full(1).source().is_none());

    assert_eq!(ask(0), Err(full(0)));
    assert_eq!(full(0).to_string(), full(0).refusal.to_string());
    let refused = || -> Result<usize, Refusal> { Ok(ask(0)?) };
    assert_eq!(refused(), Err(full(0).refusal));

    let bad = pair(&NUMBERS, &ENDS, &mut [0; 2]).unwrap_err();
    let refusal = Refusal {
        number: Refusal::BAD_RUN_COUNT,
        place: 3,
    };
    assert_eq!((bad.refusal, bad.answers), (refusal, 0));
    assert_eq!(bad.to_string(), refusal.to_string());
}

/// A stopped reading of a tracefile tells its refusal once and what it wrote, if
/// anything, and `?` turns it into its refusal.
#[test]
fn stopped_readings() {
    let read = |file: &[u8]| lcov_run(file, 0, &mut [0; 2]);
    let stopped = StoppedRun {
        refusal: Refusal {
            number: Refusal::NO_SECTION,
            place: 14,
        },
        written: 1,
    };
    assert_eq!(read(b"SF:a.c\nDA:4,1\n"), Err(stopped));
    let written = format!("{}; written before: numbers 1", stopped.refusal);
    assert_eq!(stopped.to_string(), written);
    assert!(stopped.source().is_none());

    let refused = || -> Result<usize, Refusal> { Ok(read(b"SF:a.c\n")?) };
    let none = read(b"SF:a.c\n").unwrap_err();
    assert_eq!((none.written, refused()), (0, Err(none.refusal)));
    assert_eq!(none.to_string(), none.refusal.to_string());
}
