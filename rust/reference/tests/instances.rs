//! The instances of docs/SPECIFICATION.md with their answers.

mod common;

use common::{ask_for, counted_answers};
use reference::testing::{accepted, gap, instances, lay_out, slices, Instance, M, THREE_RUNS};
use reference::{
    check, check_by, decode, encode, fewest_parts_by, hits, is_true_by, query, trace_by, Outcome,
    Verdict,
};

/// Compares an accepted instance with the definitions and the checker.
fn settle(instance: &Instance, certificate: &[u8]) {
    let Instance {
        name,
        runs,
        wanted,
        allowance,
        parts,
        ..
    } = instance;
    let (numbers, ends) = lay_out(runs);
    let (weighting, threshold) = (wanted.weighting(), wanted.threshold);
    let answers = counted_answers(runs, weighting, threshold);
    assert_eq!(instance.answers(), answers, "{name}");
    assert_eq!(decode(certificate).unwrap(), *parts, "{name}");

    let whole = trace_by(&numbers, &ends, weighting, threshold).unwrap();
    assert_eq!(whole.parts, *parts, "{name}");
    let probes = whole.all_probes();
    assert_eq!(probes.total(), u64::from(*allowance), "{name}");
    assert_eq!(
        instance.outcome,
        accepted(
            answers.len() as u64,
            parts.len() as u64,
            certificate.len() as u64,
            [probes.doublings, probes.halvings]
        ),
        "{name}"
    );
    assert_eq!(
        check_by(&numbers, &ends, weighting, threshold, certificate),
        Verdict::Valid {
            answers: answers.len() as u64,
            parts: parts.len() as u64,
        },
        "{name}"
    );
    let runs = slices(runs);
    assert!(is_true_by(&runs, weighting, threshold, parts), "{name}");
    let fewest = fewest_parts_by(&runs, weighting, threshold);
    assert_eq!(fewest, parts.len(), "{name}");
}

/// The checker refuses at the first checks as the query does, whatever the
/// certificate.
fn check_refuses(instance: &Instance) {
    let Instance {
        runs,
        wanted,
        outcome,
        ..
    } = instance;
    let Outcome::Refused { number, place, .. } = *outcome else {
        panic!("a walk writes a part");
    };
    let (numbers, ends) = lay_out(runs);
    for bytes in [&[][..], &[7], &encode(&[gap(1, M, 1)])] {
        let verdict = check_by(&numbers, &ends, wanted.weighting(), wanted.threshold, bytes);
        let refusal = Verdict::Invalid { number, place };
        assert_eq!(verdict, refusal, "{}", instance.name);
    }
}

/// Asks with exactly as much room as is needed and with ample room.
#[test]
fn every_instance() {
    for instance in instances() {
        let name = &instance.name;
        let expected = (
            instance.outcome,
            instance.answers(),
            encode(&instance.parts),
        );
        for (answer_room, byte_room) in [(expected.1.len(), expected.2.len()), (1024, 65536)] {
            let found = ask_for(
                &instance.runs,
                &instance.wanted,
                instance.allowance,
                [answer_room, byte_room],
            );
            assert_eq!(found, expected, "{name}");
        }
        if instance.is_accepted() {
            settle(&instance, &expected.2);
        }
        if instance.parts.is_empty() {
            check_refuses(&instance);
        }
    }
}

#[test]
fn three_runs_bytes() {
    let (numbers, ends) = lay_out(&THREE_RUNS);
    let mut certificate = [0; 106];
    query(&numbers, &ends, 2, 3, &mut [0; 2], &mut certificate);
    #[rustfmt::skip]
    let expected = [
        2, 16, 0, 1, 0, 0, 0, 1, 0, 0, 0, 3, 0, 0, 0, 0, 0, 0, 0,
        2, 16, 0, 2, 0, 0, 0, 4, 0, 0, 0, 6, 0, 0, 0, 0, 0, 0, 0,
        1, 12, 0, 5, 0, 0, 0, 3, 0, 0, 0, 0, 0, 0, 0,
        2, 16, 0, 6, 0, 0, 0, 8, 0, 0, 0, 5, 0, 0, 0, 0, 0, 0, 0,
        1, 12, 0, 9, 0, 0, 0, 7, 0, 0, 0, 0, 0, 0, 0,
        2, 16, 0, 10, 0, 0, 0, 255, 255, 255, 255, 5, 0, 0, 0, 0, 0, 0, 0,
    ];
    assert_eq!(certificate, expected);
}

#[test]
fn the_checker_on_a_run_that_repeats_a_number() {
    assert_eq!(
        check(&[3, 3], &[2], 1, &encode(&[gap(1, M, 1)])),
        Verdict::Invalid {
            number: 4,
            place: 1
        }
    );
}

#[test]
fn an_empty_certificate() {
    assert_eq!(
        check(&[7], &[1], 1, &[]),
        Verdict::Invalid {
            number: 9,
            place: 0
        }
    );
}

#[test]
fn the_printed_listing() {
    let printed = "gap 1 1 3\n\
                   gap 2 4 6\n\
                   hit 5 3\n\
                   gap 6 8 5\n\
                   hit 9 7\n\
                   gap 10 4294967295 5\n\
                   done 2 6 3 0\n";
    let input = b"2 3\n2 5 9\n5 7 9 12\n1 9\n";
    assert_eq!(hits(input, false), printed.as_bytes());
}
