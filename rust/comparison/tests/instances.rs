//! The instances of docs/SPECIFICATION.md with their answers, on both sides.

use comparison::question::{ask, result_of, Comparer, Limits, Question};
use reference::encode;
use reference::testing::{instances, lay_out, Instance, M};

/// Asks the library with the given allowance and ample buffers, having
/// compared it with the reference.
fn expect(instance: &Instance, allowance: u32) {
    let name = &instance.name;
    let (numbers, ends) = lay_out(&instance.runs);
    let (mut answers, mut certificate) = (vec![0; 1024], vec![0; 65536]);
    let limits = Limits {
        allowance,
        answers: answers.len(),
        bytes: certificate.len(),
    };
    let question = Question::wanting(&numbers, &ends, &instance.wanted);
    Comparer::new().compare(0, question, limits);
    Comparer::of_rows().compare(0, question, limits);
    let result = ask(question, allowance, &mut answers, &mut certificate);
    assert_eq!(result, result_of(instance.outcome), "{name}");
    let counts = result.unwrap_or_else(|stopped| stopped.counts);
    assert_eq!(counts.parts, instance.parts.len(), "{name}");
    assert_eq!(answers[..counts.answers], instance.answers(), "{name}");
    assert_eq!(
        certificate[..counts.bytes],
        encode(&instance.parts),
        "{name}"
    );
}

/// Asks with the allowance of the instance; if that is enough, with an ample
/// one too.
#[test]
fn every_instance() {
    for instance in instances() {
        expect(&instance, instance.allowance);
        if instance.is_accepted() {
            expect(&instance, M);
        }
    }
}

/// Nothing is tested for which nothing is due.
#[test]
fn no_room_where_none_is_needed() {
    let (numbers, ends) = lay_out(&[vec![1, 2, 3], vec![4, 5, 6]]);
    let question = Question::plain(&numbers, &ends, 2);
    let limits = Limits {
        allowance: 2,
        answers: 0,
        bytes: 38,
    };
    let outcome = Comparer::new().compare(0, question, limits);
    assert!(matches!(outcome, reference::Outcome::Accepted { .. }));
}
