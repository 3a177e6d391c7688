//! What the program `hits` prints.

use crate::certificate::{decode, Part};
use crate::query::{query, Outcome};
use crate::text::{parse, Question};

const ANSWER_ROOM: usize = 1_024;
const CERTIFICATE_ROOM: usize = 65_536;

/// Returns what the program `hits` prints for an input: the parts of the
/// certificate and the counts, or one line that tells the refusal. `failed`
/// says that a read failed after the input.
pub fn hits(input: &[u8], failed: bool) -> Vec<u8> {
    let text = match parse(input, failed) {
        Ok(question) => report(&question),
        Err(line) => refusal(12, line as u64),
    };
    text.into_bytes()
}

/// Asks the question and returns the lines to print.
fn report(question: &Question) -> String {
    let mut answers = [0; ANSWER_ROOM];
    let mut certificate = vec![0; CERTIFICATE_ROOM];
    let outcome = query(
        &question.numbers,
        &question.ends,
        question.threshold,
        question.allowance,
        &mut answers,
        &mut certificate,
    );
    match outcome {
        Outcome::Refused { number, place, .. } => refusal(number, place),
        Outcome::Accepted {
            answers,
            parts,
            bytes,
            doublings,
            halvings,
        } => {
            let written = decode(&certificate[..bytes as usize]).unwrap_or_default();
            let mut text: String = written.iter().map(part_line).collect();
            text += &format!("done {answers} {parts} {doublings} {halvings}\n");
            text
        }
    }
}

fn part_line(part: &Part) -> String {
    match part {
        Part::Answer { value, mask } => format!("hit {value} {mask}\n"),
        Part::Gap { first, last, mask } => format!("gap {first} {last} {mask}\n"),
    }
}

fn refusal(number: u8, place: u64) -> String {
    format!("refuse {number} {place}\n")
}
