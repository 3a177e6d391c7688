//! The input text of the program `hits`, and what other texts share with it.

use crate::first_checks::MAX_RUNS;

const MAX_INPUT_BYTES: usize = 65_536;
const MAX_INPUT_NUMBERS: usize = 1_024;

/// A query read from text.
#[derive(Debug, PartialEq, Eq)]
pub struct Question {
    /// How many runs must hold a number.
    pub threshold: u32,
    /// The most probes that may be made.
    pub allowance: u32,
    /// All runs, one after another.
    pub numbers: Vec<u32>,
    /// The place after each run's last number.
    pub ends: Vec<u32>,
}

/// Returns the question, or the number of the first line with a fault.
/// `failed` says that a read failed after these bytes.
pub fn parse(input: &[u8], failed: bool) -> Result<Question, usize> {
    let text = &input[..input.len().min(MAX_INPUT_BYTES)];
    let question = read_lines(text);
    if input.len() <= MAX_INPUT_BYTES && !failed {
        return question;
    }
    // A byte beyond the limit, or one that could not be read, is a fault in
    // its own line; an earlier line with a fault comes first.
    let line = 1 + text.iter().filter(|&&byte| byte == b'\n').count();
    Err(question.err().unwrap_or(line).min(line))
}

/// The question of a text within the limit of bytes, or the number of the
/// first line that cannot be read.
fn read_lines(text: &[u8]) -> Result<Question, usize> {
    let mut lines = lines(text);
    let (threshold, allowance) = lines.next().and_then(read_first_line).ok_or(1_usize)?;
    let mut question = Question {
        threshold,
        allowance,
        numbers: Vec::new(),
        ends: Vec::new(),
    };
    for line in lines {
        let line_number = question.ends.len() + 2;
        if question.ends.len() == MAX_RUNS {
            return Err(line_number);
        }
        let run = read_run(line).ok_or(line_number)?;
        question.numbers.extend(run);
        if question.numbers.len() > MAX_INPUT_NUMBERS {
            return Err(line_number);
        }
        question.ends.push(question.numbers.len() as u32);
    }
    Ok(question)
}

/// The lines of a text, each with its byte 10, which the last may lack.
pub(crate) fn lines(text: &[u8]) -> impl Iterator<Item = &[u8]> {
    text.split_inclusive(|&byte| byte == b'\n')
}

/// The threshold and the allowance.
fn read_first_line(line: &[u8]) -> Option<(u32, u32)> {
    match read_run(line)?[..] {
        [threshold, allowance] => Some((threshold, allowance)),
        _ => None,
    }
}

/// The numbers of one line, which must end with byte 10.
fn read_run(line: &[u8]) -> Option<Vec<u32>> {
    match line.strip_suffix(b"\n")? {
        [] => Some(Vec::new()),
        words => words.split(|&byte| byte == b' ').map(read_number).collect(),
    }
}

/// A decimal number of at least one digit, leading zeros allowed.
pub(crate) fn read_number(word: &[u8]) -> Option<u32> {
    decimal_digits(word)?.try_fold(0_u32, |number, digit| {
        number.checked_mul(10)?.checked_add(digit)
    })
}

/// The decimal digits of a word that has at least one, and nothing else.
pub(crate) fn decimal_digits(word: &[u8]) -> Option<impl Iterator<Item = u32> + '_> {
    let is_number = !word.is_empty() && word.iter().all(u8::is_ascii_digit);
    is_number.then(|| word.iter().map(|byte| u32::from(byte - b'0')))
}
