//! One section of an LCOV tracefile, read as one run.

use crate::first_checks::Refusal;
use crate::text::{decimal_digits, lines, read_number};
use crate::writer::append;

/// What [`lcov_run()`] returns.
#[derive(Clone, Copy, Debug, PartialEq, Eq)]
pub struct Reading {
    /// How many numbers were written, refused or not.
    pub written: u64,
    /// The refusal that was met, of number 4, 5, 15 or 16.
    pub refusal: Option<Refusal>,
}

/// Writes the line number of each `DA:` record of the section whose count is
/// above 0 to `run`, in the order met. Sections are counted from 0.
///
/// What was written before a refusal stands; all later places of `run` are
/// unchanged.
pub fn lcov_run(file: &[u8], section: usize, run: &mut [u32]) -> Reading {
    let mut written = 0;
    let refusal = read_section(file, section, run, &mut written).err();
    Reading {
        written: written as u64,
        refusal,
    }
}

fn read_section(
    file: &[u8],
    section: usize,
    run: &mut [u32],
    written: &mut usize,
) -> Result<(), Refusal> {
    let at_the_end = Refusal::new(16, file.len());
    let opens = |(_, line): &(usize, &[u8])| line.starts_with(b"SF:");
    let closes = |(_, line): &(usize, &[u8])| *line == b"end_of_record";

    let mut lines = placed_lines(file);
    for _ in 0..section {
        lines.find(opens).ok_or(at_the_end)?;
        lines.find(closes).ok_or(at_the_end)?;
    }
    lines.find(opens).ok_or(at_the_end)?;
    for (offset, line) in lines {
        if closes(&(offset, line)) {
            return Ok(());
        }
        let Some(values) = line.strip_prefix(b"DA:") else {
            continue;
        };
        let (number, is_hit) = read_record(values).ok_or(Refusal::new(15, offset))?;
        if is_hit {
            append_rising(number, run, written)?;
        }
    }
    Err(at_the_end)
}

/// The lines without their byte 10, each with the offset of its first byte.
fn placed_lines(file: &[u8]) -> impl Iterator<Item = (usize, &[u8])> {
    lines(file).scan(0, |next, line| {
        let offset = *next;
        *next += line.len();
        Some((offset, line.strip_suffix(b"\n").unwrap_or(line)))
    })
}

/// The line number of a record, and whether its count is above 0.
fn read_record(values: &[u8]) -> Option<(u32, bool)> {
    // What follows a second comma is free.
    let mut values = values.splitn(3, |&byte| byte == b',');
    let number = read_number(values.next()?)?;
    let is_hit = decimal_digits(values.next()?)?.any(|digit| digit > 0);
    (number > 0).then_some((number, is_hit))
}

/// Writes one more number, which must be above the one before it.
fn append_rising(number: u32, run: &mut [u32], written: &mut usize) -> Result<(), Refusal> {
    if *written > 0 && number <= run[*written - 1] {
        return Err(Refusal::new(4, *written));
    }
    append(run, written, number)
}
