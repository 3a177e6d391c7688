//! The library's own way through a tracefile in Rust: one pass, a line at a time,
//! and nothing is copied but the numbers. The standard library finds the line ends.

use quorum::{Refusal, StoppedRun};

/// Reads one section of a tracefile as one run, as [`quorum::lcov_run`] does.
pub fn lcov_run(file: &[u8], section: usize, run: &mut [u32]) -> Result<usize, StoppedRun> {
    read_section(file, find_section(file, section), run)
}

/// Where the lines of a section begin, or past the end of a file without it.
fn find_section(file: &[u8], section: usize) -> usize {
    let (mut at, mut before, mut inside) = (0, section, false);
    while at <= file.len() {
        let line = line_at(file, at);
        at += line.len() + 1;
        if inside {
            inside = line != b"end_of_record";
        } else if line.starts_with(b"SF:") {
            if before == 0 {
                return at;
            }
            before -= 1;
            inside = true;
        }
    }
    at
}

/// Reads the section whose lines begin at a place.
fn read_section(file: &[u8], start: usize, run: &mut [u32]) -> Result<usize, StoppedRun> {
    let (mut at, mut written, mut last) = (start, 0, 0);
    while at <= file.len() {
        let line = line_at(file, at);
        if line == b"end_of_record" {
            return Ok(written);
        }
        if let Some(values) = line.strip_prefix(b"DA:") {
            let Some((number, is_hit)) = read_record(values) else {
                return Err(stopped(Refusal::BAD_RECORD, at, written));
            };
            if is_hit {
                if number <= last {
                    return Err(stopped(Refusal::NOT_RISING, written, written));
                }
                let Some(place) = run.get_mut(written) else {
                    return Err(stopped(Refusal::ANSWERS_FULL, written, written));
                };
                *place = number;
                written += 1;
                last = number;
            }
        }
        at += line.len() + 1;
    }
    Err(stopped(Refusal::NO_SECTION, file.len(), written))
}

/// The line that begins at a place, without its end.
fn line_at(file: &[u8], at: usize) -> &[u8] {
    let rest = &file[at..];
    let end = rest.iter().position(|&byte| byte == b'\n');
    &rest[..end.unwrap_or(rest.len())]
}

/// The number of a record, and whether its count is above 0.
fn read_record(values: &[u8]) -> Option<(u32, bool)> {
    let (digits, number) = leading_digits(values);
    let (b',', count) = values[digits..].split_first()? else {
        return None;
    };
    let number = u32::try_from(number).ok().filter(|&number| number > 0)?;
    let (digits, value) = leading_digits(count);
    if digits == 0 || count.get(digits).is_some_and(|&byte| byte != b',') {
        return None;
    }
    Some((number, value > 0))
}

/// How many digits a text begins with, and their value or, if it has more than 32
/// bits, one that has.
fn leading_digits(text: &[u8]) -> (usize, u64) {
    let mut value = 0;
    for (i, byte) in text.iter().enumerate() {
        if !byte.is_ascii_digit() {
            return (i, value);
        }
        value = 10 * value + u64::from(byte - b'0');
        if value > u64::from(u32::MAX) {
            let others = text[i + 1..].iter();
            let count = others.take_while(|byte| byte.is_ascii_digit()).count();
            return (i + 1 + count, value);
        }
    }
    (text.len(), value)
}

fn stopped(number: u64, place: usize, written: usize) -> StoppedRun {
    StoppedRun {
        refusal: Refusal {
            number,
            place: place as u64,
        },
        written,
    }
}

#[cfg(test)]
mod tests {
    use super::*;
    use reference::testing::lcov_instances;

    #[test]
    fn every_instance() {
        for instance in lcov_instances() {
            let mut row = vec![7; instance.room];
            let written = instance.run.len();
            let expected = match instance.refusal {
                None => Ok(written),
                Some(refusal) => {
                    let number = refusal.number.into();
                    Err(stopped(number, refusal.place as usize, written))
                }
            };
            let found = lcov_run(instance.file.as_bytes(), instance.section, &mut row);
            assert_eq!(found, expected, "{instance:?}");
            let mut run = instance.run.clone();
            run.resize(instance.room, 7);
            assert_eq!(row, run, "{instance:?}");
        }
    }
}
