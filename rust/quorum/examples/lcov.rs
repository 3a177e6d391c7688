//! Which lines of a source did at least so many LCOV tracefiles hit?
//!
//! ```text
//! lcov THRESHOLD SOURCE TRACEFILE...
//! ```
//!
//! Each tracefile is one run: the lines of SOURCE that it hit. Printed is `LINE COUNT`
//! for each line that at least THRESHOLD tracefiles hit, COUNT being how many did,
//! in rising order, and only after the library has checked the certificate.
//!
//! SOURCE is compared byte for byte with what follows `SF:` where a section opens. A
//! tracefile with no such section is an error and no empty run: a misspelt name would
//! change the answer unseen. One with several of them hit a line if any of them did:
//! geninfo writes a header once for each object that includes it, and `lcov -a` a
//! source once for each test.
//!
//! Errors go to standard error, with the tracefile and its line at fault. The exit
//! status is then 1, or 2 if the arguments cannot be read.

#![forbid(unsafe_code)]

use quorum::{
    check, enough_answers, enough_bytes, lcov_run, parts, probe_bound, query, Part, Refusal,
    ENOUGH_PROBES, MAX_NUMBERS, MAX_RUNS,
};
use std::ffi::{OsStr, OsString};
use std::io::{self, Write};
use std::ops::Range;
use std::os::unix::ffi::OsStrExt;
use std::path::Path;
use std::process::ExitCode;
use std::{env, fs};

const USAGE: &str = "usage: lcov THRESHOLD SOURCE TRACEFILE...";

const HELP: &str = "\
Prints each line of SOURCE that at least THRESHOLD of the LCOV tracefiles hit, and
how many of them did. SOURCE is a name as it stands after SF: in the tracefiles.";

const BAD_RECORD: &str =
    "the record is not a line number from 1 to 4294967295, a comma and a count";

const NOT_RISING: &str = "the line number is not above that of the hit before it; \
    `lcov -a TRACEFILE -o OUTPUT` joins the records of a line and sorts them";

const NO_END: &str = "the section that opens here has no end_of_record";

/// Why there is no answer.
enum Failure {
    /// The arguments cannot be read.
    Usage(String),
    /// The tracefiles, or the question about them, are at fault.
    Refused(String),
}

impl From<String> for Failure {
    fn from(message: String) -> Self {
        Failure::Refused(message)
    }
}

fn main() -> ExitCode {
    let arguments: Vec<OsString> = env::args_os().skip(1).collect();
    let text = match &arguments[..] {
        [first, ..] if first == "--help" => Ok(format!("{USAGE}\n\n{HELP}\n")),
        _ => answer(&arguments),
    };
    let (status, message) = match text.and_then(print) {
        Ok(()) => return ExitCode::SUCCESS,
        Err(Failure::Usage(message)) => (2, format!("{message}\n{USAGE}")),
        Err(Failure::Refused(message)) => (1, message),
    };
    eprintln!("lcov: {message}");
    ExitCode::from(status)
}

fn print(text: String) -> Result<(), Failure> {
    let mut output = io::stdout().lock();
    let written = output.write_all(text.as_bytes());
    let written = written.and_then(|()| output.flush());
    Ok(written.map_err(|error| format!("standard output: {error}"))?)
}

/// Returns the text to print.
fn answer(arguments: &[OsString]) -> Result<String, Failure> {
    let [threshold, source, paths @ ..] = arguments else {
        return Err(Failure::Usage("too few arguments".into()));
    };
    if paths.is_empty() {
        return Err(Failure::Usage("no tracefile is named".into()));
    }
    let Some(threshold) = threshold.to_str().and_then(|text| text.parse().ok()) else {
        let message = format!("the threshold {} is no 32-bit number", threshold.display());
        return Err(Failure::Usage(message));
    };
    let mut runs = Runs::default();
    for path in paths {
        runs.add(&Tracefile::read(path.as_ref())?, source)?;
    }
    let answers = runs.ask(threshold);
    let answers = answers.map_err(|refusal| runs.tell(refusal))?;
    let line = |part: Part| format!("{} {}\n", part.first(), part.runs().len());
    Ok(answers.into_iter().map(line).collect())
}

/// The lines that each tracefile hit, one run after another, and the runs' ends.
#[derive(Default)]
struct Runs {
    numbers: Vec<u32>,
    ends: Vec<u32>,
}

impl Runs {
    /// Adds the lines of a source that a tracefile hit, as one run.
    fn add(&mut self, tracefile: &Tracefile, source: &OsStr) -> Result<(), String> {
        let sections = tracefile.sections();
        let is_named = |section: &&Section| section.name == source.as_bytes();
        let named: Vec<&Section> = sections.iter().filter(is_named).collect();
        if named.is_empty() {
            return Err(tracefile.tell_names(&sections, source));
        }
        let start = self.numbers.len();
        for section in &named {
            self.read(tracefile, section)?;
        }
        if named.len() > 1 {
            let mut lines = self.numbers.split_off(start);
            lines.sort_unstable();
            lines.dedup();
            self.numbers.append(&mut lines);
        }
        self.end_run();
        Ok(())
    }

    /// Adds the lines that a section hit.
    fn read(&mut self, tracefile: &Tracefile, section: &Section) -> Result<(), String> {
        let start = self.numbers.len();
        // A record of a hit has at least seven bytes: `DA:1,1` and its line end. One
        // that lacks its end has the `SF:` line before it.
        let most = section.bytes.len() / 7;
        self.numbers.resize(start + most, 0);
        // Lent from its own `SF:` line on, it is section 0: however many sections a
        // source has, none is passed over again for the next.
        let bytes = &tracefile.bytes[section.bytes.start..];
        let read = lcov_run(bytes, 0, &mut self.numbers[start..]);
        let count = read.map_err(|stopped| tracefile.tell(section, stopped.refusal))?;
        self.numbers.truncate(start + count);
        Ok(())
    }

    fn end_run(&mut self) {
        // A length of more than 32 bits is refused, as is the end that stands for it.
        let end = u32::try_from(self.numbers.len());
        self.ends.push(end.unwrap_or(u32::MAX));
    }

    /// Returns the lines that at least `threshold` runs have, as the answers of a
    /// certificate that was checked.
    fn ask(&self, threshold: u32) -> Result<Vec<Part>, Refusal> {
        let Runs { numbers, ends } = self;
        // At most a gap and an answer for each number, and a gap at the end.
        let most_parts = u32::try_from(2 * numbers.len() + 1).unwrap_or(u32::MAX);
        let bound = probe_bound(ends, most_parts)?;
        let allowance = bound.min(ENOUGH_PROBES.into()) as u32;

        let mut answers = vec![0; enough_answers(numbers.len())];
        let mut certificate = vec![0; enough_bytes(numbers.len())];
        let counts = query(
            numbers,
            ends,
            threshold,
            allowance,
            &mut answers,
            &mut certificate,
        )?;
        certificate.truncate(counts.bytes);
        check(numbers, ends, threshold, &certificate)?;
        let is_gap = |part: &Result<Part, _>| matches!(part, Ok(Part::Gap { .. }));
        parts(&certificate).filter(|part| !is_gap(part)).collect()
    }

    /// Says in words why a question about the runs is refused.
    fn tell(&self, refusal: Refusal) -> String {
        let (runs, lines) = (self.ends.len(), self.numbers.len());
        match refusal.number {
            Refusal::BAD_RUN_COUNT => {
                format!("{runs} tracefiles are more than a question takes, {MAX_RUNS}")
            }
            Refusal::BAD_THRESHOLD => {
                format!("the threshold is 0 or above the number of tracefiles, {runs}")
            }
            Refusal::BAD_ENDS => {
                format!("{lines} lines hit in all are more than a question takes, {MAX_NUMBERS}")
            }
            _ => refusal.to_string(),
        }
    }
}

/// A section of a tracefile.
struct Section<'a> {
    /// What follows `SF:`.
    name: &'a [u8],
    /// From its `SF:` line to its `end_of_record` or, without one, to the file's end.
    bytes: Range<usize>,
}

struct Tracefile<'a> {
    path: &'a Path,
    bytes: Vec<u8>,
}

fn is_line_end(byte: &u8) -> bool {
    *byte == b'\n'
}

/// Whether a line that the library has read is a record with a count above 0.
fn is_hit(line: &[u8]) -> bool {
    let values = line.strip_prefix(b"DA:").unwrap_or_default();
    let count = values.split(|byte| *byte == b',').nth(1);
    count.is_some_and(|digits| digits.iter().any(|digit| *digit != b'0'))
}

impl Tracefile<'_> {
    fn read(path: &Path) -> Result<Tracefile<'_>, String> {
        let read = fs::read(path).map(|bytes| Tracefile { path, bytes });
        read.map_err(|error| format!("{}: {error}", path.display()))
    }

    /// Returns the sections in their order. One opens at a line that begins with `SF:`
    /// while none is open, and closes at the next line that is exactly
    /// `end_of_record`.
    fn sections(&self) -> Vec<Section<'_>> {
        let mut sections = Vec::new();
        let mut open: Option<Section> = None;
        let mut offset = 0;
        for line in self.bytes.split(is_line_end) {
            match &mut open {
                None => {
                    let bytes = offset..self.bytes.len();
                    let name = line.strip_prefix(b"SF:");
                    open = name.map(|name| Section { name, bytes });
                }
                Some(section) if line == b"end_of_record" => {
                    section.bytes.end = offset;
                    sections.extend(open.take());
                }
                Some(_) => {}
            }
            offset += line.len() + 1;
        }
        sections.extend(open);
        sections
    }

    /// Puts the tracefile's name before what is wrong with it.
    fn fault(&self, words: &str) -> String {
        format!("{}: {words}", self.path.display())
    }

    /// Says that no section is the source's, and what the name of another looks like.
    fn tell_names(&self, sections: &[Section], source: &OsStr) -> String {
        let none = format!("no section is of {}", source.display());
        let Some(first) = sections.first() else {
            return self.fault(&none);
        };
        let (count, name) = (sections.len(), first.name.escape_ascii());
        self.fault(&format!("{none}; of {count} the first is of {name}"))
    }

    /// Says why the library refused a section, and in which line of the tracefile.
    fn tell(&self, section: &Section, refusal: Refusal) -> String {
        let (place, ground) = (refusal.place as usize, refusal.to_string());
        let start = self.line_at(section.bytes.start);
        let (line, words) = match refusal.number {
            Refusal::BAD_RECORD => (self.line_at(section.bytes.start + place), BAD_RECORD),
            Refusal::NOT_RISING => (start + self.lines_before_hit(section, place), NOT_RISING),
            Refusal::NO_SECTION => (start, NO_END),
            _ => (start, &ground[..]),
        };
        format!("{}:{line}: {words}", self.path.display())
    }

    /// Returns the number, from 1, of the line at an offset.
    fn line_at(&self, offset: usize) -> usize {
        let before = &self.bytes[..offset];
        1 + before.iter().filter(|byte| is_line_end(byte)).count()
    }

    /// Returns how many lines of the section are before the hit at an index of its run.
    fn lines_before_hit(&self, section: &Section, index: usize) -> usize {
        let lines = self.bytes[section.bytes.clone()].split(is_line_end);
        let mut hits = lines.enumerate().filter(|(_, line)| is_hit(line));
        hits.nth(index).map_or(0, |(line, _)| line)
    }
}
