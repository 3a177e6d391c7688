//! Inputs of the program `hits`: good questions, broken ones, and texts at the
//! limits of bytes, runs and numbers.

use crate::broken::any_threshold;
use crate::shapes::any_runs;
use reference::testing::{any_marks, lay_out, mark_later, Random, M};
use reference::{bins, leading_zeros, trace};
use std::iter;

/// The most bytes that the program accepts.
pub const MOST_BYTES: usize = 65_536;

/// The most numbers of all runs together.
pub const MOST_NUMBERS: usize = 1_024;

/// The most runs.
pub const MOST_RUNS: usize = 64;

/// Bytes that are wrong in most places, and some that are right.
const BYTES: &[u8] = b" \n\r\t\0\x0b\x1fx-+,./:;019\x7f\x80\xb2\xe9\xff";

/// Numbers about the largest that is allowed, and much longer ones.
const LARGE: [&str; 9] = [
    "4294967295",
    "4294967296",
    "4294967297",
    "4294967300",
    "9999999999",
    "42949672950",
    "18446744073709551616",
    "18446744073709551621",
    "123456789012345678901234567890",
];

/// A text as the words of its lines, before anything in it is broken.
pub struct Text {
    /// Line 1 and the runs.
    pub lines: Vec<Vec<String>>,
}

impl Text {
    /// The text of a question.
    pub fn of<R: AsRef<[u32]>>(threshold: u32, allowance: u32, runs: &[R]) -> Text {
        let words = |run: &[u32]| run.iter().map(u32::to_string).collect();
        let mut lines = vec![words(&[threshold, allowance])];
        lines.extend(runs.iter().map(|run| words(run.as_ref())));
        Text { lines }
    }

    /// A question that can be read: runs of any shape, a threshold that is
    /// mostly good and an allowance that is mostly near the walk's own count.
    pub fn any(random: &mut Random) -> Text {
        let k = match random.below(3) {
            0 => random.from_to(1, 4),
            1 => random.pick(&[1, 2, 3, 8, 31, 32, 33, 63, 64]),
            _ => random.from_to(1, MOST_RUNS),
        };
        let length = random.pick(&[2, 6, 20, 100, MOST_NUMBERS]);
        let length = random.below(length.min(MOST_NUMBERS / k) + 1);
        let mut runs = any_runs(random, k, length);
        leave_out_from(&mut runs, MOST_NUMBERS);
        if random.one_in(12) {
            stop_rising(random, &mut runs);
        }
        let threshold = any_threshold(random, k);
        let allowance = near_own_count(random, threshold, &runs);
        Text::of(threshold, allowance, &runs)
    }

    /// Puts zeros before some numbers.
    pub fn add_zeros(&mut self, random: &mut Random) {
        for _ in 0..random.below(4) {
            if let Some(word) = self.any_word(random) {
                let zeros = random.pick(&[1, 2, 9, 10, 40, 300]);
                word.insert_str(0, &"0".repeat(zeros));
            }
        }
    }

    /// Puts so many zeros before a number that the text has `length` bytes, if
    /// it has fewer.
    pub fn fill(&mut self, random: &mut Random, length: usize) {
        let missing = length.saturating_sub(self.bytes().len());
        let word = match random.below(3) {
            0 => self.lines[0].last_mut(),
            1 => self.lines.iter_mut().rev().find_map(|line| line.last_mut()),
            _ => self.any_word(random),
        };
        if let Some(word) = word {
            word.insert_str(0, &"0".repeat(missing));
        }
    }

    /// Puts a number near 4294967295, or a longer one, in a number's place.
    pub fn enlarge(&mut self, random: &mut Random) {
        let large = random.pick(&LARGE);
        if let Some(word) = self.any_word(random) {
            *word = large.to_string();
        }
    }

    /// A number of any line.
    fn any_word(&mut self, random: &mut Random) -> Option<&mut String> {
        let count = self.lines.iter().flatten().count();
        let place = random.below(count.max(1));
        self.lines.iter_mut().flatten().nth(place)
    }

    /// The bytes of the text.
    pub fn bytes(&self) -> Vec<u8> {
        let mut bytes = Vec::new();
        for line in &self.lines {
            bytes.extend(line.join(" ").bytes());
            bytes.push(b'\n');
        }
        bytes
    }
}

/// An allowance for the question, mostly near the probes that its walk makes.
fn near_own_count(random: &mut Random, threshold: u32, runs: &[Vec<u32>]) -> u32 {
    let (numbers, ends) = lay_out(runs);
    let own = match trace(&numbers, &ends, threshold) {
        Ok(trace) => trace.all_probes().total() as u32,
        Err(_) => 0,
    };
    match random.below(10) {
        0 => own.saturating_sub(1),
        1 => own + 1,
        2 => random.below(own as usize + 1) as u32,
        3 => 0,
        4 => M,
        5 => own + random.below(100) as u32,
        _ => own,
    }
}

/// Leaves out the last numbers of all, so that `most` stay.
fn leave_out_from(runs: &mut [Vec<u32>], most: usize) {
    let mut room = most;
    for run in runs {
        run.truncate(room);
        room -= run.len();
    }
}

/// Has a number stand where it is not above the one before it, if there are
/// two bins in a run.
fn stop_rising(random: &mut Random, runs: &mut [Vec<u32>]) {
    let is_long = |&i: &usize| bins(&runs[i]).len() > 1;
    let long: Vec<usize> = (0..runs.len()).filter(is_long).collect();
    if long.is_empty() {
        return;
    }
    let run = &mut runs[random.pick(&long)];
    let i = random.from_to(leading_zeros(run) + 1, run.len() - 1);
    match random.below(4) {
        0 => run[i] = run[i - 1],
        1 => run.swap(i - 1, i),
        _ => drop(mark_later(random, run)),
    }
}

/// Changes the bytes in one way. They may still be a good question.
pub fn break_bytes(random: &mut Random, bytes: &mut Vec<u8>) {
    if bytes.is_empty() {
        bytes.push(random.pick(BYTES));
        return;
    }
    let place = random.below(bytes.len());
    let of_kind = |bytes: &[u8], kind: u8| -> Vec<usize> {
        (0..bytes.len()).filter(|&i| bytes[i] == kind).collect()
    };
    let (ends, spaces) = (of_kind(bytes, b'\n'), of_kind(bytes, b' '));
    match random.below(14) {
        0 | 1 => bytes.insert(place, random.pick(BYTES)),
        2 => bytes[place] = random.pick(BYTES),
        3 => bytes[place] = random.bits() as u8,
        4 => drop(bytes.remove(place)),
        // No last line end.
        5 => drop(bytes.pop()),
        6 => bytes.truncate(place),
        // Two spaces, or another byte for a space.
        7 if !spaces.is_empty() => bytes.insert(random.pick(&spaces), b' '),
        8 if !spaces.is_empty() => bytes[random.pick(&spaces)] = random.pick(BYTES),
        // A byte before or after a line end.
        9 if !ends.is_empty() => {
            let end = random.pick(&ends) + random.below(2);
            bytes.insert(end, random.pick(b" \r\t\n"));
        }
        // A line end too few, or empty lines.
        10 if !ends.is_empty() => drop(bytes.remove(random.pick(&ends))),
        11 if !ends.is_empty() => {
            let end = random.pick(&ends);
            let more = random.pick(&[1, 2, 30, 64]);
            bytes.splice(end..end, vec![b'\n'; more]);
        }
        // Bytes after the last line.
        12 => {
            let more = random.from_to(1, 3);
            bytes.extend((0..more).map(|_| random.pick(BYTES)));
        }
        // Line 1 alone, or one run less.
        _ => {
            let from = ends.first().map_or(0, |end| end + 1);
            let to = match random.one_in(2) {
                true => bytes.len(),
                false => ends.get(1).map_or(from, |end| end + 1),
            };
            bytes.drain(from..to);
        }
    }
}

/// A text with about as many runs, numbers and bytes as there may be, or just
/// more.
pub fn near_a_limit(random: &mut Random) -> Text {
    let mut text = match random.below(4) {
        0 => {
            let k = random.from_to(MOST_RUNS - 1, MOST_RUNS + 2);
            let mut runs = any_runs(random, k, MOST_NUMBERS / (2 * k));
            leave_out_from(&mut runs, MOST_NUMBERS);
            Text::of(any_threshold(random, k), M, &runs)
        }
        1 | 2 => {
            let count = random.from_to(MOST_NUMBERS - 1, MOST_NUMBERS + 2);
            let runs = cut_up(random, count);
            let threshold = any_threshold(random, runs.len());
            Text::of(threshold, M, &runs)
        }
        _ => Text::any(random),
    };
    if random.one_in(3) {
        let extra = random.pick(&[0, 0, 1, 2, 100, 4_000, 70_000, 140_000]);
        let length = MOST_BYTES - random.pick(&[0, 0, 1, 2]) + extra;
        text.fill(random, length);
    }
    text
}

/// Some runs with `count` numbers in all, some of them empty. In a third of all
/// cases the others begin with unmapped marks.
fn cut_up(random: &mut Random, count: usize) -> Vec<Vec<u32>> {
    let k = random.from_to(1, MOST_RUNS);
    let mut cuts: Vec<usize> = (1..k).map(|_| random.below(count + 1)).collect();
    cuts.extend([0, count]);
    cuts.sort_unstable();
    let (first, step) = (random.pick(&[1, 2]), random.pick(&[1, 3, 4_000_000]));
    let is_marked = random.one_in(3);
    let run = |cut: &[usize]| {
        let marks = if is_marked { any_marks(random) } else { 0 };
        let bins = (0..).map(|i| first + i * step);
        let numbers = iter::repeat_n(0, marks).chain(bins);
        numbers.take(cut[1] - cut[0]).collect()
    };
    cuts.windows(2).map(run).collect()
}

/// A few bytes of kinds that make up texts; many can be read.
pub fn short_bytes(random: &mut Random) -> Vec<u8> {
    let length = random.below(24);
    let any = |random: &mut Random| random.pick(b"0112349   \n\n\n\n\rx");
    let mut bytes: Vec<u8> = (0..length).map(|_| any(random)).collect();
    if random.one_in(2) {
        bytes.splice(0..0, *b"1 4\n");
        bytes.retain(|&byte| byte != b'x' && byte != b'\r');
        bytes.push(b'\n');
    }
    bytes
}
