//! The parts of a certificate, their bytes, and what makes them true.

use crate::bins::FIRST_BIN;
use crate::mask::named_runs;
use crate::weights::Weighting;

const ANSWER_TAG: u8 = 1;
const GAP_TAG: u8 = 2;

/// The bytes of one answer: tag, length and 12 bytes of body.
pub(crate) const ANSWER_BYTES: usize = 15;

/// The bytes of one gap: tag, length and 16 bytes of body.
pub(crate) const GAP_BYTES: usize = 19;

/// One part of a certificate. Bit `i` of a mask names run `i`.
#[derive(Clone, Copy, Debug, PartialEq, Eq)]
pub enum Part {
    /// The named runs hold `value`.
    Answer {
        /// The number held.
        value: u32,
        /// The runs that hold it.
        mask: u64,
    },
    /// The named runs have no number from `first` to `last`, both included.
    Gap {
        /// The first number of the gap.
        first: u32,
        /// The last number of the gap.
        last: u32,
        /// The runs that have no number in it.
        mask: u64,
    },
}

impl Part {
    /// Returns the first number that the part covers.
    pub fn first(&self) -> u32 {
        match *self {
            Part::Answer { value, .. } => value,
            Part::Gap { first, .. } => first,
        }
    }

    /// Returns the last number that the part covers.
    pub fn last(&self) -> u32 {
        match *self {
            Part::Answer { value, .. } => value,
            Part::Gap { last, .. } => last,
        }
    }

    /// Returns the mask of the runs that the part names.
    pub fn mask(&self) -> u64 {
        match *self {
            Part::Answer { mask, .. } | Part::Gap { mask, .. } => mask,
        }
    }
}

/// Returns the field of an answer.
pub(crate) fn answer_field(value: u32, mask: u64) -> [u8; ANSWER_BYTES] {
    let mut field = [0; ANSWER_BYTES];
    field[0] = ANSWER_TAG;
    field[1..3].copy_from_slice(&(ANSWER_BYTES as u16 - 3).to_le_bytes());
    field[3..7].copy_from_slice(&value.to_le_bytes());
    field[7..15].copy_from_slice(&mask.to_le_bytes());
    field
}

/// Returns the field of a gap.
pub(crate) fn gap_field(first: u32, last: u32, mask: u64) -> [u8; GAP_BYTES] {
    let mut field = [0; GAP_BYTES];
    field[0] = GAP_TAG;
    field[1..3].copy_from_slice(&(GAP_BYTES as u16 - 3).to_le_bytes());
    field[3..7].copy_from_slice(&first.to_le_bytes());
    field[7..11].copy_from_slice(&last.to_le_bytes());
    field[11..19].copy_from_slice(&mask.to_le_bytes());
    field
}

/// Returns the part whose field begins `bytes` and the bytes after that
/// field; `None` if the field is cut short, its tag is unknown or its length
/// is not the tag's.
pub(crate) fn read_field(bytes: &[u8]) -> Option<(Part, &[u8])> {
    let (&[tag, low, high], rest) = bytes.split_first_chunk::<3>()?;
    let length = u16::from_le_bytes([low, high]) as usize;
    let (body, rest) = rest.split_at_checked(length)?;
    let part = match (tag, length) {
        (ANSWER_TAG, 12) => Part::Answer {
            value: read_u32(&body[0..4]),
            mask: read_u64(&body[4..12]),
        },
        (GAP_TAG, 16) => Part::Gap {
            first: read_u32(&body[0..4]),
            last: read_u32(&body[4..8]),
            mask: read_u64(&body[8..16]),
        },
        _ => return None,
    };
    Some((part, rest))
}

fn read_u32(bytes: &[u8]) -> u32 {
    read_u64(bytes) as u32
}

fn read_u64(bytes: &[u8]) -> u64 {
    bytes
        .iter()
        .rev()
        .fold(0, |number, &byte| number << 8 | u64::from(byte))
}

/// Returns the bytes of the parts, one field after another.
pub fn encode(parts: &[Part]) -> Vec<u8> {
    let mut bytes = Vec::new();
    for part in parts {
        match *part {
            Part::Answer { value, mask } => bytes.extend(answer_field(value, mask)),
            Part::Gap { first, last, mask } => bytes.extend(gap_field(first, last, mask)),
        }
    }
    bytes
}

/// Returns the parts whose fields make up `bytes`, or `None` if some field
/// cannot be read. Whether the parts are true is not looked at.
pub fn decode(bytes: &[u8]) -> Option<Vec<Part>> {
    let mut parts = Vec::new();
    let mut rest = bytes;
    while !rest.is_empty() {
        let (part, after) = read_field(rest)?;
        parts.push(part);
        rest = after;
    }
    Some(parts)
}

/// Returns whether the parts are a true certificate for the runs and the
/// threshold. The definition is put into code sentence by sentence, apart
/// from [`check`](crate::check()), so that the two can be compared.
pub fn is_true(runs: &[&[u32]], threshold: u32, parts: &[Part]) -> bool {
    is_true_by(runs, Weighting::Plain, threshold, parts)
}

/// The same for any weighting: of the runs that the question is about alone the
/// parts speak, and these alone weigh.
pub fn is_true_by(runs: &[&[u32]], weighting: Weighting, threshold: u32, parts: &[Part]) -> bool {
    let among = weighting.each(runs.len());
    let part_is_true = |part| part_is_true(runs, &among, threshold, part);
    covers_all(parts) && parts.iter().all(part_is_true)
}

/// Whether the parts cover 1 to 4294967295 in rising order with no hole and
/// no overlap.
fn covers_all(parts: &[Part]) -> bool {
    let (Some(front), Some(back)) = (parts.first(), parts.last()) else {
        return false;
    };
    front.first() == FIRST_BIN
        && back.last() == u32::MAX
        && parts.iter().all(|part| part.first() <= part.last())
        && parts
            .windows(2)
            .all(|pair| pair[0].last().checked_add(1) == Some(pair[1].first()))
}

/// Whether the part is true of the runs `among` all, each of which comes with its
/// weight.
fn part_is_true(runs: &[&[u32]], among: &[(usize, u64)], threshold: u32, part: &Part) -> bool {
    let named: Vec<usize> = named_runs(part.mask()).collect();
    if !named.iter().all(|i| among.iter().any(|(run, _)| run == i)) {
        return false;
    }
    let is_named = |run: &&(usize, u64)| named.contains(&run.0);
    let (in_it, left_out): (Vec<_>, Vec<_>) = among.iter().partition(is_named);
    let weight = |runs: Vec<&(usize, u64)>| runs.iter().map(|run| run.1).sum::<u64>();
    let wanted = u64::from(threshold);
    match *part {
        Part::Answer { value, .. } => {
            weight(in_it) >= wanted && named.iter().all(|&i| runs[i].contains(&value))
        }
        Part::Gap { first, last, .. } => {
            weight(left_out) < wanted
                && named
                    .iter()
                    .all(|&i| !runs[i].iter().any(|x| (first..=last).contains(x)))
        }
    }
}
