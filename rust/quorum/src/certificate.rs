//! The parts of a certificate, read from its bytes.

use crate::Refusal;
use std::fmt;
use std::iter::FusedIterator;

/// The tag of an answer, which is the first byte of its field.
///
/// ```
/// // The field of the answer 7 that run 0 holds.
/// let field = [quorum::TAG_ANSWER, 12, 0, 7, 0, 0, 0, 1, 0, 0, 0, 0, 0, 0, 0];
/// let answer = quorum::Part::Answer { value: 7, mask: 1 };
/// assert_eq!(quorum::parts(&field).next(), Some(Ok(answer)));
/// ```
pub const TAG_ANSWER: u8 = 1;

/// The tag of a gap, which is the first byte of its field.
///
/// ```
/// // The field of the gap from 2 to 5 in which run 0 has no number.
/// let field = [quorum::TAG_GAP, 16, 0, 2, 0, 0, 0, 5, 0, 0, 0, 1, 0, 0, 0, 0, 0, 0, 0];
/// let gap = quorum::Part::Gap { first: 2, last: 5, mask: 1 };
/// assert_eq!(quorum::parts(&field).next(), Some(Ok(gap)));
/// ```
pub const TAG_GAP: u8 = 2;

/// The bytes of an answer's field: tag (1), length (2), value (4), mask (8).
///
/// ```
/// assert_eq!(quorum::ANSWER_SIZE, 1 + 2 + 4 + 8);
/// ```
pub const ANSWER_SIZE: usize = 15;

/// The bytes of a gap's field: tag (1), length (2), first (4), last (4),
/// mask (8).
///
/// ```
/// assert_eq!(quorum::GAP_SIZE, 1 + 2 + 4 + 4 + 8);
/// ```
pub const GAP_SIZE: usize = 19;

/// The bytes of a field that its length does not count: tag and length.
const HEAD_SIZE: usize = 3;

const ANSWER_LENGTH: u16 = (ANSWER_SIZE - HEAD_SIZE) as u16;
const GAP_LENGTH: u16 = (GAP_SIZE - HEAD_SIZE) as u16;

/// One part of a certificate: what it says of the runs that its mask names. Bit
/// `i` of a mask names run `i`.
///
/// [`Display`](fmt::Display) gives the line that the program `hits` prints for
/// it.
///
/// ```
/// use quorum::Part;
///
/// let answer = Part::Answer { value: 5, mask: 0b011 };
/// assert_eq!(answer.to_string(), "hit 5 3");
///
/// let gap = Part::Gap { first: 6, last: 8, mask: 0b101 };
/// assert_eq!(gap.to_string(), "gap 6 8 5");
/// ```
#[derive(Clone, Copy, Debug, PartialEq, Eq, Hash)]
pub enum Part {
    /// The named runs hold `value`. [`query()`](crate::query()) names all that
    /// hold it; a true certificate names at least the threshold of them.
    Answer {
        /// The bin that the runs hold.
        value: u32,
        /// The runs that hold it.
        mask: u64,
    },
    /// The named runs hold no bin from `first` to `last`, both included, and the
    /// others are fewer than the threshold: so none of these bins is an answer.
    Gap {
        /// The first bin of the gap.
        first: u32,
        /// The last bin of the gap.
        last: u32,
        /// The runs that hold no bin of the gap.
        mask: u64,
    },
}

impl Part {
    /// Returns the first bin that the part covers.
    ///
    /// ```
    /// # use quorum::Part;
    /// assert_eq!(Part::Gap { first: 6, last: 8, mask: 5 }.first(), 6);
    /// assert_eq!(Part::Answer { value: 9, mask: 7 }.first(), 9);
    /// ```
    pub const fn first(&self) -> u32 {
        match *self {
            Part::Answer { value, .. } => value,
            Part::Gap { first, .. } => first,
        }
    }

    /// Returns the last bin that the part covers.
    ///
    /// ```
    /// # use quorum::Part;
    /// assert_eq!(Part::Gap { first: 6, last: 8, mask: 5 }.last(), 8);
    /// assert_eq!(Part::Answer { value: 9, mask: 7 }.last(), 9);
    /// ```
    pub const fn last(&self) -> u32 {
        match *self {
            Part::Answer { value, .. } => value,
            Part::Gap { last, .. } => last,
        }
    }

    /// Returns the mask of the runs that the part names.
    ///
    /// ```
    /// # use quorum::Part;
    /// assert_eq!(Part::Gap { first: 6, last: 8, mask: 5 }.mask(), 0b101);
    /// ```
    pub const fn mask(&self) -> u64 {
        match *self {
            Part::Answer { mask, .. } | Part::Gap { mask, .. } => mask,
        }
    }

    /// Returns the runs that the part names, rising.
    ///
    /// ```
    /// # use quorum::Part;
    /// assert!(Part::Gap { first: 6, last: 8, mask: 0b101 }.runs().eq([0, 2]));
    /// ```
    pub const fn runs(&self) -> Runs {
        Runs { mask: self.mask() }
    }
}

impl fmt::Display for Part {
    fn fmt(&self, f: &mut fmt::Formatter<'_>) -> fmt::Result {
        match self {
            Part::Answer { value, mask } => write!(f, "hit {value} {mask}"),
            Part::Gap { first, last, mask } => write!(f, "gap {first} {last} {mask}"),
        }
    }
}

/// The runs that a mask names, rising; what [`Part::runs`] returns.
///
/// ```
/// let part = quorum::Part::Answer { value: 9, mask: 1 << 63 | 0b110 };
/// assert_eq!(part.runs().len(), 3);
/// assert_eq!(part.runs().collect::<Vec<_>>(), [1, 2, 63]);
/// ```
#[derive(Clone, Debug)]
pub struct Runs {
    mask: u64,
}

impl Iterator for Runs {
    type Item = usize;

    fn next(&mut self) -> Option<usize> {
        if self.mask == 0 {
            return None;
        }
        let run = self.mask.trailing_zeros() as usize;
        self.mask &= self.mask - 1;
        Some(run)
    }

    fn size_hint(&self) -> (usize, Option<usize>) {
        let count = self.mask.count_ones() as usize;
        (count, Some(count))
    }
}

impl ExactSizeIterator for Runs {}

impl FusedIterator for Runs {}

/// Reads the parts of a certificate, one after another.
///
/// Any bytes can be read. A field that is cut short, whose tag is unknown or
/// whose length is not the tag's is [`Refusal::BAD_FIELD`] at the offset of its
/// tag, after which nothing follows. Of the truth of the parts this says
/// nothing: [`check()`](crate::check()) decides that.
///
/// The place of a refusal from 8 on is the offset of a field, unless it is the
/// certificate's length, so `parts(&certificate[place..])` begins with the part
/// that was refused.
///
/// ```
/// use quorum::{parts, query, Part, Refusal};
///
/// // {7, 9} and {7}
/// let (mut answers, mut certificate) = ([0; 3], [0; 121]);
/// let counts = query(&[7, 9, 7], &[2, 3], 2, 0, &mut answers, &mut certificate)?;
/// let certificate = &certificate[..counts.bytes];
///
/// let all = parts(certificate).collect::<Result<Vec<_>, _>>()?;
/// assert_eq!(
///     all,
///     [
///         Part::Gap { first: 1, last: 6, mask: 0b11 },
///         Part::Answer { value: 7, mask: 0b11 },
///         Part::Gap { first: 8, last: 4_294_967_295, mask: 0b10 },
///     ]
/// );
///
/// // The last field is cut short: its tag is at 19 + 15.
/// let mut cut = parts(&certificate[..52]).skip(2);
/// assert_eq!(cut.next(), Some(Err(Refusal { number: Refusal::BAD_FIELD, place: 34 })));
/// assert_eq!(cut.next(), None);
/// # Ok::<(), Refusal>(())
/// ```
pub const fn parts(certificate: &[u8]) -> Parts<'_> {
    Parts {
        rest: certificate,
        offset: 0,
    }
}

/// The parts of a certificate; what [`parts()`] returns, with an example.
#[derive(Clone, Debug)]
#[must_use = "iterators are lazy and do nothing unless consumed"]
pub struct Parts<'a> {
    /// The fields to come; none after one that cannot be read.
    rest: &'a [u8],
    /// The offset of `rest` in the certificate.
    offset: usize,
}

impl Iterator for Parts<'_> {
    type Item = Result<Part, Refusal>;

    fn next(&mut self) -> Option<Self::Item> {
        if self.rest.is_empty() {
            return None;
        }
        let Some((part, rest)) = read_field(self.rest) else {
            self.rest = &[];
            return Some(Err(Refusal {
                number: Refusal::BAD_FIELD,
                place: self.offset as u64,
            }));
        };
        self.offset += self.rest.len() - rest.len();
        self.rest = rest;
        Some(Ok(part))
    }

    fn size_hint(&self) -> (usize, Option<usize>) {
        let least = usize::from(!self.rest.is_empty());
        // An answer is the shortest field; what cannot be read is the last.
        (least, Some(self.rest.len().div_ceil(ANSWER_SIZE)))
    }
}

impl FusedIterator for Parts<'_> {}

/// Returns the part of the field that begins `bytes`, and what follows it.
fn read_field(bytes: &[u8]) -> Option<(Part, &[u8])> {
    let (&[tag, low, high], body) = bytes.split_first_chunk()?;
    match (tag, u16::from_le_bytes([low, high])) {
        (TAG_ANSWER, ANSWER_LENGTH) => {
            let (value, rest) = read_u32(body)?;
            let (mask, rest) = read_u64(rest)?;
            Some((Part::Answer { value, mask }, rest))
        }
        (TAG_GAP, GAP_LENGTH) => {
            let (first, rest) = read_u32(body)?;
            let (last, rest) = read_u32(rest)?;
            let (mask, rest) = read_u64(rest)?;
            Some((Part::Gap { first, last, mask }, rest))
        }
        _ => None,
    }
}

fn read_u32(bytes: &[u8]) -> Option<(u32, &[u8])> {
    let (number, rest) = bytes.split_first_chunk()?;
    Some((u32::from_le_bytes(*number), rest))
}

fn read_u64(bytes: &[u8]) -> Option<(u64, &[u8])> {
    let (number, rest) = bytes.split_first_chunk()?;
    Some((u64::from_le_bytes(*number), rest))
}
