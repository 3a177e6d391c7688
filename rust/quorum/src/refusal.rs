//! Why a call is refused, and what a refused query wrote before.

use crate::Counts;
use std::error::Error;
use std::fmt;

/// The ground of a refusal and where it was met.
///
/// ```
/// use quorum::{query, Refusal};
///
/// let (mut answers, mut certificate) = ([0; 2], [0; 87]);
/// let stopped = query(&[3, 3], &[2], 1, 0, &mut answers, &mut certificate).unwrap_err();
/// let refusal = stopped.refusal;
/// assert_eq!((refusal.number, refusal.place), (Refusal::NOT_RISING, 1));
/// assert_eq!(
///     refusal.to_string(),
///     "refusal 4 at 1: a number is not above the one before it in its run"
/// );
/// ```
#[derive(Clone, Copy, Debug, PartialEq, Eq, Hash)]
pub struct Refusal {
    /// The number of the ground: one of the constants of this type.
    pub number: u64,
    /// Where it was met: each constant tells what this counts.
    pub place: u64,
}

/// The numbers of the grounds.
///
/// [`query()`](crate::query()) and [`check()`](crate::check()) test 1 to 4 first
/// and in this order. 5 to 7 end a query, and 8 to 11 a check, where one of them
/// is first met. [`probe_bound()`](crate::probe_bound()) tests 1 and 3,
/// [`parts()`](crate::parts()) 8. (12 is the program's: a line of its input
/// cannot be read.)
///
/// Calls that choose runs test a mask just before the threshold:
/// [`check_chosen()`](crate::check_chosen()) tests 1, 13, 2, 3 and 4 first and in
/// this order, [`probe_bound_chosen()`](crate::probe_bound_chosen()) 1, 13 and 3.
/// [`query_many()`](crate::query_many()) tests 1, 3, 4 and 14 first, and then 13
/// and 2 for each question before the next; the parts that its place of 5 to 7
/// counts are those of the question that was stopped.
///
/// [`query_alone()`](crate::query_alone()) tests 1 to 4 first and in this order, the
/// threshold against the number of the other runs. 6 and 7 end its walk, and 5 is
/// tested after that.
///
/// [`query_weighted()`](crate::query_weighted()) and
/// [`check_weighted()`](crate::check_weighted()) test 1, 17, 2, 3 and 4 first and in
/// this order, and then what [`query()`](crate::query()) and
/// [`check()`](crate::check()) do.
///
/// [`pair()`](crate::pair()) tests 1, 3 and 4 first and in this order, and then 5.
///
/// [`lcov_run()`](crate::lcov_run()) tests 15, 4 and 5 in this order for each
/// record, and 16 at the end of the file.
///
/// ```
/// use quorum::{query, Refusal};
///
/// let (mut answers, mut certificate) = ([0; 1], [0; 87]);
/// match query(&[7, 9, 7], &[2, 3], 1, 0, &mut answers, &mut certificate) {
///     Ok(counts) => println!("{} answers", counts.answers),
///     Err(stopped) => match stopped.refusal.number {
///         Refusal::ALLOWANCE_SPENT => println!("the allowance is too small"),
///         Refusal::ANSWERS_FULL | Refusal::CERTIFICATE_FULL => println!("a buffer is too small"),
///         _ => println!("{stopped}"),
///     },
/// }
/// ```
impl Refusal {
    /// There are no runs, or more than [`MAX_RUNS`](crate::MAX_RUNS); for
    /// [`pair()`](crate::pair()), any number of runs but two. The place is the number
    /// of runs.
    pub const BAD_RUN_COUNT: u64 = 1;

    /// The threshold is 0 or above the number of runs that the question is about:
    /// all, those that a mask chooses, or, for
    /// [`query_alone()`](crate::query_alone()), all but the first. Or the wanted
    /// weight is 0 or above the weight of all runs. The place is the threshold or the
    /// wanted weight; from [`query_many()`](crate::query_many()) it is the number of
    /// runs that the question's mask names.
    pub const BAD_THRESHOLD: u64 = 2;

    /// An end is below the one before, the place being its index. Or the last
    /// end is not the number of numbers or is above
    /// [`MAX_NUMBERS`](crate::MAX_NUMBERS), the place being the number of runs;
    /// [`probe_bound()`](crate::probe_bound()), which is lent no numbers, tests
    /// only the latter.
    pub const BAD_ENDS: u64 = 3;

    /// A number is not above the one before it in its run, the comparison
    /// starting at the run's first number that is not 0. So zeros at its start are
    /// passed over, and a later 0 is such a number. The place is its index in the
    /// numbers; from [`lcov_run()`](crate::lcov_run()) it is its index in the run.
    pub const NOT_RISING: u64 = 4;

    /// One more answer is due and the answer buffer is full. The place is the
    /// number of parts written, which from [`query_alone()`](crate::query_alone()) are
    /// all; from [`pair()`](crate::pair()) it is the number of answers written. From
    /// [`lcov_run()`](crate::lcov_run()): one more number is due and the row is full.
    /// The place is the count written.
    pub const ANSWERS_FULL: u64 = 5;

    /// One more part is due and does not fit the rest of the certificate
    /// buffer. The place is the number of parts written.
    pub const CERTIFICATE_FULL: u64 = 6;

    /// One more probe is due and the allowance is used up. The place is the
    /// number of parts written.
    pub const ALLOWANCE_SPENT: u64 = 7;

    /// A field of the certificate is cut short, its tag is unknown or its
    /// length is not the tag's. The place is the offset of its tag.
    pub const BAD_FIELD: u64 = 8;

    /// A part does not begin at the next uncovered bin (the first part at
    /// [`FIRST_BIN`](crate::FIRST_BIN)), its last bin is below its first, or
    /// nothing is uncovered before it, the place being the offset of its tag. Or,
    /// at the certificate's end, a bin is still uncovered, the place being the
    /// certificate's length.
    pub const NOT_COVERING: u64 = 9;

    /// A part's mask names a run that does not exist or is not chosen, or too
    /// few runs; by weight, the runs that an answer names weigh too little, or
    /// those that a gap leaves out too much. The place is the offset of the part's
    /// tag.
    pub const BAD_MASK: u64 = 10;

    /// A named run contradicts its part: it does not hold the answer, or it has
    /// a number in the gap. The place is the offset of the part's tag.
    pub const CONTRADICTED: u64 = 11;

    /// The mask that is to choose runs is 0 or names a run that does not exist.
    /// The place is 0; from [`query_many()`](crate::query_many()) it is the
    /// question's index.
    pub const BAD_CHOICE: u64 = 13;

    /// There are not as many thresholds as masks, or fewer than two result
    /// places for each question. The place is the number of masks.
    pub const BAD_ROWS: u64 = 14;

    /// A line of the section begins with `DA:` and goes on with anything but
    /// digits for a number from 1 to 4294967295, a comma, digits, and then a comma
    /// or its end. The place is the offset of the line's first byte.
    pub const BAD_RECORD: u64 = 15;

    /// The tracefile has no such section, or the section has no `end_of_record`.
    /// The place is the file's length.
    pub const NO_SECTION: u64 = 16;

    /// There are not as many weights as runs, the place being the number of runs.
    /// Else a weight is 0 or above [`MAX_WEIGHT`](crate::MAX_WEIGHT), the place being
    /// the index of the first such.
    pub const BAD_WEIGHTS: u64 = 17;
}

impl fmt::Display for Refusal {
    fn fmt(&self, f: &mut fmt::Formatter<'_>) -> fmt::Result {
        let ground = match self.number {
            Refusal::BAD_RUN_COUNT => "no runs, or more than 64; or, for a pair, not two",
            Refusal::BAD_THRESHOLD => {
                "the threshold is 0 or above the number of runs that the question is about; \
                 or the wanted weight is 0 or above that of all runs"
            }
            Refusal::BAD_ENDS => {
                "an end is below the one before, or the last end is not the number of numbers \
                 or is above 1,048,576"
            }
            Refusal::NOT_RISING => "a number is not above the one before it in its run",
            Refusal::ANSWERS_FULL => {
                "one more answer, or number of a section, is due and the buffer for it is full"
            }
            Refusal::CERTIFICATE_FULL => {
                "one more part is due and does not fit the rest of the certificate buffer"
            }
            Refusal::ALLOWANCE_SPENT => "one more probe is due and the allowance is used up",
            Refusal::BAD_FIELD => {
                "a field is cut short, its tag is unknown or its length is not the tag's"
            }
            Refusal::NOT_COVERING => {
                "a part does not begin at the next uncovered bin (the first part at 1), its last \
                 bin is below its first, or nothing is uncovered before it; or, at the \
                 certificate's end, a bin is still uncovered"
            }
            Refusal::BAD_MASK => {
                "a part names a run that does not exist or is not chosen, too few runs, or too \
                 little weight"
            }
            Refusal::CONTRADICTED => "a named run contradicts its part",
            Refusal::BAD_CHOICE => "a mask chooses no run, or one that does not exist",
            Refusal::BAD_ROWS => {
                "there are not as many thresholds as masks, or fewer than two result places for \
                 each question"
            }
            Refusal::BAD_RECORD => {
                "a DA: line is not a number from 1 to 4294967295, a comma, a count, and then a \
                 comma or the line's end"
            }
            Refusal::NO_SECTION => "the file has no such section, or the section has no end",
            Refusal::BAD_WEIGHTS => {
                "there are not as many weights as runs, or a weight is 0 or above 255"
            }
            _ => "an unknown ground",
        };
        write!(f, "refusal {} at {}: {ground}", self.number, self.place)
    }
}

impl Error for Refusal {}

/// What a refused query returns: why it stopped, and what it wrote before.
///
/// `?` turns it into its [`Refusal`] where that is the error of the function.
///
/// ```
/// use quorum::{query, Refusal};
///
/// let (mut answers, mut certificate) = ([0; 9], [0; 325]);
/// let (numbers, ends) = ([2, 5, 9, 5, 7, 9, 12, 1, 9], [3, 7, 9]);
/// let stopped = query(&numbers, &ends, 2, 2, &mut answers, &mut certificate).unwrap_err();
/// assert_eq!(stopped.refusal.number, Refusal::ALLOWANCE_SPENT);
/// assert_eq!(answers[..stopped.counts.answers], [5]);
/// assert_eq!(
///     stopped.to_string(),
///     "refusal 7 at 4: one more probe is due and the allowance is used up; \
///      written before: answers 1, parts 4, bytes 72"
/// );
///
/// fn answer_count(numbers: &[u32], ends: &[u32]) -> Result<usize, Refusal> {
///     let (mut answers, mut certificate) = ([0; 9], [0; 325]);
///     Ok(query(numbers, ends, 2, 2, &mut answers, &mut certificate)?.answers)
/// }
/// assert_eq!(answer_count(&numbers, &ends), Err(stopped.refusal));
/// ```
#[derive(Clone, Copy, Debug, PartialEq, Eq, Hash)]
pub struct Stopped {
    /// Why the query stopped.
    pub refusal: Refusal,
    /// What it wrote and probed before, which stands: nothing for refusals 1
    /// to 4 and 17, the first answers and parts for 5 to 7. From
    /// [`query_alone()`](crate::query_alone()) all parts and the first answers for 5,
    /// the first parts and no answers for 6 and 7.
    pub counts: Counts,
}

impl fmt::Display for Stopped {
    fn fmt(&self, f: &mut fmt::Formatter<'_>) -> fmt::Result {
        let Stopped { refusal, counts } = self;
        write!(f, "{refusal}")?;
        tell_written(f, counts)
    }
}

/// Adds what was written before a refusal, if anything was.
pub(crate) fn tell_written(f: &mut fmt::Formatter<'_>, counts: &Counts) -> fmt::Result {
    // No answer is written before a part, so without parts nothing was written.
    if counts.parts == 0 {
        return Ok(());
    }
    write!(
        f,
        "; written before: answers {}, parts {}, bytes {}",
        counts.answers, counts.parts, counts.bytes
    )
}

/// Tells a refusal and how many of these were written before, if any were.
pub(crate) fn tell_count(
    f: &mut fmt::Formatter<'_>,
    refusal: Refusal,
    what: &str,
    count: usize,
) -> fmt::Result {
    write!(f, "{refusal}")?;
    match count {
        0 => Ok(()),
        _ => write!(f, "; written before: {what} {count}"),
    }
}

/// Its text has the refusal's, so the refusal is no source of its own.
impl Error for Stopped {}

impl From<Stopped> for Refusal {
    fn from(stopped: Stopped) -> Self {
        stopped.refusal
    }
}
