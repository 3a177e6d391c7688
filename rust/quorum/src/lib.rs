//! Which bins do at least `t` of `k` rising lists hold? A safe wrapper of the
//! proved library behind `include/quorum.h`.
//!
//! * [`query()`] writes the bins held often enough, with a certificate,
//!   [`query_weighted()`] those of runs that count for more than one.
//! * [`query_many()`] does so for many questions about the same runs, each about
//!   some of them; [`finished()`] hands out each question's own.
//! * [`query_alone()`] writes the bins of the first run that too few of the others
//!   hold: what a new test found alone.
//! * [`pair()`] writes the bins that both of two runs hold, without a certificate.
//! * [`check()`] decides whether a certificate is true, [`check_chosen()`]
//!   whether it is for some of the runs, [`check_weighted()`] whether it is for
//!   runs with weights.
//! * [`parts()`] reads a certificate.
//! * [`between()`] finds the bins of one list between two numbers.
//! * [`probe_bound()`] gives an allowance of probes that is enough,
//!   [`probe_bound_chosen()`] one for some of the runs.
//! * [`lcov_run()`] reads one section of an LCOV tracefile as one run.
//!
//! # Terms
//!
//! A *bin* is a number from [`FIRST_BIN`], which is 1, to [`LAST_BIN`], which is
//! 4294967295. A *run* is a rising list of bins, each above the one before it, and
//! perhaps zeros before them. A run may be empty. There are 1 to [`MAX_RUNS`] runs,
//! counted from 0.
//!
//! A 0 at the start of a run is the mark of a hit that could not be mapped, and a
//! run may begin with any number of them: {0, 0, 5} is read as {5}, and a run of
//! zeros alone as an empty one. They are no bins: they are passed over without a
//! probe, are never answers, and no certificate speaks of them. They are among the
//! `numbers`, and count in ends, in places and towards [`MAX_NUMBERS`]. A 0 after
//! another number of its run does not rise and is refused. Beside its cost below, a
//! call reads some 2 × log2(z) numbers of a run that begins with z zeros, one number
//! if there are none, to find where its bins begin: once, whatever the questions.
//!
//! All runs lie one after another in `numbers`, at most [`MAX_NUMBERS`] of them.
//! The *end* of a run, `ends[i]`, is the place in `numbers` after its last
//! number: run 0 is `numbers[..ends[0]]`, run 1 is `numbers[ends[0]..ends[1]]`,
//! and the last end is `numbers.len()`. There are as many ends as runs, so no 0
//! comes first as in a row of offsets.
//!
//! A *mask* is a 64-bit number that names runs: bit `i` is run `i`, bit 0 being
//! the lowest. The runs that a question is about are *chosen* by a mask; all
//! masks, those of a certificate too, are in the numbering of all runs.
//!
//! A run may have a *weight* from 1 to [`MAX_WEIGHT`], which is 255: what it counts
//! for. In questions without weights each run counts for one. Weights are for all
//! runs; no question has both weights and a mask.
//!
//! An *answer* is a bin that at least `threshold` runs hold, or that runs hold
//! which together weigh at least the wanted weight. A *certificate*
//! shows which bins are answers and that no other is. It is a row of bytes, one
//! field for each [`Part`]; the parts cover every bin from [`FIRST_BIN`] to
//! [`LAST_BIN`] once, in rising order. A part is either an answer, with a mask
//! of runs that hold it, or a gap, with a mask of runs that have no number in
//! it, so many that the others are fewer than `threshold`, or weigh less than is
//! wanted. An answer's mask, as [`query()`] writes it, names all the runs that hold
//! it. Whoever has the runs can check a certificate, whoever wrote it.
//!
//! A *probe* is one comparison with a number in a search. A search jumps ahead in
//! its run by *doubling probes*, 1, 2, 4 numbers and so on, and then narrows down
//! what its last jump passed over by *halving probes*; allowances and bounds are
//! about both together. Bounds on probes count the *binary digits* of the number
//! of a run's bins: no bins have 0 of them, 4 bins have 3.
//!
//! # Calls
//!
//! Every call returns for every input and none panics. All are re-entrant and
//! keep no state, so threads may call them at the same time. They allocate
//! nothing. The library is built for x86-64 Linux; `build.rs` links it.
//!
//! # Example
//!
//! The bins in at least two of {2, 5, 9}, {5, 7, 9, 12} and {1, 9}:
//!
//! ```
//! use quorum::{check, enough_answers, enough_bytes, parts, query, Part, ENOUGH_PROBES};
//!
//! let numbers = [2, 5, 9, 5, 7, 9, 12, 1, 9];
//! let ends = [3, 7, 9];
//! let mut answers = vec![0; enough_answers(numbers.len())];
//! let mut certificate = vec![0; enough_bytes(numbers.len())];
//! let counts = query(&numbers, &ends, 2, ENOUGH_PROBES, &mut answers, &mut certificate)?;
//! answers.truncate(counts.answers);
//! certificate.truncate(counts.bytes);
//! assert_eq!(answers, [5, 9]);
//! assert_eq!((counts.parts, counts.bytes), (6, 106));
//! assert_eq!((counts.doublings, counts.halvings), (3, 0));
//!
//! let checked = check(&numbers, &ends, 2, &certificate)?;
//! assert_eq!((checked.answers, checked.parts), (2, 6));
//!
//! let mut lines = Vec::new();
//! for part in parts(&certificate) {
//!     let part = part?;
//!     lines.push(part.to_string());
//!     if let Part::Answer { value: 5, .. } = part {
//!         // Runs 0 and 1 hold 5.
//!         assert!(part.runs().eq([0, 1]));
//!     }
//! }
//! assert_eq!(
//!     lines,
//!     ["gap 1 1 3", "gap 2 4 6", "hit 5 3", "gap 6 8 5", "hit 9 7", "gap 10 4294967295 5"]
//! );
//! # Ok::<(), Box<dyn std::error::Error>>(())
//! ```

#![deny(unsafe_code)]
#![warn(missing_docs)]

mod alone;
mod certificate;
mod chosen;
#[allow(unsafe_code)]
pub mod ffi;
mod finished;
mod lcov;
mod limits;
mod many;
mod pair;
mod refusal;
mod weighted;

pub use alone::query_alone;
pub use certificate::{parts, Part, Parts, Runs, ANSWER_SIZE, GAP_SIZE, TAG_ANSWER, TAG_GAP};
pub use chosen::{check_chosen, probe_bound_chosen};
pub use finished::{finished, Answered, Finished};
pub use lcov::{lcov_run, StoppedRun};
pub use limits::{
    enough_answers, enough_bytes, enough_results, ENOUGH_PROBES, FIRST_BIN, LAST_BIN, MAX_NUMBERS,
    MAX_RUNS, MAX_WEIGHT,
};
pub use many::{query_many, StoppedMany};
pub use pair::{pair, StoppedPair};
pub use refusal::{Refusal, Stopped};
pub use weighted::{check_weighted, query_weighted};

/// The README's lines are compiled and run as a documentation test.
#[cfg(doctest)]
#[doc = include_str!("../../../README.md")]
struct Readme;

/// What a query wrote and probed: the result of [`query()`], of
/// [`query_weighted()`] and of [`query_alone()`], and in [`Stopped`]. Of many
/// questions the sums: the result of [`query_many()`], and in [`StoppedMany`].
///
/// ```
/// // One run with no numbers: the certificate is one gap.
/// let counts = quorum::query(&[], &[0], 1, 0, &mut [], &mut [0; 19])?;
/// assert_eq!((counts.answers, counts.parts), (0, 1));
/// assert_eq!((counts.bytes, counts.probes()), (19, 0));
/// # Ok::<(), quorum::Stopped>(())
/// ```
#[derive(Clone, Copy, Debug, Default, PartialEq, Eq, Hash)]
pub struct Counts {
    /// The answers written.
    pub answers: usize,
    /// The parts of the certificate written.
    pub parts: usize,
    /// The bytes of the certificate written.
    pub bytes: usize,
    /// The doubling probes made. Many of them to a part tell of long jumps: runs
    /// that lie far apart, or of which most is passed over.
    pub doublings: u64,
    /// The halving probes made. Many of them tell of jumps that went too far and
    /// had to be narrowed down. A run that moves on by a number or two at a time
    /// takes none.
    pub halvings: u64,
}

impl Counts {
    /// Returns the probes made, of both kinds together. This is what an allowance
    /// is held against and what bounds on probes speak of.
    ///
    /// ```
    /// // {10, 20, .., 160} and {115}.
    /// let numbers: Vec<u32> = (1..=16).map(|i| 10 * i).chain([115]).collect();
    /// let counts = quorum::query(&numbers, &[16, 17], 2, 7, &mut [], &mut [0; 57])?;
    /// // In the first run places 1, 2, 4 and 8 are probed, then 12, 10 and 11.
    /// assert_eq!((counts.doublings, counts.halvings), (4, 3));
    /// assert_eq!(counts.probes(), 7);
    /// # Ok::<(), quorum::Stopped>(())
    /// ```
    #[must_use]
    pub const fn probes(&self) -> u64 {
        self.doublings + self.halvings
    }
}

/// What a true certificate has: the result of [`check()`], with an example, of
/// [`check_chosen()`] and of [`check_weighted()`].
#[derive(Clone, Copy, Debug, PartialEq, Eq, Hash)]
pub struct Checked {
    /// How many of its parts are answers.
    pub answers: usize,
    /// How many parts it has.
    pub parts: usize,
}

/// Writes the bins that at least `threshold` of the runs hold to `answers`,
/// rising, and to `certificate` the parts that show them to be all.
///
/// An answer's mask names all the runs that hold it. No true certificate has
/// fewer parts. Places of both buffers after what was written are unchanged.
///
/// # Errors
///
/// Refusals 1 to 4 of [`Refusal`], which leave both buffers as they were. And 5
/// to 7 as soon as something more is due for which nothing is left: one more
/// answer and the answer buffer is full, one more part and it does not fit the
/// rest of the certificate buffer, one more probe and the allowance is used up.
/// What was written before stands, and [`Stopped::counts`] tells how much. A
/// query that exactly fills a buffer, or uses up its allowance, with nothing
/// more due is accepted.
///
/// # Buffers
///
/// For n numbers, [`enough_answers(n)`](enough_answers) answers and
/// [`enough_bytes(n)`](enough_bytes) bytes are always enough: n, and
/// 34 × n + 19. Refusals 5 and 6 then never occur.
///
/// # Allowance
///
/// It is held against the probes of both kinds together, [`Counts::probes`]. If
/// nothing is known of the runs, and all their answers are wanted, take
/// [`ENOUGH_PROBES`]: it is always enough, as is any larger allowance, such as
/// `u32::MAX`. Refusal 7 then never occurs. For n numbers in all, 2 × n × b is
/// enough too, b being the binary digits of n, and so is the sum of 2 × n × b
/// over the runs, n being the numbers of the run: a search moves its run on by at
/// least one number.
///
/// To limit the probes where similar runs took d parts, take
/// [`probe_bound(ends, d)`](probe_bound()), or that of a multiple of d: a query
/// that is then refused as [`ALLOWANCE_SPENT`](Refusal::ALLOWANCE_SPENT) has met
/// runs whose every true certificate has more parts.
///
/// # Cost
///
/// One pass over `numbers` for the first checks. Then, in a run whose number of
/// bins has b binary digits, at most 2 × d × b probes, d being the parts of any
/// true certificate. Moving a run on by one or two numbers takes as many doubling
/// probes at most, by r numbers about log2(r) of each kind.
///
/// # Example
///
/// ```
/// use quorum::{query, Refusal};
///
/// let (mut answers, mut certificate) = ([0; 1], [0; 53]);
/// // {7, 9} and {7}: the one answer and its certificate fill both buffers.
/// let counts = query(&[7, 9, 7], &[2, 3], 2, 0, &mut answers, &mut certificate)?;
/// assert_eq!((counts.answers, counts.bytes), (1, 53));
/// assert_eq!(answers, [7]);
///
/// // One of them at least holds 7, and one holds 9; there is room for one answer.
/// let refused = query(&[7, 9, 7], &[2, 3], 1, 0, &mut answers, &mut certificate);
/// let stopped = refused.unwrap_err();
/// assert_eq!(stopped.refusal.number, Refusal::ANSWERS_FULL);
/// assert_eq!((stopped.counts.answers, stopped.counts.parts), (1, 3));
///
/// // {0, 0, 7, 9} and {0, 7} are the same runs after unmapped marks.
/// let numbers = [0, 0, 7, 9, 0, 7];
/// let counts = query(&numbers, &[4, 6], 2, 0, &mut answers, &mut certificate)?;
/// assert_eq!((counts.answers, counts.parts), (1, 3));
///
/// // {7, 0}: a 0 after another number is no mark.
/// let refused = query(&[7, 0], &[2], 1, 0, &mut answers, &mut certificate);
/// let refusal = Refusal { number: Refusal::NOT_RISING, place: 1 };
/// assert_eq!(refused.unwrap_err().refusal, refusal);
/// # Ok::<(), quorum::Stopped>(())
/// ```
pub fn query(
    numbers: &[u32],
    ends: &[u32],
    threshold: u32,
    allowance: u32,
    answers: &mut [u32],
    certificate: &mut [u8],
) -> Result<Counts, Stopped> {
    queried(ffi::query(
        numbers,
        ends,
        threshold,
        allowance,
        answers,
        certificate,
    ))
}

/// What a query returns for the row that the library writes.
fn queried([number, place, written @ ..]: [u64; 7]) -> Result<Counts, Stopped> {
    let counts = counted(written);
    match number {
        0 => Ok(counts),
        _ => Err(Stopped {
            refusal: Refusal { number, place },
            counts,
        }),
    }
}

/// The counts at the end of the row that the library writes for a query.
fn counted([answers, parts, bytes, doublings, halvings]: [u64; 5]) -> Counts {
    Counts {
        answers: answers as usize,
        parts: parts as usize,
        bytes: bytes as usize,
        doublings,
        halvings,
    }
}

/// What a call that writes one row of numbers returns for the row of results that
/// the library writes: how many it wrote, with the refusal if there is one.
fn listed([number, place, written]: [u64; 3]) -> Result<usize, (Refusal, usize)> {
    let written = written as usize;
    match number {
        0 => Ok(written),
        _ => Err((Refusal { number, place }, written)),
    }
}

/// Decides whether `certificate` is true for the runs and `threshold`, whoever
/// wrote it.
///
/// # Errors
///
/// Refusals 1 to 4 of [`Refusal`] for the runs and the threshold. And 8 to 11 if
/// the certificate is not true: the first field that is wrong, each being
/// settled before the next.
///
/// A certificate that begins at bin 0 is [`NOT_COVERING`](Refusal::NOT_COVERING)
/// at place 0, whoever wrote it, and so is a stored one: nothing in it tells its
/// age. Ask again for a new one.
///
/// # Cost
///
/// One pass over `numbers` for the first checks, then at most one more and
/// parts × runs steps.
///
/// # Example
///
/// ```
/// use quorum::{check, Refusal};
///
/// // One gap from 1 to 4294967295 in which run 0 has no number.
/// let mut certificate = [2, 16, 0, 1, 0, 0, 0, 255, 255, 255, 255, 1, 0, 0, 0, 0, 0, 0, 0];
/// let checked = check(&[], &[0], 1, &certificate)?;
/// assert_eq!((checked.answers, checked.parts), (0, 1));
///
/// let refusal = Refusal { number: Refusal::CONTRADICTED, place: 0 };
/// assert_eq!(check(&[7], &[1], 1, &certificate), Err(refusal));
///
/// // The same from 0 on.
/// certificate[3] = 0;
/// let refusal = Refusal { number: Refusal::NOT_COVERING, place: 0 };
/// assert_eq!(check(&[], &[0], 1, &certificate), Err(refusal));
/// # Ok::<(), Refusal>(())
/// ```
pub fn check(
    numbers: &[u32],
    ends: &[u32],
    threshold: u32,
    certificate: &[u8],
) -> Result<Checked, Refusal> {
    checked(ffi::check(numbers, ends, threshold, certificate))
}

/// What a check returns for the row that the library writes.
fn checked(row: [u64; 4]) -> Result<Checked, Refusal> {
    match row {
        [0, _, answers, parts] => Ok(Checked {
            answers: answers as usize,
            parts: parts as usize,
        }),
        [number, place, ..] => Err(Refusal { number, place }),
    }
}

/// Returns the part of `list` that has its bins from `first` to `last`, both
/// included. It is empty if `first` is above `last` or the list does not rise.
/// Zeros at the start of the list, any number of them, are passed over and never
/// shown, whatever `first` is.
///
/// # Cost
///
/// One pass over the list, which may have any length, and two searches.
///
/// # Example
///
/// ```
/// use quorum::between;
///
/// assert_eq!(between(&[2, 5, 9], 3, 9), [5, 9]);
/// assert_eq!(between(&[2, 5, 9], 6, 8), []);
/// assert_eq!(between(&[9, 5, 2], 3, 9), []);
/// assert_eq!(between(&[0, 0, 3, 5], 0, 3), [3]);
/// assert_eq!(between(&[0, 0, 3, 5], 0, 0), []);
/// assert_eq!(between(&[5, 0], 0, 9), []);
/// ```
#[must_use]
pub fn between(list: &[u32], first: u32, last: u32) -> &[u32] {
    let places = ffi::between(list, first, last);
    // The places always lie in the list, so the default is never taken.
    list.get(places.start as usize..places.end as usize)
        .unwrap_or_default()
}

/// Returns the sum over the runs of 2 × `parts` × the binary digits of the
/// run's length, an empty run having 0 digits. If a true certificate has so many
/// parts, an allowance of this many probes is enough, with weights too: for runs
/// with weights the certificate is one that is true for these.
///
/// The length is that of the numbers as lent, zeros at the start among them, for
/// the ends tell no more. So the sum may be above that over the runs' bins, and is
/// never below it.
///
/// [`ENOUGH_PROBES`] is enough for every query, so a sum above it, which may have
/// more than an allowance's 32 bits, can be cut down to it.
///
/// # Errors
///
/// [`BAD_RUN_COUNT`](Refusal::BAD_RUN_COUNT), and [`BAD_ENDS`](Refusal::BAD_ENDS)
/// for an end that is below the one before or a last end above [`MAX_NUMBERS`].
///
/// # Cost
///
/// One pass over `ends`.
///
/// # Example
///
/// ```
/// use quorum::{probe_bound, Refusal, ENOUGH_PROBES};
///
/// // Runs of 3, 4 and 2 numbers have lengths of 2, 3 and 2 digits.
/// let bound = probe_bound(&[3, 7, 9], 6)?;
/// assert_eq!(bound, 2 * 6 * (2 + 3 + 2));
/// let allowance = bound.min(ENOUGH_PROBES.into()) as u32;
/// assert_eq!(allowance, 84);
///
/// let refusal = Refusal { number: Refusal::BAD_ENDS, place: 1 };
/// assert_eq!(probe_bound(&[3, 2], 6), Err(refusal));
/// # Ok::<(), Refusal>(())
/// ```
pub fn probe_bound(ends: &[u32], parts: u32) -> Result<u64, Refusal> {
    bounded(ffi::probe_bound(ends, parts))
}

/// What a bound returns for the row that the library writes.
fn bounded(row: [u64; 3]) -> Result<u64, Refusal> {
    match row {
        [0, _, bound] => Ok(bound),
        [number, place, _] => Err(Refusal { number, place }),
    }
}
