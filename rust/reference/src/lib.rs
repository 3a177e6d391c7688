//! Reference implementation of docs/SPECIFICATION.md: which bins do at least `t`
//! of `k` rising lists hold? A bin is a number from 1 to 4294967295. A list may
//! begin with any number of zeros, each the mark of a hit that could not be
//! mapped, which are passed over. Lists may have weights: then those that hold a
//! bin weigh at least what is wanted.
//!
//! It is written from the specification alone, to be compared with other
//! implementations. Every function outside [`testing`] is total: it never
//! panics, whatever the input.
//!
//! * [`query()`] walks the runs and writes answers and a certificate,
//!   [`query_weighted()`] does so for runs with weights, [`query_many()`] for many
//!   questions, each about some of the runs. [`query_alone()`] writes what the
//!   first run holds and too few of the others.
//! * [`pair()`] writes what both of two runs hold, by mutual partition.
//! * [`check()`] decides whether a certificate is true, and names the first
//!   wrong field.
//! * [`between()`] finds the bins of one list between two numbers.
//! * [`parse()`] reads the input text of the program `hits`, and [`hits()`] gives
//!   what it prints.
//! * [`probe_bound`] gives an allowance that is enough.
//! * [`lcov_run()`] reads one section of an LCOV tracefile as one run.
//! * [`trace()`], [`is_true`] and [`fewest_parts()`] serve tests: they give the
//!   whole walk and the definitions it is compared with. So does [`pair_steps()`],
//!   which gives the whole partition.
//! * [`testing`] is what the tests of this crate and the comparison share.
//!
//! A function whose name ends in `chosen` is about those of the runs that a mask
//! names, one whose name ends in `weighted` about runs with weights; the one
//! without is the case in which all are chosen and each weighs 1. Where a name
//! ends in `by`, a [`Weighting`] tells which of these is meant.

#![forbid(unsafe_code)]
#![warn(missing_docs)]

pub mod alone;
pub mod between;
pub mod bins;
pub mod bounds;
pub mod certificate;
pub mod check;
pub mod fewest_parts;
pub mod first_checks;
mod heads;
pub mod hits;
pub mod lcov;
pub mod many;
pub mod mask;
pub mod pair;
pub mod probes;
pub mod query;
pub mod testing;
pub mod text;
pub mod trace;
mod walk;
pub mod weights;
mod writer;

pub use alone::query_alone;
pub use between::between;
pub use bins::{bins, first_not_rising, leading_zeros, FIRST_BIN};
pub use bounds::{digits, probe_bound, probe_bound_chosen};
pub use certificate::{decode, encode, is_true, is_true_by, Part};
pub use check::{check, check_by, check_chosen, check_weighted, Verdict};
pub use fewest_parts::{fewest_parts, fewest_parts_by};
pub use first_checks::{first_checks, first_checks_by, split_runs, Refusal, MAX_NUMBERS, MAX_RUNS};
pub use hits::hits;
pub use lcov::{lcov_run, Reading};
pub use many::{query_many, ManyOutcome};
pub use mask::{all_runs, named_runs, other_runs};
pub use pair::{pair, pair_steps, PairOutcome, Step};
pub use probes::{Probe, Probes};
pub use query::{query, query_by, query_weighted, Outcome};
pub use text::{parse, Question};
pub use trace::{trace, trace_by, Trace};
pub use weights::{Weighting, MAX_WEIGHT};
