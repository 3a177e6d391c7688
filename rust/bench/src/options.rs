//! What the command line asks for.

/// What an error is followed by.
pub const USAGE: &str = "usage: bench [--only SUBSTRING] [--reps N] [--help]";

/// What `--help` prints after the usage.
pub const HELP: &str = "
Times the library on 1,048,576 numbers beside other ways to the answers, checks
of certificates beside queries, many questions in one call beside as many calls
and with zeros before the bins beside the bins alone, queries and checks by weight
beside those without weights, what the first run holds alone beside a query of the
other runs, what both of two runs hold beside a query of them, and the reading of
tracefiles of 100,000,000 bytes. Standard output has the eight tables.

  --only SUBSTRING  measure the cases whose name, as `dense k=8 t=2`,
                    `half zeros, dense k=64 t=32`, `weights all 1, dense k=8 wanted=2`,
                    `alone, dense k=8 t=2`, `pair, dense` or `tracefile, one section`,
                    has this
  --reps N          repetitions, 1 or more, of which the median counts; 9 if not given
  --help            print this

Columns of the first six tables, of which the fifth has no t:
  case            shape of the input
  k               number of runs; where 60 are equally long they have 1,048,560 numbers
  t               threshold; of the other runs where the first is asked about
  parts           parts of the certificate; of all certificates where there are many
                  questions

Columns of the first table, queries:
  ns/number       time of the library for a number, in nanoseconds
  lib/reference   time of the library divided by that of the reference walk
  lib/same        the same for the library's own way in Rust
  lib/heap        the same for a heap merge that takes each head out and puts the next in
  lib/top         the same for a heap merge that puts the next head in the place of the top
  lib/sort        the same for sorting all numbers and counting equal ones
  keys/(k log k)  comparisons of keys in a round, divided by k times the logarithm of k
                  to base 2: the mean, counted in the library's own way in Rust
The heap merges and the sort neither check their input nor write a certificate.

Columns of the second table, checks of the certificate that the query wrote:
  query ms        time of the query, in milliseconds
  check ms        time of the check, in milliseconds
  check/query     time of the check divided by that of the query

Columns of the third table, questions about all runs with the same threshold:
  questions       number of questions
  one ms          time of one call for all questions, in milliseconds
  calls ms        time of one call for each question, in milliseconds
  one/calls       time of the one call divided by that of the calls
  one/same        the same for the library's own way in Rust, all questions together

Columns of the fourth table, such questions about half as many bins, after as many
zeros in each run and without them:
  zeros ms        time of the call with the zeros, in milliseconds
  bins ms         time of the call without them, in milliseconds
  pass ms         time of a call with no question with the zeros less that without
                  them: the one pass over the zeros, in milliseconds
  zeros/bins      time of the call with the zeros divided by that without
  less pass       the same once the one pass is taken off the call with the zeros
  zeros/same      time of the call with the zeros divided by that of the library's own
                  way in Rust

Columns of the fifth table, queries by weight and checks of their certificates:
  weights         1 each; one run in eight weighing 8, the others 1; or any
  wanted          the wanted weight: of all weights the share that 1, 2, half or all
                  of the runs are of the runs
  query ms        time of the query, in milliseconds
  query/plain     where all weigh 1: the same divided by that of the query without
                  weights
  query/same      the same divided by that of the library's own way in Rust
  check ms        time of the check, in milliseconds
  check/plain     where all weigh 1: the same divided by that of the check without
                  weights
  check/query     time of the check divided by that of the query

Columns of the sixth table, what the first run holds and fewer than t of the others:
  answers         bins that it holds alone
  alone ms        time of the question, in milliseconds
  plain ms        time of the query of the other runs without it, in milliseconds
  alone/plain     time of the question divided by that of the query
  alone/same      the same for the library's own way in Rust, whose walk writes the
                  answers of the others too

Columns of the seventh table, what both of two runs hold:
  case            shape of the input
  first           numbers of the first run
  second          numbers of the second run
  answers         bins that both hold
  pair ms         time of the pair, in milliseconds
  query ms        time of the query of both runs with threshold 2, in milliseconds
  pair/query      time of the pair divided by that of the query
  pair/same       the same for the library's own way in Rust
  pair/merge      the same for a merge of the two runs after the same first checks

Columns of the eighth table, the last section of a tracefile read as a run:
  case            which tracefile: one of many sections, or of one with all its records
  sections        number of sections
  numbers         numbers of the run
  lib ms          time of the library, in milliseconds
  same ms         time of the same reader in Rust, in milliseconds
  lib/same        time of the library divided by that of the reader in Rust
  lib MB/s        millions of bytes that the library reads in a second
";

/// What is measured, and how often.
#[derive(Debug, PartialEq, Eq)]
pub struct Options {
    /// Only cases whose names have this.
    pub only: String,
    /// The repetitions of each case, at least 1.
    pub repetitions: usize,
}

/// What the command line asks for.
#[derive(Debug, PartialEq, Eq)]
pub enum Request {
    /// To print the help.
    Help,
    /// To measure.
    Measure(Options),
}

/// Reads the words after the program's name. The error tells which word is
/// wrong.
pub fn read(words: impl IntoIterator<Item = String>) -> Result<Request, String> {
    let mut options = Options {
        only: String::new(),
        repetitions: 9,
    };
    let mut words = words.into_iter();
    while let Some(word) = words.next() {
        let mut value = || words.next().ok_or(format!("`{word}` needs a value"));
        match word.as_str() {
            "--help" => return Ok(Request::Help),
            "--only" => options.only = value()?,
            "--reps" => {
                let value = value()?;
                let repetitions = value.parse().ok().filter(|&n| n > 0);
                options.repetitions =
                    repetitions.ok_or(format!("`{value}` is no number of repetitions"))?;
            }
            _ => return Err(format!("`{word}` is unknown")),
        }
    }
    Ok(Request::Measure(options))
}

#[cfg(test)]
mod tests {
    use super::*;

    fn read_line(line: &str) -> Result<Request, String> {
        read(line.split_whitespace().map(str::to_string))
    }

    fn measure(only: &str, repetitions: usize) -> Result<Request, String> {
        let only = only.to_string();
        Ok(Request::Measure(Options { only, repetitions }))
    }

    #[test]
    fn defaults() {
        assert_eq!(read_line(""), measure("", 9));
    }

    #[test]
    fn both_options_in_any_order() {
        assert_eq!(read_line("--only dense"), measure("dense", 9));
        assert_eq!(read_line("--reps 3"), measure("", 3));
        assert_eq!(read_line("--only t=2 --reps 1"), measure("t=2", 1));
        assert_eq!(read_line("--reps 1 --only t=2"), measure("t=2", 1));
        let words = ["--only", "dense k=8 t=2"].map(str::to_string);
        assert_eq!(read(words), measure("dense k=8 t=2", 9));
    }

    #[test]
    fn the_last_of_two_counts() {
        assert_eq!(read_line("--reps 3 --reps 5"), measure("", 5));
    }

    #[test]
    fn help() {
        assert_eq!(read_line("--help"), Ok(Request::Help));
        assert_eq!(read_line("--reps 3 --help"), Ok(Request::Help));
    }

    #[test]
    fn errors() {
        for (line, error) in [
            ("--reps 0", "`0` is no number of repetitions"),
            ("--reps -1", "`-1` is no number of repetitions"),
            ("--reps nine", "`nine` is no number of repetitions"),
            (
                "--reps 99999999999999999999",
                "`99999999999999999999` is no number of repetitions",
            ),
            ("--reps", "`--reps` needs a value"),
            ("--only", "`--only` needs a value"),
            ("dense", "`dense` is unknown"),
            ("--runs 3", "`--runs` is unknown"),
            ("--only dense sparse", "`sparse` is unknown"),
        ] {
            assert_eq!(read_line(line), Err(error.to_string()));
        }
    }
}
