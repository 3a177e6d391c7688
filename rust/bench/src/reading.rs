//! Times the reading of a tracefile's section beside the library's own way in
//! Rust.

use crate::tracefiles::{Case, Tracefile, BYTES};
use crate::{lcov, median, timed};
use std::time::Duration;

/// Prints the table of the cases.
pub fn report(cases: &[Case], repetitions: usize) {
    println!(
        "{:<24} {:>9} {:>9} {:>10} {:>10} {:>9} {:>9}",
        "case", "sections", "numbers", "lib ms", "same ms", "lib/same", "lib MB/s"
    );
    for case in cases {
        let tracefile = case.tracefile();
        let (numbers, times) = measure(&tracefile, repetitions);
        let [library, same] = times.map(|time| time.as_secs_f64() * 1e3);
        println!(
            "{case:<24} {:>9} {numbers:>9} {library:>10.2} {same:>10.2} {:>9.2} {:>9.0}",
            tracefile.sections,
            library / same,
            BYTES as f64 / 1e3 / library
        );
    }
}

/// The numbers of the last section, and the medians of the two ways, which write
/// the same.
fn measure(tracefile: &Tracefile, repetitions: usize) -> (usize, [Duration; 2]) {
    let Tracefile { bytes, sections } = tracefile;
    // Written to before, so that no repetition meets a page for the first time.
    let mut library_run = vec![1; BYTES / 7];
    let mut same_run = library_run.clone();
    let last = sections - 1;
    let mut times: [Vec<Duration>; 2] = Default::default();
    let mut numbers = 0;
    for _ in 0..repetitions {
        let (time, result) = timed(bytes, || quorum::lcov_run(bytes, last, &mut library_run));
        times[0].push(time);
        numbers = result.expect("the section can be read");

        let (time, same) = timed(bytes, || lcov::lcov_run(bytes, last, &mut same_run));
        times[1].push(time);
        assert_eq!(same, result);
        assert!(same_run == library_run);
    }
    (numbers, times.map(median))
}
