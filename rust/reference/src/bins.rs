//! What counts as coverage: bins, which are the numbers from 1 on.

/// The first bin. 0 is none: it marks a hit that could not be mapped.
pub const FIRST_BIN: u32 = 1;

/// Returns how many zeros a run begins with.
pub fn leading_zeros(run: &[u32]) -> usize {
    run.iter().take_while(|&&x| x == 0).count()
}

/// Returns the bins of a run that rises: its numbers after the zeros at its
/// start, the only place where a 0 can stand.
pub fn bins(run: &[u32]) -> &[u32] {
    &run[leading_zeros(run)..]
}

/// Returns the index of the first number of a run that is not above the one
/// before it, the comparison starting at the run's first number that is not 0.
pub fn first_not_rising(run: &[u32]) -> Option<usize> {
    let zeros = leading_zeros(run);
    let place = run[zeros..]
        .windows(2)
        .position(|pair| pair[1] <= pair[0])?;
    Some(zeros + place + 1)
}
