//! What both of two runs hold, by mutual partition.

use crate::first_checks::{check_ends, check_rising, split_runs, Refusal};
use crate::writer::append;

/// What [`pair()`] returns.
#[derive(Clone, Copy, Debug, PartialEq, Eq)]
pub struct PairOutcome {
    /// How many answers were written, refused or not.
    pub answers: u64,
    /// The refusal that was met, of number 1, 3, 4 or 5.
    pub refusal: Option<Refusal>,
    /// How deep the partitions were nested that were begun: 1 for that of the whole
    /// runs, 0 if there was none.
    pub nesting: u32,
}

/// What a partition does.
#[derive(Clone, Copy, Debug, PartialEq, Eq)]
pub enum Step {
    /// Two sides are entered.
    Pivot {
        /// The number that splits them.
        value: u32,
        /// The run that gives it, 0 or 1.
        run: usize,
        /// How deep the partition is nested, that of the whole runs being 1.
        depth: u32,
    },
    /// A pivot is found in the other run.
    Answer {
        /// The number.
        value: u32,
    },
}

/// Writes the bins that both of two runs hold to `answers`, rising.
///
/// 1 if there are not two runs, 3 and 4 are the first checks. 5 leaves the answers
/// that fit, which are the least. All later places of `answers` are unchanged.
pub fn pair(numbers: &[u32], ends: &[u32], answers: &mut [u32]) -> PairOutcome {
    let (mut written, mut nesting) = (0, 0);
    let end = steps_of(numbers, ends, |step| match step {
        Step::Pivot { depth, .. } => {
            nesting = nesting.max(depth);
            Ok(())
        }
        Step::Answer { value } => append(answers, &mut written, value),
    });
    PairOutcome {
        answers: written as u64,
        refusal: end.err(),
        nesting,
    }
}

/// Returns all that the partition of two runs does, in order. Refusals 1, 3 and 4.
pub fn pair_steps(numbers: &[u32], ends: &[u32]) -> Result<Vec<Step>, Refusal> {
    let mut steps = Vec::new();
    steps_of(numbers, ends, |step| {
        steps.push(step);
        Ok(())
    })?;
    Ok(steps)
}

/// Makes the first checks and partitions the bins of the two runs. `told` gets
/// each step and may end it.
fn steps_of(
    numbers: &[u32],
    ends: &[u32],
    mut told: impl FnMut(Step) -> Result<(), Refusal>,
) -> Result<(), Refusal> {
    if ends.len() != 2 {
        return Err(Refusal::new(1, ends.len()));
    }
    check_ends(ends, numbers.len())?;
    check_rising(numbers, ends)?;
    let [first, second, ..] = split_runs(numbers, ends);
    partition([first, second], 1, &mut told)
}

/// Splits both sides at a pivot, and each of the two pairs of sides so made in the
/// same manner, the lower one first. The sides are those of the first run and of the
/// second.
fn partition(
    sides: [&[u32]; 2],
    depth: u32,
    told: &mut impl FnMut(Step) -> Result<(), Refusal>,
) -> Result<(), Refusal> {
    let [first, second] = sides;
    // An empty side is not entered.
    if first.is_empty() || second.is_empty() {
        return Ok(());
    }
    // The shorter side gives the pivot, at equal lengths that of the first run.
    let run = usize::from(second.len() < first.len());
    let (shorter, longer) = (sides[run], sides[1 - run]);
    // The middle number; of an even count the later of the two.
    let middle = shorter.len() / 2;
    let value = shorter[middle];
    told(Step::Pivot { value, run, depth })?;

    // Found by halving.
    let place = longer.partition_point(|&x| x < value);
    let mut places = [place; 2];
    places[run] = middle;
    let lower = [&first[..places[0]], &second[..places[1]]];
    partition(lower, depth + 1, told)?;
    if longer.get(place) == Some(&value) {
        told(Step::Answer { value })?;
    }
    // The pivot is in neither side.
    let upper = [&first[places[0]..], &second[places[1]..]];
    let upper = upper.map(|rest| rest.strip_prefix(&[value]).unwrap_or(rest));
    partition(upper, depth + 1, told)
}
