//! The least number of parts of any true certificate, found without the walk.

use crate::bins::{bins, FIRST_BIN};
use crate::weights::Weighting;

/// Returns the least number of parts of any true certificate for runs and a
/// threshold that pass the first checks; 0 if there is none, which happens
/// only for others. Meant for small inputs: the cost grows with the square of
/// the count of numbers.
///
/// It is enough to look at certificates whose parts begin at 1, at a bin x of
/// some run, or at x + 1. Take any true certificate and move the beginning
/// of each part down to the nearest of these points. The parts stay in order,
/// and one that becomes empty is dropped, so there are no more than before.
/// An answer x stays as it is: it begins at x and the next part at x + 1. A
/// gap may lose bins at its end, which keeps it true. Bins that it gains at
/// its beginning are held by no run, which keeps it true as well: if x were
/// one of them, x and x + 1 would be points, and no part that begins above x
/// would be moved down to x or below.
pub fn fewest_parts(runs: &[&[u32]], threshold: u32) -> usize {
    fewest_parts_by(runs, Weighting::Plain, threshold)
}

/// The same for any weighting.
pub fn fewest_parts_by(runs: &[&[u32]], weighting: Weighting, threshold: u32) -> usize {
    let weighed = weighting.each(runs.len()).into_iter();
    let runs: Vec<(&[u32], u64)> = weighed.map(|(i, w)| (bins(runs[i]), w)).collect();
    let wanted = u64::from(threshold);
    let mut points: Vec<u64> = vec![FIRST_BIN.into(), 1 << 32];
    for &x in runs.iter().flat_map(|&(run, _)| run) {
        points.extend([u64::from(x), u64::from(x) + 1]);
    }
    points.sort_unstable();
    points.dedup();

    // fewest[j] is the least number of parts that cover all below points[j].
    let mut fewest: Vec<Option<usize>> = vec![None; points.len()];
    fewest[0] = Some(0);
    for j in 1..points.len() {
        for i in 0..j {
            let Some(before) = fewest[i] else { continue };
            let (first, after) = (points[i], points[j]);
            let holds = |run: &[u32]| run.iter().any(|&x| (first..after).contains(&x.into()));
            let holding = runs.iter().filter(|(run, _)| holds(run));
            let weight: u64 = holding.map(|(_, weight)| weight).sum();
            let is_answer = after == first + 1 && weight >= wanted;
            // It names all that miss it and leaves out those that hold a number.
            let is_gap = weight < wanted;
            if is_answer || is_gap {
                let parts = before + 1;
                fewest[j] = Some(fewest[j].map_or(parts, |least| least.min(parts)));
            }
        }
    }
    fewest[points.len() - 1].unwrap_or(0)
}
