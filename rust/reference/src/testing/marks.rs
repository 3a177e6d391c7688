//! Unmapped marks, which are zeros at the start of a run: runs with them and the
//! specification's instances.

use super::{
    accepted, gap, hit, refused_first, seven_and_one, Instance, Random, M, SEVEN_AND_ONE_PARTS,
    THREE_RUNS, THREE_RUNS_PARTS,
};
use crate::leading_zeros;

/// The runs with so many unmapped marks in front of each.
pub fn marked<R: AsRef<[u32]>>(runs: &[R], marks: &[usize]) -> Vec<Vec<u32>> {
    assert_eq!(runs.len(), marks.len());
    let with_marks = |(run, &count): (&R, _)| [&vec![0; count], run.as_ref()].concat();
    runs.iter().zip(marks).map(with_marks).collect()
}

/// [`THREE_RUNS`] after unmapped marks: none, one each, and different numbers of
/// them.
pub fn marked_three_runs() -> [Vec<Vec<u32>>; 5] {
    let marks = [[0, 0, 0], [1, 1, 1], [1, 3, 2], [0, 3, 65], [64, 0, 129]];
    marks.map(|marks| marked(&THREE_RUNS, &marks))
}

/// How many marks a run begins with: one, two, a few, or many. Many are often a
/// multiple of 64, or one more or less, for numbers may be looked at in blocks of
/// so many.
pub fn any_marks(random: &mut Random) -> usize {
    match random.below(16) {
        0..=5 => 1,
        6..=9 => 2,
        10..=12 => random.from_to(3, 9),
        13 => random.from_to(10, 200),
        _ => random.pick(&[63, 64, 65, 127, 128, 129]),
    }
}

/// Has runs begin with unmapped marks in a third of all cases: all of them, or
/// any, at least one, some with nothing after them, each with
/// [any number](any_marks) of marks. In the other cases none does.
pub fn mark_some(random: &mut Random, runs: &mut [Vec<u32>]) {
    for run in runs.iter_mut() {
        run.drain(..leading_zeros(run));
    }
    if runs.is_empty() || !random.one_in(3) {
        return;
    }
    let (one, all) = (random.below(runs.len()), random.one_in(3));
    for (i, run) in runs.iter_mut().enumerate() {
        if i == one || all || random.one_in(2) {
            if random.one_in(8) {
                run.clear();
            }
            run.splice(0..0, vec![0; any_marks(random)]);
        }
    }
}

/// Puts a 0 in the place of a number after the first bin of a run, if there is
/// one: right after it, at the end or anywhere. Such a run does not rise. Returns
/// the place.
pub fn mark_later(random: &mut Random, run: &mut [u32]) -> Option<usize> {
    let second = leading_zeros(run) + 1;
    let last = run.len().checked_sub(1).filter(|&last| second <= last)?;
    let place = match random.below(3) {
        0 => second,
        1 => last,
        _ => random.from_to(second, last),
    };
    run[place] = 0;
    Some(place)
}

/// Queries over runs that begin with marks.
pub(super) fn instances() -> Vec<Instance> {
    let mut all = vec![
        // The mark is passed over, and the largest number is a bin like others.
        Instance::new(
            "the mark and the last bin",
            &[[0, M]],
            (1, 0),
            &[gap(1, 4_294_967_294, 1), hit(M, 1)],
            accepted(1, 2, 34, [0, 0]),
        ),
        Instance::new(
            "the mark alone",
            &[[0]],
            (1, 0),
            &[gap(1, M, 1)],
            accepted(0, 1, 19, [0, 0]),
        ),
        // No bin is before the first answer, so no gap is either.
        Instance::new(
            "the mark and the first bin, twice",
            &[[0, 1], [0, 1]],
            (2, 0),
            &[hit(1, 3), gap(2, M, 3)],
            accepted(1, 2, 34, [0, 0]),
        ),
        Instance::new(
            "two marks",
            &[[0, 0, 5]],
            (1, 0),
            &[gap(1, 4, 1), hit(5, 1), gap(6, M, 1)],
            accepted(1, 3, 53, [0, 0]),
        ),
        Instance::new(
            "two marks alone",
            &[[0, 0]],
            (1, 0),
            &[gap(1, M, 1)],
            accepted(0, 1, 19, [0, 0]),
        ),
        Instance::new(
            "two runs of marks alone",
            &[vec![0, 0], vec![0, 0, 0]],
            (2, 0),
            &[gap(1, M, 3)],
            accepted(0, 1, 19, [0, 0]),
        ),
        Instance::new(
            "an equal number after marks, behind a run of marks alone",
            &[vec![0, 0], vec![0, 0, 7, 7]],
            (1, 0),
            &[],
            refused_first(4, 5),
        ),
        Instance::new(
            "marks alone beside a bin",
            &[vec![0, 0, 0], vec![5]],
            (1, 0),
            &[gap(1, 4, 3), hit(5, 2), gap(6, M, 3)],
            accepted(1, 3, 53, [0, 0]),
        ),
        Instance::new(
            "one mark and two",
            &[[0, 3, 9], [0, 0, 3]],
            (2, 0),
            &[gap(1, 2, 3), hit(3, 3), gap(4, M, 2)],
            accepted(1, 3, 53, [0, 0]),
        ),
    ];
    for runs in &marked_three_runs()[1..] {
        let marks: Vec<usize> = runs.iter().map(|run| leading_zeros(run)).collect();
        all.push(Instance::new(
            format!("three runs after {marks:?} marks"),
            runs,
            (2, 3),
            &THREE_RUNS_PARTS,
            accepted(2, 6, 106, [3, 0]),
        ));
    }
    // The first search starts at the first bin and not at a mark, from which it
    // would probe other places.
    for marks in [1, 2, 3, 64] {
        all.push(Instance::new(
            format!("halving rounds down, after {marks} marks"),
            &marked(&seven_and_one(), &[marks, 0]),
            (2, 4),
            &SEVEN_AND_ONE_PARTS,
            accepted(0, 3, 57, [3, 1]),
        ));
    }
    all.extend(broken_instances());
    all
}

/// Those that are refused, at places in the numbers as lent, marks included.
fn broken_instances() -> Vec<Instance> {
    vec![
        Instance::new(
            "the mark after a bin",
            &[[5, 0]],
            (1, 0),
            &[],
            refused_first(4, 1),
        ),
        Instance::new(
            "the mark after marks and a bin",
            &[[0, 0, 5, 0]],
            (1, 0),
            &[],
            refused_first(4, 3),
        ),
        Instance::new(
            "a run that repeats a number after marks",
            &[[0, 0, 5, 5]],
            (1, 0),
            &[],
            refused_first(4, 3),
        ),
        Instance::new(
            "the mark after a bin of the second run",
            &[vec![0, 3], vec![0, 5, 0]],
            (1, 0),
            &[],
            refused_first(4, 4),
        ),
        Instance::new(
            "marks alone, and then a run that repeats a number",
            &[vec![0, 0, 0], vec![0, 0, 4, 4]],
            (1, 0),
            &[],
            refused_first(4, 6),
        ),
    ]
}

/// Lists, two numbers, and the part of the list between these.
pub const BETWEEN_INSTANCES: [(&[u32], [u32; 2], &[u32]); 12] = [
    (&[0, 3, 5], [0, 3], &[3]),
    (&[0, 3, 5], [0, 0], &[]),
    (&[0, 3, 5], [0, M], &[3, 5]),
    (&[0, 0, 3], [0, 9], &[3]),
    (&[0, 0, 3], [0, 0], &[]),
    (&[0, 0, 0, 2, 7, M], [2, 7], &[2, 7]),
    (&[0, 0, 0, 2, 7, M], [3, M], &[7, M]),
    (&[0, 0], [0, 9], &[]),
    (&[5, 0], [0, 9], &[]),
    (&[0, 0, 5, 0], [0, 9], &[]),
    (&[0, 0, 5, 5], [0, 9], &[]),
    (&[0, 0, 5, 9, 0], [5, 5], &[]),
];
