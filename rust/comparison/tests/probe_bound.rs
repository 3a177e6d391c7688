//! The probe bound over all runs and over chosen ones: what it returns for any
//! ends.

use comparison::many::any_choice;
use comparison::question::refusal_of;
use comparison::seeds;
use quorum::Refusal;
use reference::all_runs;
use reference::testing::{bound_instances, lay_out, Random, M, THREE_RUNS};

/// The row that the library writes for a result.
fn row_of(result: Result<u64, Refusal>) -> [u64; 3] {
    match result {
        Ok(bound) => [0, 0, bound],
        Err(Refusal { number, place }) => [number, place, 0],
    }
}

fn compare(seed: u64, ends: &[u32], parts: u32) -> Result<u64, Refusal> {
    let context = || format!("seed {seed}: {parts} parts, ends {ends:?}");
    let expected = reference::probe_bound(ends, parts).map_err(refusal_of);
    let found = quorum::probe_bound(ends, parts);
    assert_eq!(found, expected, "{}", context());
    let row = quorum::ffi::probe_bound(ends, parts);
    assert_eq!(row, row_of(expected), "{}", context());
    let all = quorum::probe_bound_chosen(ends, all_runs(ends.len()), parts);
    assert_eq!(all, expected, "{}", context());
    expected
}

fn compare_chosen(seed: u64, ends: &[u32], mask: u64, parts: u32) -> Result<u64, Refusal> {
    let context = || format!("seed {seed}: mask {mask}, {parts} parts, ends {ends:?}");
    let expected = reference::probe_bound_chosen(ends, mask, parts).map_err(refusal_of);
    let found = quorum::probe_bound_chosen(ends, mask, parts);
    assert_eq!(found, expected, "{}", context());
    let row = quorum::ffi::probe_bound_chosen(ends, mask, parts);
    assert_eq!(row, row_of(expected), "{}", context());
    expected
}

#[test]
fn every_instance() {
    let (_, ends) = lay_out(&THREE_RUNS);
    for (mask, parts, expected) in bound_instances() {
        let found = compare_chosen(0, &ends, mask, parts);
        assert_eq!(found, expected.map_err(refusal_of), "mask {mask}");
    }
}

#[test]
fn edges() {
    for parts in [0, 1, 2, 1_048_576, 2_097_153, M - 1, M] {
        for ends in [
            &[][..],
            &[0],
            &[1],
            &[1_048_575],
            &[1_048_576],
            &[1_048_577],
            &[M],
            &[0, 0, 0],
            &[5, 4],
            &[M, 0],
            &[0, M],
            &[3, 7, 9],
            &[524_288, 1_048_576],
            &[1_048_576; 64],
            &[1_048_577; 64],
            &[1_048_576; 65],
            &[7; 65],
        ] {
            let _ = compare(0, ends, parts);
            let k = ends.len();
            for mask in [0, 1, 2, 3, 4, 7, 1 << 63, all_runs(k), u64::MAX] {
                let _ = compare_chosen(0, ends, mask, parts);
            }
        }
        let sixty_four: Vec<u32> = (1..=64).map(|i| i * 16_384).collect();
        let each = 2 * 15 * u64::from(parts);
        assert_eq!(compare(0, &sixty_four, parts), Ok(64 * each));
        for i in 0..64 {
            let all_but_one = compare_chosen(0, &sixty_four, !(1 << i), parts);
            assert_eq!(all_but_one, Ok(63 * each));
            let one = compare_chosen(0, &sixty_four, 1 << i, parts);
            assert_eq!(one, Ok(each));
        }
    }
}

/// Ends, at times broken, of up to 70 runs.
fn any_ends(random: &mut Random) -> Vec<u32> {
    let k = random.pick(&[0, 1, 1, 2, 3, 3, 5, 9, 30, 63, 64, 65, 70]);
    let limit = random.pick(&[3, 40, 1_048_577, 1_048_577, 1_048_600]);
    let mut ends: Vec<u32> = (0..k).map(|_| random.below(limit) as u32).collect();
    if !random.one_in(6) {
        ends.sort_unstable();
    }
    if random.one_in(20) && k > 0 {
        let i = random.below(k);
        ends[i] = random.word();
    }
    ends
}

fn any_parts(random: &mut Random) -> u32 {
    match random.below(6) {
        0 => random.word(),
        _ => random.pick(&[0, 1, 17, 1_000, M]),
    }
}

#[test]
fn random_ends() {
    let mut seen = [0; 14];
    for seed in seeds(24, 100_000) {
        let mut random = Random(seed);
        let ends = any_ends(&mut random);
        let parts = any_parts(&mut random);
        match compare(seed, &ends, parts) {
            Ok(_) => seen[0] += 1,
            Err(refusal) => seen[refusal.number as usize] += 1,
        }
    }
    assert!(seen[0] > 10_000 && seen[1] > 1_000 && seen[3] > 1_000);
}

#[test]
fn random_choices() {
    let mut seen = [0; 14];
    for seed in seeds(26, 100_000) {
        let mut random = Random(seed);
        let ends = any_ends(&mut random);
        let k = ends.len();
        let mask = match random.below(8) {
            0 => 0,
            1 => random.bits(),
            2 => 1 << random.from_to(k.min(63), 63),
            _ => any_choice(&mut random, k.max(1)),
        };
        let parts = any_parts(&mut random);
        match compare_chosen(seed, &ends, mask, parts) {
            Ok(_) => seen[0] += 1,
            Err(refusal) => seen[refusal.number as usize] += 1,
        }
    }
    let often = |number: usize| seen[number] > 1_000;
    assert!([0, 1, 3, 13].into_iter().all(often), "{seen:?}");
}
