//! Small inputs of every kind and random ones, with weights and without: the
//! walk against a plain second form of it, against counting, against the
//! definition of truth and against the fewest parts possible.

mod common;

use common::{any_runs, counted_answers, long_and_short, mapped, PlainWalk};
use reference::testing::{
    accepted, any_weights, break_weights, gap, hit, lay_out, slices, small_inputs, weight_of,
    Random, Wanted, M,
};
use reference::{
    check_by, decode, digits, encode, fewest_parts_by, is_true_by, probe_bound, query_by, trace_by,
    Outcome, Part, Verdict,
};

/// Whether to compare with the fewest parts, which takes long for many numbers.
#[derive(Clone, Copy, PartialEq)]
enum Size {
    Small,
    Large,
}

/// Compares a whole walk with everything known about it.
fn whole_walk(runs: &[Vec<u32>], wanted: &Wanted, size: Size) {
    let (numbers, ends) = lay_out(runs);
    let (weighting, threshold) = (wanted.weighting(), wanted.threshold);
    let plain = PlainWalk::new(runs, weighting, threshold);
    let parts = plain.parts();
    let expected_answers = counted_answers(runs, weighting, threshold);
    let context = || format!("{wanted:?}, runs {runs:?}");

    let whole = trace_by(&numbers, &ends, weighting, threshold).unwrap();
    assert_eq!(whole.parts, parts, "{}", context());
    let fewest = match size {
        Size::Small => fewest_parts_by(&slices(runs), weighting, threshold),
        Size::Large => parts.len(),
    };
    assert_eq!(parts.len(), fewest, "{}", context());
    assert!(plain.full_rounds <= parts.len(), "{}", context());
    assert_eq!(whole.searches, plain.searches, "{}", context());
    // The sum over the runs' bins; that of the numbers as lent is no smaller.
    let mut bounds = 0;
    for (i, run) in runs.iter().enumerate() {
        assert_eq!(whole.probes[i], plain.probes_in(i), "{}", context());
        let bound = 2 * fewest as u64 * u64::from(digits(mapped(run).len() as u64));
        assert!(whole.probes[i].total() <= bound, "{}", context());
        bounds += bound;
    }
    assert!(probe_bound(&ends, fewest as u32).unwrap() >= bounds);

    // An allowance of the bound never ends as used up.
    let bytes = encode(&parts);
    let mut answers = vec![0; expected_answers.len()];
    let mut certificate = vec![0; bytes.len()];
    let outcome = query_by(
        &numbers,
        &ends,
        weighting,
        threshold,
        bounds as u32,
        &mut answers,
        &mut certificate,
    );
    let counts = (expected_answers.len() as u64, parts.len() as u64);
    let probes = plain.probes();
    assert_eq!(whole.all_probes(), probes, "{}", context());
    let probes = [probes.doublings, probes.halvings];
    assert_eq!(
        outcome,
        accepted(counts.0, counts.1, bytes.len() as u64, probes)
    );
    assert_eq!(answers, expected_answers, "{}", context());
    assert_eq!(certificate, bytes, "{}", context());

    let truth = is_true_by(&slices(runs), weighting, threshold, &parts);
    assert!(truth, "{}", context());
    assert_eq!(decode(&certificate).unwrap(), parts);
    assert_eq!(
        check_by(&numbers, &ends, weighting, threshold, &certificate),
        Verdict::Valid {
            answers: counts.0,
            parts: counts.1
        }
    );
}

/// All runs over the first bin and the last two, each after up to two marks, up
/// to three runs, with every threshold and with weights that differ.
#[test]
fn all_small_inputs() {
    for k in 1..=3 {
        let weights = &[2, 1, 3][..k as usize];
        for runs in small_inputs(k) {
            for threshold in 1..=k {
                whole_walk(&runs, &Wanted::plain(threshold), Size::Small);
            }
            for wanted in 1..=weights.iter().sum() {
                whole_walk(&runs, &Wanted::weighted(weights, wanted), Size::Small);
            }
        }
    }
}

/// Compares `count` walks of random runs.
fn random_walks(
    random: &mut Random,
    count: usize,
    size: Size,
    runs: impl Fn(&mut Random) -> Vec<Vec<u32>>,
) {
    for _ in 0..count {
        let runs = runs(random);
        let wanted = Wanted::any(random, runs.len());
        whole_walk(&runs, &wanted, size);
    }
}

#[test]
fn random_small_walks() {
    let runs = |random: &mut Random| any_runs(random, 6, 8);
    random_walks(&mut Random(11), 80_000, Size::Small, runs);
}

#[test]
fn random_medium_walks() {
    let runs = |random: &mut Random| any_runs(random, 5, 40);
    random_walks(&mut Random(12), 250, Size::Small, runs);
}

#[test]
fn random_large_walks() {
    let mut random = Random(13);
    let many = |random: &mut Random| any_runs(random, 64, 150);
    random_walks(&mut random, 250, Size::Large, many);
    let long = |random: &mut Random| {
        let mut runs = any_runs(random, 2, 5_000);
        runs.extend(any_runs(random, 3, 20));
        runs
    };
    random_walks(&mut random, 80, Size::Large, long);
}

/// A query on lent buffers filled with noise, with all of their contents.
struct Stopping {
    runs: Vec<Vec<u32>>,
    wanted: Wanted,
    plain: PlainWalk,
    /// What the whole walk needs.
    probes: u32,
    answers: usize,
    bytes: usize,
    noise: Vec<u8>,
}

impl Stopping {
    /// Random runs, with no noise yet.
    fn new(random: &mut Random, most_runs: usize, most_numbers: usize) -> Self {
        let runs = any_runs(random, most_runs, most_numbers);
        let wanted = Wanted::any(random, runs.len());
        Stopping::of(runs, wanted)
    }

    /// These runs, with no noise yet.
    fn of(runs: Vec<Vec<u32>>, wanted: Wanted) -> Self {
        let (weighting, threshold) = (wanted.weighting(), wanted.threshold);
        let plain = PlainWalk::new(&runs, weighting, threshold);
        Stopping {
            probes: plain.probes().total() as u32,
            answers: counted_answers(&runs, weighting, threshold).len(),
            bytes: encode(&plain.parts()).len(),
            noise: Vec::new(),
            runs,
            wanted,
            plain,
        }
    }

    /// Makes noise for `more` places than the whole certificate has.
    fn make_noise(&mut self, random: &mut Random, more: usize) {
        self.noise = (0..self.bytes + more)
            .map(|_| random.bits() as u8)
            .collect();
    }

    fn compare(&self, allowance: u32, answer_room: usize, byte_room: usize) {
        let (numbers, ends) = lay_out(&self.runs);
        let (outcome, written, bytes) = self.plain.stopped(allowance, answer_room, byte_room);
        let mut answers: Vec<u32> = (0..answer_room).map(|i| self.noise[i].into()).collect();
        let mut certificate: Vec<u8> = self.noise[..byte_room].to_vec();
        let mut expected_answers = answers.clone();
        let mut expected_certificate = certificate.clone();
        expected_answers[..written.len()].copy_from_slice(&written);
        expected_certificate[..bytes.len()].copy_from_slice(&bytes);
        let (weighting, threshold) = (self.wanted.weighting(), self.wanted.threshold);
        let found = query_by(
            &numbers,
            &ends,
            weighting,
            threshold,
            allowance,
            &mut answers,
            &mut certificate,
        );
        let context = || {
            format!(
                "allowance {allowance}, room {answer_room} and {byte_room}, {:?}, runs {:?}",
                self.wanted, self.runs
            )
        };
        assert_eq!(found, outcome, "{}", context());
        assert_eq!(answers, expected_answers, "{}", context());
        assert_eq!(certificate, expected_certificate, "{}", context());

        // What stands is a beginning of the whole.
        let parts = self.plain.parts();
        assert!(encode(&parts).starts_with(&bytes));
        let whole = counted_answers(&self.runs, weighting, threshold);
        assert!(whole.starts_with(&written));
    }
}

/// Every allowance with every size of both buffers.
#[test]
fn stopping_early_everywhere() {
    let mut random = Random(14);
    for _ in 0..100 {
        let mut stopping = Stopping::new(&mut random, 4, 5);
        stopping.make_noise(&mut random, 40);
        for allowance in 0..=stopping.probes + 1 {
            for answer_room in 0..=stopping.answers + 1 {
                for byte_room in 0..=stopping.bytes + 2 {
                    stopping.compare(allowance, answer_room, byte_room);
                }
            }
        }
    }
}

/// Every allowance, and every size of one buffer at a time, on larger inputs.
#[test]
fn stopping_early_one_by_one() {
    let mut random = Random(15);
    for _ in 0..200 {
        let mut stopping = Stopping::new(&mut random, 9, 12);
        let (probes, answers, bytes) = (stopping.probes, stopping.answers, stopping.bytes);
        stopping.make_noise(&mut random, answers + 40);
        for allowance in 0..=probes + 1 {
            stopping.compare(allowance, answers, bytes);
        }
        for answer_room in 0..=answers + 1 {
            stopping.compare(M, answer_room, bytes + 7);
        }
        for byte_room in 0..=bytes + 20 {
            stopping.compare(probes, answers + 1, byte_room);
        }
        for _ in 0..50 {
            let allowance = random.below(probes as usize + 2) as u32;
            let answer_room = random.below(answers + 2);
            let byte_room = random.below(bytes + 20);
            stopping.compare(allowance, answer_room, byte_room);
        }
    }
}

/// Every allowance where searches go far: it ends them in their doubling, at
/// the seam and in their halving.
#[test]
fn stopping_early_in_long_searches() {
    let mut random = Random(18);
    let mut long_searches = 0;
    for _ in 0..500 {
        let wanted = random.pick(&[None, Some([1, 1]), Some([3, 200])]);
        let wanted = match wanted {
            None => Wanted::plain(2),
            Some(weights) => Wanted::weighted(&weights, weights.iter().sum()),
        };
        let mut stopping = Stopping::of(long_and_short(&mut random), wanted);
        stopping.make_noise(&mut random, 0);
        for allowance in 0..=stopping.probes {
            stopping.compare(allowance, stopping.answers, stopping.bytes);
        }
        long_searches += stopping.plain.long_searches();
    }
    assert!(long_searches > 500, "{long_searches}");
}

/// Certificates of other writers: gaps cut further, masks made smaller, and
/// often something wrong.
fn rewritten(random: &mut Random, runs: &[Vec<u32>], wanted: &Wanted) -> Vec<Part> {
    let (weighting, threshold) = (wanted.weighting(), wanted.threshold);
    let weights = weights_of(runs.len(), wanted);
    let needed_by_gap = weights.iter().sum::<u32>() - threshold + 1;
    let mut parts = Vec::new();
    for part in PlainWalk::new(runs, weighting, threshold).parts() {
        match part {
            Part::Answer { value, mask } => {
                parts.push(hit(value, fewer(random, mask, &weights, threshold)));
            }
            Part::Gap { first, last, mask } => {
                let fewer = |random: &mut Random| fewer(random, mask, &weights, needed_by_gap);
                let mut start = first;
                while start < last && random.one_in(2) {
                    let room = (last - start) as usize;
                    let cut = start + random.below(room.min(20)) as u32;
                    parts.push(gap(start, cut, fewer(random)));
                    start = cut + 1;
                }
                parts.push(gap(start, last, fewer(random)));
            }
        }
    }
    parts
}

/// What each of `k` runs weighs.
fn weights_of(k: usize, wanted: &Wanted) -> Vec<u32> {
    wanted.weights.clone().unwrap_or(vec![1; k])
}

/// The mask without some of its bits; those left weigh at least `needed`.
fn fewer(random: &mut Random, mut mask: u64, weights: &[u32], needed: u32) -> u64 {
    for i in 0..weights.len() {
        let without = mask & !(1 << i);
        if weight_of(weights, without) >= needed && random.one_in(2) {
            mask = without;
        }
    }
    mask
}

/// Changes one part a little.
fn damage_part(random: &mut Random, parts: &mut Vec<Part>) {
    let i = random.below(parts.len());
    let change = random.below(3) as u32;
    match random.below(7) {
        0 => {
            parts.remove(i);
        }
        1 => parts.insert(i, parts[i]),
        2 => {
            let j = random.below(parts.len());
            parts.swap(i, j);
        }
        3 if i + 1 < parts.len() => {
            // Joins two parts, which keeps the line covered.
            let mask = parts[i].mask() & parts[i + 1].mask();
            let joined = gap(parts[i].first(), parts[i + 1].last(), mask);
            parts.splice(i..=i + 1, [joined]);
        }
        _ => match &mut parts[i] {
            Part::Answer { value, mask } => match random.below(3) {
                0 => *value = value.wrapping_add(change).wrapping_sub(1),
                1 => *mask ^= 1 << random.below(8),
                _ => parts[i] = gap(parts[i].first(), parts[i].first(), parts[i].mask()),
            },
            Part::Gap { first, last, mask } => match random.below(4) {
                0 => *first = first.wrapping_add(change).wrapping_sub(1),
                1 => *last = last.wrapping_add(change).wrapping_sub(1),
                2 if *first == *last => parts[i] = hit(parts[i].first(), parts[i].mask()),
                _ => *mask ^= 1 << random.below(8),
            },
        },
    }
}

/// Changes a few bytes.
fn damage_bytes(random: &mut Random, bytes: &mut Vec<u8>) {
    match random.below(4) {
        0 => bytes.truncate(random.below(bytes.len() + 1)),
        1 => bytes.push(random.below(4) as u8),
        2 if !bytes.is_empty() => {
            let i = random.below(bytes.len());
            bytes[i] ^= 1 << random.below(8);
        }
        _ => {
            let i = random.below(bytes.len() + 1);
            bytes.insert(i, random.bits() as u8);
        }
    }
}

/// The rest of a true certificate that begins at bin `next`.
fn rest_from(whole: &[Part], next: u64) -> Vec<Part> {
    whole
        .iter()
        .filter(|part| u64::from(part.last()) >= next)
        .map(|part| match *part {
            Part::Gap { first, last, mask } => gap(first.max(next as u32), last, mask),
            answer => answer,
        })
        .collect()
}

/// Compares a verdict with the definition of truth. On a refusal all before
/// the place must be the beginning of a true certificate, and the field at
/// the place must not be.
fn compare_verdict(runs: &[Vec<u32>], wanted: &Wanted, bytes: &[u8]) -> Verdict {
    let (numbers, ends) = lay_out(runs);
    let runs = slices(runs);
    let (weighting, threshold) = (wanted.weighting(), wanted.threshold);
    let verdict = check_by(&numbers, &ends, weighting, threshold, bytes);
    let parts = decode(bytes);
    let truth = |parts: &[Part]| is_true_by(&runs, weighting, threshold, parts);
    match verdict {
        Verdict::Valid { answers, parts: n } => {
            let parts = parts.unwrap();
            assert!(truth(&parts));
            assert_eq!(n, parts.len() as u64);
            let is_answer = |part: &&Part| matches!(part, Part::Answer { .. });
            assert_eq!(answers, parts.iter().filter(is_answer).count() as u64);
        }
        Verdict::Invalid { number, place } => {
            assert!(!parts.is_some_and(|parts| truth(&parts)));
            let whole = trace_by(&numbers, &ends, weighting, threshold);
            let whole = whole.unwrap().parts;
            let next = |parts: &[Part]| parts.last().map_or(1, |part| u64::from(part.last()) + 1);
            let before = decode(&bytes[..place as usize]).unwrap();
            let uncovered = next(&before);
            let completed = [before.clone(), rest_from(&whole, uncovered)].concat();
            assert!(truth(&completed));

            let at = &bytes[place as usize..];
            let field = [15, 19]
                .into_iter()
                .filter_map(|length| decode(at.get(..length)?))
                .find(|parts| parts.len() == 1)
                .map(|parts| parts[0]);
            let Some(part) = field else {
                assert_eq!(number, if at.is_empty() { 9 } else { 8 });
                return verdict;
            };
            let with_it = [before, vec![part]].concat();
            let completed = [with_it.clone(), rest_from(&whole, next(&with_it))].concat();
            assert!(!truth(&completed));
            if u64::from(part.first()) != uncovered || part.last() < part.first() {
                assert_eq!(number, 9);
                return verdict;
            }
            let named_well = names_well(part, &weights_of(runs.len(), wanted), threshold);
            assert_eq!(number, if named_well { 11 } else { 10 });
        }
    }
    verdict
}

/// Whether a part names runs that there are, and enough of them. Of runs that
/// weigh 1 each, by how many they are.
fn names_well(part: Part, weights: &[u32], threshold: u32) -> bool {
    let (k, total) = (weights.len() as u32, weights.iter().sum::<u32>());
    let names = (0..64).filter(|i| part.mask() >> i & 1 == 1);
    if !names.clone().all(|i| i < k) {
        return false;
    }
    let count = names.count() as u32;
    let weight = weight_of(weights, part.mask());
    match part {
        Part::Answer { .. } if total == k => count >= threshold,
        Part::Answer { .. } => weight >= threshold,
        Part::Gap { .. } if total == k => count > k - threshold,
        Part::Gap { .. } => total - weight < threshold,
    }
}

#[test]
fn random_certificates() {
    let mut random = Random(16);
    let mut seen = [0; 12];
    for _ in 0..120_000 {
        let runs = any_runs(&mut random, 5, 6);
        let wanted = Wanted::any(&mut random, runs.len());
        let mut parts = rewritten(&mut random, &runs, &wanted);
        let bytes = encode(&parts);
        let verdict = compare_verdict(&runs, &wanted, &bytes);
        assert!(matches!(verdict, Verdict::Valid { .. }));
        let fewest = fewest_parts_by(&slices(&runs), wanted.weighting(), wanted.threshold);
        assert!(fewest <= parts.len());

        for _ in 0..=random.below(3) {
            if !parts.is_empty() {
                damage_part(&mut random, &mut parts);
            }
        }
        let mut damaged = encode(&parts);
        if random.one_in(3) {
            damage_bytes(&mut random, &mut damaged);
        }
        match compare_verdict(&runs, &wanted, &damaged) {
            Verdict::Valid { .. } => seen[0] += 1,
            Verdict::Invalid { number, .. } => seen[number as usize] += 1,
        }
    }
    for number in [0, 8, 9, 10, 11] {
        assert!(seen[number] > 500, "{seen:?}");
    }
}

/// Any bytes at all, and any rows at all.
#[test]
fn random_noise() {
    let mut random = Random(17);
    let (mut marked, mut marked_later, mut misweighed) = (0, 0, 0);
    for _ in 0..80_000 {
        let small = |random: &mut Random| match random.below(12) {
            0 => random.word(),
            n => n as u32 / 2,
        };
        let mut numbers: Vec<u32> = (0..random.below(6)).map(|_| small(&mut random)).collect();
        if random.one_in(4) {
            numbers.splice(0..0, vec![0; random.from_to(2, 4)]);
        }
        let mut ends: Vec<u32> = (0..random.below(4)).map(|_| small(&mut random)).collect();
        if random.one_in(2) {
            ends.sort_unstable();
            ends.push(numbers.len() as u32);
        }
        let mut wanted = Wanted::plain(small(&mut random));
        if random.one_in(2) {
            let weights = any_weights(&mut random, ends.len());
            let threshold = random.pick(&[wanted.threshold, weights.iter().sum()]);
            wanted = Wanted::weighted(&weights, threshold);
        }
        if let (Some(weights), true) = (&mut wanted.weights, random.one_in(3)) {
            break_weights(&mut random, weights);
        }
        let (weighting, threshold) = (wanted.weighting(), wanted.threshold);
        let bytes: Vec<u8> = (0..random.below(40)).map(|_| random.bits() as u8).collect();
        let verdict = check_by(&numbers, &ends, weighting, threshold, &bytes);
        let mut answers = [7; 3];
        let mut certificate = [7; 60];
        let outcome = query_by(
            &numbers,
            &ends,
            weighting,
            threshold,
            small(&mut random),
            &mut answers,
            &mut certificate,
        );
        // Both refuse at the first checks or neither does.
        let expected = first_refusal(&numbers, &ends, &wanted);
        match outcome {
            Outcome::Refused {
                number: number @ (1..=4 | 17),
                place,
                ..
            } => {
                assert_eq!(Some((number, place)), expected);
                assert_eq!(verdict, Verdict::Invalid { number, place });
                assert_eq!((answers, certificate), ([7; 3], [7; 60]));
                marked_later += u32::from(number == 4 && numbers[place as usize] == 0);
                misweighed += u32::from(number == 17);
            }
            _ => {
                assert_eq!(expected, None);
                let is_first = |number| matches!(number, 1..=4 | 17);
                assert!(!matches!(verdict, Verdict::Invalid { number, .. } if is_first(number)));
                marked += u32::from(ends[0] > 1 && numbers.starts_with(&[0, 0]));
            }
        }
    }
    assert!(
        marked > 500 && marked_later > 200 && misweighed > 5_000,
        "{marked}, {marked_later}, {misweighed}"
    );
}

/// The first checks once more, over all numbers with the run of each.
fn first_refusal(numbers: &[u32], ends: &[u32], wanted: &Wanted) -> Option<(u8, u64)> {
    let k = ends.len() as u64;
    if !(1..=64).contains(&k) {
        return Some((1, k));
    }
    let weights = weights_of(ends.len(), wanted);
    if weights.len() as u64 != k {
        return Some((17, k));
    }
    if let Some(i) = (0..weights.len()).find(|&i| weights[i] == 0 || weights[i] > 255) {
        return Some((17, i as u64));
    }
    let (total, threshold) = (weights.iter().sum::<u32>(), wanted.threshold);
    if !(1..=total).contains(&threshold) {
        return Some((2, u64::from(threshold)));
    }
    if let Some(i) = (1..ends.len()).find(|&i| ends[i - 1] > ends[i]) {
        return Some((3, i as u64));
    }
    if *ends.last()? as usize != numbers.len() {
        return Some((3, k));
    }
    let run_of = |place: usize| ends.iter().filter(|&&end| end as usize <= place).count();
    // A 0 before a number is a mark at the run's start, or else is refused itself.
    let falls = |i: &usize| numbers[*i] <= numbers[i - 1] && numbers[i - 1] > 0;
    (1..numbers.len())
        .filter(|&i| run_of(i - 1) == run_of(i))
        .find(falls)
        .map(|i| (4, i as u64))
}
