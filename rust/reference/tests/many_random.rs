//! Random calls of many questions against a plain second form of them: the
//! walks of the chosen runs alone, one after another, with masks put into the
//! numbering of all runs.

mod common;

use common::{any_runs, counted_answers, long_and_short, mapped, Limited, PlainWalk};
use reference::testing::{choose, gap, hit, lay_out, many_row, slices, small_inputs, Random, M};
use reference::{
    all_runs, check_chosen, decode, digits, encode, fewest_parts_by, is_true_by,
    probe_bound_chosen, query, query_many, Outcome, Part, Probes, Verdict, Weighting,
};

/// Questions over some runs, each with its whole walk.
struct Asked {
    runs: Vec<Vec<u32>>,
    masks: Vec<u64>,
    thresholds: Vec<u32>,
    walks: Vec<PlainWalk>,
}

/// A mask of at least one of `k` runs: any, one alone, or all.
fn any_choice(random: &mut Random, k: usize) -> u64 {
    let mask = match random.below(4) {
        0 => 1 << random.below(k),
        1 => u64::MAX,
        _ => random.bits(),
    };
    match mask & all_runs(k) {
        0 => 1 << random.below(k),
        mask => mask,
    }
}

impl Asked {
    fn new(random: &mut Random, runs: Vec<Vec<u32>>, questions: usize) -> Self {
        let mut asked = Asked {
            runs,
            masks: Vec::new(),
            thresholds: Vec::new(),
            walks: Vec::new(),
        };
        for _ in 0..questions {
            let mask = any_choice(random, asked.runs.len());
            let threshold = 1 + random.below(mask.count_ones() as usize) as u32;
            asked.push(mask, threshold);
        }
        asked
    }

    fn push(&mut self, mask: u64, threshold: u32) {
        let walk = PlainWalk::of_chosen(&self.runs, mask, threshold);
        self.masks.push(mask);
        self.thresholds.push(threshold);
        self.walks.push(walk);
    }

    /// What a call returns, and the three rows after it.
    fn expected(&self, allowance: u32, rows: &mut Rows) -> [u64; 8] {
        let room = [rows.answers.len(), rows.certificate.len()];
        let mut limited = Limited::new(allowance, room[0], room[1]);
        let mut refusal = [0; 3];
        for (i, walk) in self.walks.iter().enumerate() {
            let before = limited.parts.len();
            if let Some(number) = limited.go_on(&walk.events) {
                let place = limited.parts.len() - before;
                refusal = [number.into(), place as u64, i as u64];
                break;
            }
            rows.results[2 * i] = limited.answers.len() as u64;
            rows.results[2 * i + 1] = encode(&limited.parts).len() as u64;
        }
        let bytes = encode(&limited.parts);
        rows.answers[..limited.answers.len()].copy_from_slice(&limited.answers);
        rows.certificate[..bytes.len()].copy_from_slice(&bytes);
        let counts = [limited.answers.len(), limited.parts.len(), bytes.len()];
        let [answers, parts, bytes] = counts.map(|count| count as u64);
        let [number, place, question] = refusal;
        let [doublings, halvings] = limited.probes;
        [
            number, place, question, answers, parts, bytes, doublings, halvings,
        ]
    }

    /// Compares a call with the plain form, in rows of noise.
    fn compare(&self, random: &mut Random, allowance: u32, room: [usize; 3]) -> [u64; 8] {
        let (numbers, ends) = lay_out(&self.runs);
        let mut expected = Rows::new(random, room);
        let mut found = expected.clone();
        let row = self.expected(allowance, &mut expected);
        let outcome = query_many(
            &numbers,
            &ends,
            &self.masks,
            &self.thresholds,
            allowance,
            &mut found.answers,
            &mut found.certificate,
            &mut found.results,
        );
        let context = || {
            format!(
                "allowance {allowance}, room {room:?}, masks {:?}, thresholds {:?}, runs {:?}",
                self.masks, self.thresholds, self.runs
            )
        };
        assert_eq!(many_row(outcome), row, "{}", context());
        assert_eq!(found, expected, "{}", context());
        row
    }

    /// The answers, bytes and probes that the whole walks need.
    fn needs(&self) -> ([usize; 2], u32) {
        let parts: Vec<Part> = self.walks.iter().flat_map(PlainWalk::parts).collect();
        let is_answer = |part: &&Part| matches!(part, Part::Answer { .. });
        let answers = parts.iter().filter(is_answer).count();
        let probes: Probes = self.walks.iter().map(PlainWalk::probes).sum();
        ([answers, encode(&parts).len()], probes.total() as u32)
    }
}

/// The rows that a call writes to.
#[derive(Clone, Debug, PartialEq, Eq)]
struct Rows {
    answers: Vec<u32>,
    certificate: Vec<u8>,
    results: Vec<u64>,
}

impl Rows {
    fn new(random: &mut Random, room: [usize; 3]) -> Self {
        Rows {
            answers: (0..room[0]).map(|_| random.word()).collect(),
            certificate: (0..room[1]).map(|_| random.word() as u8).collect(),
            results: (0..room[2]).map(|_| random.bits()).collect(),
        }
    }
}

/// Compares the whole walks of all questions with everything known of them,
/// and an allowance of the sum of their bounds with one that never ends.
fn whole_walks(random: &mut Random, asked: &Asked) {
    let (numbers, ends) = lay_out(&asked.runs);
    let ([answers, bytes], probes) = asked.needs();
    let room = [answers, bytes, 2 * asked.masks.len()];
    let mut bounds = 0;
    for ((&mask, &threshold), walk) in asked.masks.iter().zip(&asked.thresholds).zip(&asked.walks) {
        let parts = walk.parts();
        let (runs, weighting) = (slices(&asked.runs), Weighting::Chosen(mask));
        assert_eq!(fewest_parts_by(&runs, weighting, threshold), parts.len());
        assert!(is_true_by(&runs, weighting, threshold, &parts));
        let valid = Verdict::Valid {
            answers: counted_answers(&runs, weighting, threshold).len() as u64,
            parts: parts.len() as u64,
        };
        let verdict = check_chosen(&numbers, &ends, mask, threshold, &encode(&parts));
        assert_eq!(verdict, valid);
        // The sum over the runs' bins; that of the numbers as lent is no smaller.
        let digits = |run: &&[u32]| u64::from(digits(mapped(run).len() as u64));
        let chosen = choose(&asked.runs, mask);
        let bound = 2 * parts.len() as u64 * chosen.iter().map(digits).sum::<u64>();
        assert!(walk.probes().total() <= bound);
        assert!(probe_bound_chosen(&ends, mask, parts.len() as u32).unwrap() >= bound);
        bounds += bound;
    }
    let row = asked.compare(random, bounds as u32, room);
    assert_eq!((row[0], row[6] + row[7]), (0, u64::from(probes)));
}

#[test]
fn whole_walks_of_random_runs() {
    let mut random = Random(21);
    for _ in 0..20_000 {
        let runs = any_runs(&mut random, 6, 7);
        let questions = random.below(6);
        let asked = Asked::new(&mut random, runs, questions);
        whole_walks(&mut random, &asked);
    }
}

/// All runs over the first bin and the last two, each after up to two marks, with
/// every choice of them and every threshold.
#[test]
fn every_choice_of_small_inputs() {
    let mut random = Random(22);
    for k in 1..=3 {
        for runs in small_inputs(k) {
            let mut asked = Asked::new(&mut random, runs, 0);
            for mask in 1..1_u64 << k {
                for threshold in 1..=mask.count_ones() {
                    asked.push(mask, threshold);
                }
            }
            whole_walks(&mut random, &asked);
        }
    }
}

/// Every allowance, and every size of one buffer at a time.
#[test]
fn stopping_early() {
    let mut random = Random(23);
    let mut seen = [0; 8];
    for _ in 0..300 {
        let runs = any_runs(&mut random, 5, 7);
        let questions = random.from_to(1, 4);
        let asked = Asked::new(&mut random, runs, questions);
        let ([answers, bytes], probes) = asked.needs();
        let results = 2 * questions + random.below(3);
        let mut compare = |random: &mut Random, allowance, room| {
            seen[asked.compare(random, allowance, room)[0] as usize] += 1;
        };
        for allowance in 0..=probes + 1 {
            compare(&mut random, allowance, [answers, bytes, results]);
        }
        for room in 0..=answers + 1 {
            compare(&mut random, M, [room, bytes + 7, results]);
        }
        for room in 0..=bytes + 1 {
            compare(&mut random, probes, [answers + 1, room, results]);
        }
        for _ in 0..50 {
            let allowance = random.below(probes as usize + 2) as u32;
            let room = [random.below(answers + 2), random.below(bytes + 20), results];
            compare(&mut random, allowance, room);
        }
    }
    assert!(
        [0, 5, 6, 7].iter().all(|&number| seen[number] > 500),
        "{seen:?}"
    );
}

/// Every allowance where searches go far: it ends them in their doubling, at
/// the seam and in their halving, of every question.
#[test]
fn stopping_early_in_long_searches() {
    let mut random = Random(26);
    let mut long_searches = 0;
    for _ in 0..200 {
        let runs = long_and_short(&mut random);
        let mut asked = Asked::new(&mut random, runs, 0);
        for threshold in [2, 1, 2, 2] {
            asked.push(3, threshold);
        }
        let ([answers, bytes], probes) = asked.needs();
        for allowance in 0..=probes {
            asked.compare(&mut random, allowance, [answers, bytes, 8]);
        }
        let long = asked.walks.iter().map(PlainWalk::long_searches);
        long_searches += long.sum::<usize>();
    }
    assert!(long_searches > 500, "{long_searches}");
}

/// One question over all runs is the single question.
#[test]
fn one_question_over_all_runs() {
    let mut random = Random(24);
    for _ in 0..20_000 {
        let runs = any_runs(&mut random, 6, 8);
        let (numbers, ends) = lay_out(&runs);
        let threshold = 1 + random.below(runs.len()) as u32;
        let (allowance, room) = (
            random.below(9) as u32,
            [random.below(9), random.below(200), 2],
        );
        let mut found = Rows::new(&mut random, room);
        let mut expected = found.clone();
        let outcome = query_many(
            &numbers,
            &ends,
            &[all_runs(runs.len())],
            &[threshold],
            allowance,
            &mut found.answers,
            &mut found.certificate,
            &mut found.results,
        );
        let row = match query(
            &numbers,
            &ends,
            threshold,
            allowance,
            &mut expected.answers,
            &mut expected.certificate,
        ) {
            Outcome::Accepted {
                answers,
                parts,
                bytes,
                doublings,
                halvings,
            } => {
                expected.results = vec![answers, bytes];
                [0, 0, 0, answers, parts, bytes, doublings, halvings]
            }
            Outcome::Refused {
                number,
                place,
                answers,
                bytes,
                doublings,
                halvings,
            } => [
                number.into(),
                place,
                0,
                answers,
                place,
                bytes,
                doublings,
                halvings,
            ],
        };
        assert_eq!(many_row(outcome), row);
        assert_eq!(found, expected);
    }
}

/// Changes one part's mask, one of its numbers or its kind.
fn damage(random: &mut Random, parts: &mut [Part], k: usize) {
    let i = random.below(parts.len());
    let other = random.below(3) as u32;
    parts[i] = match (parts[i], random.below(4)) {
        (Part::Answer { value, mask }, 0) => gap(value, value, mask),
        (Part::Answer { value, mask }, 1) => hit(value.wrapping_add(other).wrapping_sub(1), mask),
        (Part::Answer { value, mask }, _) => hit(value, mask ^ 1 << random.below(k + 1).min(63)),
        (Part::Gap { first, mask, .. }, 0) => hit(first, mask),
        (Part::Gap { first, last, mask }, 1) => {
            gap(first, last.wrapping_add(other).wrapping_sub(1), mask)
        }
        (Part::Gap { first, last, mask }, _) => {
            gap(first, last, mask ^ 1 << random.below(k + 1).min(63))
        }
    };
}

/// The checker accepts what is true for the chosen runs, and nothing else.
#[test]
fn certificates_of_chosen_runs() {
    let mut random = Random(25);
    let mut seen = [0; 14];
    for _ in 0..60_000 {
        let runs = any_runs(&mut random, 5, 5);
        let (numbers, ends) = lay_out(&runs);
        let asked = Asked::new(&mut random, runs, 1);
        let (mask, threshold) = (asked.masks[0], asked.thresholds[0]);
        let mut parts = asked.walks[0].parts();
        for _ in 0..random.from_to(1, 2) {
            damage(&mut random, &mut parts, asked.runs.len());
        }
        // Judged for the runs that were asked about, or for others.
        let mask = match random.one_in(4) {
            true => any_choice(&mut random, asked.runs.len()),
            false => mask,
        };
        let bytes = encode(&parts);
        let verdict = check_chosen(&numbers, &ends, mask, threshold, &bytes);
        if threshold > mask.count_ones() {
            let refusal = Verdict::Invalid {
                number: 2,
                place: threshold.into(),
            };
            assert_eq!(verdict, refusal);
            continue;
        }
        let weighting = Weighting::Chosen(mask);
        let truth = is_true_by(&slices(&asked.runs), weighting, threshold, &parts);
        assert_eq!(truth, matches!(verdict, Verdict::Valid { .. }));
        let number = match verdict {
            Verdict::Valid { .. } => 0,
            Verdict::Invalid { number, place } => {
                let before = decode(&bytes[..place as usize]).unwrap();
                let others = |part: &Part| part.mask() & !mask != 0;
                assert!(!before.iter().any(others));
                let named_another = parts.get(before.len()).is_some_and(others);
                assert!(!named_another || matches!(number, 9 | 10));
                number
            }
        };
        seen[number as usize] += 1;
    }
    assert!(
        [0, 9, 10, 11].iter().all(|&number| seen[number] > 500),
        "{seen:?}"
    );
}
