//! What several tests of this crate share: queries on buffers of given sizes,
//! random runs and a plain second form of the walk.

// Each test file is a program of its own and uses only some of this.
#![allow(dead_code)]

use reference::testing::{
    accepted, answers_of, choose, gap, hit, lay_out, mark_some, refused, renumber, Random, Wanted,
    M,
};
use reference::{encode, query_by, Outcome, Part, Probe, Probes, Weighting};
use std::collections::BTreeMap;

/// What stands in a buffer before a query.
pub const FILLER: u32 = 0xabab_abab;
/// The same in a buffer of bytes.
pub const FILLER_BYTE: u8 = 0xab;

/// The numbers of a run that are no mark.
pub fn mapped(run: &[u32]) -> &[u32] {
    let marks = run.iter().filter(|&&x| x == 0).count();
    &run[marks..]
}

/// The bins that runs of at least that weight hold, found by adding up.
pub fn counted_answers<R: AsRef<[u32]>>(
    runs: &[R],
    weighting: Weighting,
    threshold: u32,
) -> Vec<u32> {
    let mut counts = BTreeMap::new();
    for (i, weight) in weighting.each(runs.len()) {
        for &x in mapped(runs[i].as_ref()) {
            *counts.entry(x).or_insert(0) += weight;
        }
    }
    counts
        .into_iter()
        .filter(|&(_, count)| count >= u64::from(threshold))
        .map(|(x, _)| x)
        .collect()
}

/// Asks with buffers of the given sizes, as [`in_room`] does.
pub fn ask<R: AsRef<[u32]>>(
    runs: &[R],
    threshold: u32,
    allowance: u32,
    answer_room: usize,
    byte_room: usize,
) -> (Outcome, Vec<u32>, Vec<u8>) {
    let wanted = Wanted::plain(threshold);
    ask_for(runs, &wanted, allowance, [answer_room, byte_room])
}

/// The same for runs that may have weights.
pub fn ask_for<R: AsRef<[u32]>>(
    runs: &[R],
    wanted: &Wanted,
    allowance: u32,
    room: [usize; 2],
) -> (Outcome, Vec<u32>, Vec<u8>) {
    let (numbers, ends) = lay_out(runs);
    let (weighting, threshold) = (wanted.weighting(), wanted.threshold);
    in_room(room, |answers, certificate| {
        query_by(
            &numbers,
            &ends,
            weighting,
            threshold,
            allowance,
            answers,
            certificate,
        )
    })
}

/// What a query into buffers of the given sizes returns, with the answers and the
/// certificate bytes written, after a look at what lies behind them.
pub fn in_room(
    [answer_room, byte_room]: [usize; 2],
    query: impl FnOnce(&mut [u32], &mut [u8]) -> Outcome,
) -> (Outcome, Vec<u32>, Vec<u8>) {
    let mut answers = vec![FILLER; answer_room];
    let mut certificate = vec![FILLER_BYTE; byte_room];
    let outcome = query(&mut answers, &mut certificate);
    let (Outcome::Accepted {
        answers: count,
        bytes,
        ..
    }
    | Outcome::Refused {
        answers: count,
        bytes,
        ..
    }) = outcome;
    let later_answers = answers.split_off(count as usize);
    let later_bytes = certificate.split_off(bytes as usize);
    assert!(later_answers.iter().all(|&x| x == FILLER));
    assert!(later_bytes.iter().all(|&x| x == FILLER_BYTE));
    (outcome, answers, certificate)
}

/// A number: near 0, near M, in the middle or anywhere, as `kind` says.
fn any_number(random: &mut Random, kind: usize, spread: usize) -> u32 {
    let near = random.below(spread) as u32;
    match kind {
        0 => near,
        1 => M - near,
        2 => 1_000_000 + near,
        3 if random.one_in(2) => near,
        3 => M - near,
        _ => random.word(),
    }
}

/// From 1 to `most_runs` runs of up to `most_numbers` numbers each, and marks in
/// front of some in a third of all cases. Often the numbers are close together,
/// so that runs share many of them.
pub fn any_runs(random: &mut Random, most_runs: usize, most_numbers: usize) -> Vec<Vec<u32>> {
    let k = 1 + random.below(most_runs);
    let kind = random.below(5);
    let spread = 1 + random.below(3 * most_numbers);
    let mut runs: Vec<Vec<u32>> = (0..k)
        .map(|_| {
            let length = random.below(most_numbers + 1);
            let mut run: Vec<u32> = (0..length)
                .map(|_| any_number(random, kind, spread))
                .collect();
            run.sort_unstable();
            run.dedup();
            run
        })
        .collect();
    mark_some(random, &mut runs);
    runs
}

/// A long run and one of few numbers from the same range, in any order: a
/// search for one of the few goes far.
pub fn long_and_short(random: &mut Random) -> Vec<Vec<u32>> {
    let mut run = |most: usize| {
        let length = 1 + random.below(most);
        let mut run: Vec<u32> = (0..length).map(|_| random.below(1_000) as u32).collect();
        run.sort_unstable();
        run.dedup();
        run
    };
    let mut runs = vec![run(80), run(4)];
    if random.one_in(2) {
        runs.swap(0, 1);
    }
    mark_some(random, &mut runs);
    runs
}

/// One thing that a walk does.
#[derive(Clone, Copy, Debug, PartialEq, Eq)]
pub enum Event {
    /// It makes a probe of this kind in this run.
    Probe(usize, Probe),
    /// It writes this part.
    Write(Part),
}

/// A whole walk, put down as plainly as possible.
pub struct PlainWalk {
    pub events: Vec<Event>,
    /// The probes of each search.
    pub searches: Vec<Probes>,
    /// Rounds that did not end in step 1.
    pub full_rounds: usize,
}

impl PlainWalk {
    /// The walk of runs that are all chosen.
    pub fn new(runs: &[Vec<u32>], weighting: Weighting, threshold: u32) -> Self {
        let is_enough = |mask: u64| {
            let named = |run: &&(usize, u64)| mask >> run.0 & 1 == 1;
            let weighed = weighting.each(runs.len());
            let weight: u64 = weighed.iter().filter(named).map(|run| run.1).sum();
            weight >= threshold.into()
        };
        let mut walk = PlainWalk {
            events: Vec::new(),
            searches: Vec::new(),
            full_rounds: 0,
        };
        // Each run's numbers that are not done with.
        let mut left: Vec<&[u32]> = runs.iter().map(|run| mapped(run)).collect();
        let mut floor = 1;
        loop {
            if !is_enough(mask(&left, |head| head.is_some())) {
                let mask = mask(&left, |head| head.is_none());
                walk.events.push(Event::Write(gap(floor, M, mask)));
                return walk;
            }
            walk.full_rounds += 1;
            let heads = left.iter().filter_map(|run| run.first().copied());
            let at_most = |v: u32| mask(&left, |head| head.is_some_and(|x| x <= v));
            let v = heads.filter(|&v| is_enough(at_most(v))).min().unwrap();
            if floor < v {
                let mask = mask(&left, |head| head.is_none_or(|x| x >= v));
                walk.events.push(Event::Write(gap(floor, v - 1, mask)));
            }
            for (i, run) in left.iter_mut().enumerate() {
                if run.first().is_some_and(|&x| x < v) {
                    let passed = run.iter().filter(|&&x| x < v).count();
                    let kinds = probes_of_search(passed, run.len());
                    walk.searches.push(count(kinds.iter().copied()));
                    let events = kinds.iter().map(|&kind| Event::Probe(i, kind));
                    walk.events.extend(events);
                    *run = &run[passed..];
                }
            }
            let holding = mask(&left, |head| head == Some(v));
            floor = v;
            if is_enough(holding) {
                walk.events.push(Event::Write(hit(v, holding)));
                if v == M {
                    return walk;
                }
                for run in &mut left {
                    if run.first() == Some(&v) {
                        *run = &run[1..];
                    }
                }
                floor = v + 1;
            }
        }
    }

    /// The walk of the runs that the mask chooses, alone, with masks in the
    /// numbering of all runs. The runs that its probes are in are counted among the
    /// chosen.
    pub fn of_chosen(runs: &[Vec<u32>], mask: u64, threshold: u32) -> Self {
        let chosen = choose(runs, mask).into_iter();
        let chosen: Vec<Vec<u32>> = chosen.map(<[u32]>::to_vec).collect();
        let mut walk = PlainWalk::new(&chosen, Weighting::Plain, threshold);
        for event in &mut walk.events {
            if let Event::Write(part) = event {
                *part = renumber(&[*part], mask)[0];
            }
        }
        walk
    }

    pub fn parts(&self) -> Vec<Part> {
        let part = |event: &Event| match event {
            Event::Write(part) => Some(*part),
            Event::Probe(..) => None,
        };
        self.events.iter().filter_map(part).collect()
    }

    pub fn probes_in(&self, run: usize) -> Probes {
        count(self.events.iter().filter_map(|&event| match event {
            Event::Probe(i, kind) if i == run => Some(kind),
            _ => None,
        }))
    }

    pub fn probes(&self) -> Probes {
        count(self.events.iter().filter_map(|&event| match event {
            Event::Probe(_, kind) => Some(kind),
            Event::Write(_) => None,
        }))
    }

    /// How many searches an allowance can end in the doubling, at the seam and
    /// in the halving.
    pub fn long_searches(&self) -> usize {
        let is_long = |search: &&Probes| search.doublings >= 2 && search.halvings >= 2;
        self.searches.iter().filter(is_long).count()
    }

    /// What a query returns for this walk, with the answers and the
    /// certificate bytes that it writes.
    pub fn stopped(
        &self,
        allowance: u32,
        answer_room: usize,
        byte_room: usize,
    ) -> (Outcome, Vec<u32>, Vec<u8>) {
        let mut limited = Limited::new(allowance, answer_room, byte_room);
        let refusal = limited.go_on(&self.events);
        let certificate = encode(&limited.parts);
        let counts = (limited.answers.len() as u64, certificate.len() as u64);
        let (written, probes) = (limited.parts.len() as u64, limited.probes);
        let outcome = match refusal {
            None => accepted(counts.0, written, counts.1, probes),
            Some(number) => refused(number, written, counts.0, counts.1, probes),
        };
        (outcome, limited.answers, certificate)
    }
}

/// What walks do one after another up to the first check that fails.
pub struct Limited {
    allowance: u32,
    answer_room: usize,
    byte_room: usize,
    pub answers: Vec<u32>,
    pub parts: Vec<Part>,
    /// Doublings and halvings.
    pub probes: [u64; 2],
}

impl Limited {
    pub fn new(allowance: u32, answer_room: usize, byte_room: usize) -> Self {
        Limited {
            allowance,
            answer_room,
            byte_room,
            answers: Vec::new(),
            parts: Vec::new(),
            probes: [0; 2],
        }
    }

    /// Goes on with a walk. Returns the refusal that ends it, if one does.
    pub fn go_on(&mut self, events: &[Event]) -> Option<u8> {
        for event in events {
            match *event {
                Event::Probe(..) if self.probes.iter().sum::<u64>() == self.allowance.into() => {
                    return Some(7);
                }
                Event::Probe(_, Probe::Doubling) => self.probes[0] += 1,
                Event::Probe(_, Probe::Halving) => self.probes[1] += 1,
                Event::Write(part) => {
                    let bytes = encode(&self.parts).len() + encode(&[part]).len();
                    let value = answers_of(&[part]);
                    if !value.is_empty() && self.answers.len() == self.answer_room {
                        return Some(5);
                    }
                    if bytes > self.byte_room {
                        return Some(6);
                    }
                    self.answers.extend(value);
                    self.parts.push(part);
                }
            }
        }
        None
    }
}

fn mask(left: &[&[u32]], property: impl Fn(Option<u32>) -> bool) -> u64 {
    (0..left.len())
        .filter(|&i| property(left[i].first().copied()))
        .map(|i| 1 << i)
        .sum()
}

/// How many there are of each kind.
fn count(kinds: impl Iterator<Item = Probe>) -> Probes {
    let (doublings, halvings): (Vec<Probe>, Vec<Probe>) =
        kinds.partition(|&kind| kind == Probe::Doubling);
    Probes {
        doublings: doublings.len() as u64,
        halvings: halvings.len() as u64,
    }
}

/// The probes of a search from place 0 of a run of `n` numbers, of which the
/// first `passed` are below the number searched for.
fn probes_of_search(passed: usize, n: usize) -> Vec<Probe> {
    let mut probes = Vec::new();
    let mut step = 1;
    while step < n {
        probes.push(Probe::Doubling);
        if step >= passed {
            break;
        }
        step *= 2;
    }
    let mut low = step / 2;
    let mut high = step.min(n);
    while high > low + 1 {
        probes.push(Probe::Halving);
        let middle = (low + high) / 2;
        if middle < passed {
            low = middle;
        } else {
            high = middle;
        }
    }
    assert_eq!(high, passed);
    probes
}
