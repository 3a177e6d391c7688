//! Certificates: true ones of many forms, damaged ones and noise, and what both
//! sides read in them.

use quorum::Refusal;
use reference::testing::{weight_of, Random, Wanted, M};
use reference::{all_runs, decode, named_runs, Part, Weighting, FIRST_BIN};

/// Runs, what they weigh, and a threshold that pass the first checks.
#[derive(Clone, Copy)]
pub struct Task<'a> {
    /// The runs, from 1 to 64.
    pub runs: &'a [&'a [u32]],
    /// What they weigh, or which of them are chosen, at least one.
    pub weighting: Weighting<'a>,
    /// From 1 to the weight of all runs, or to the number of those chosen.
    pub threshold: u32,
}

impl<'a> Task<'a> {
    /// Every run counts for one.
    pub fn of_all(runs: &'a [&'a [u32]], threshold: u32) -> Self {
        Task {
            runs,
            weighting: Weighting::Plain,
            threshold,
        }
    }

    /// The runs that the mask names count for one.
    pub fn of_chosen(runs: &'a [&'a [u32]], mask: u64, threshold: u32) -> Self {
        Task {
            weighting: Weighting::Chosen(mask),
            ..Task::of_all(runs, threshold)
        }
    }

    /// Every run counts for one, or for its weight.
    pub fn wanting(runs: &'a [&'a [u32]], wanted: &'a Wanted) -> Self {
        Task {
            weighting: wanted.weighting(),
            ..Task::of_all(runs, wanted.threshold)
        }
    }
}

impl Task<'_> {
    /// The mask of the chosen runs.
    pub fn chosen(&self) -> u64 {
        match self.weighting {
            Weighting::Chosen(mask) => mask,
            Weighting::Plain | Weighting::Given(_) => all_runs(self.runs.len()),
        }
    }

    /// What the runs that the mask names count for.
    fn weight(&self, mask: u64) -> u32 {
        match self.weighting {
            Weighting::Plain | Weighting::Chosen(_) => mask.count_ones(),
            Weighting::Given(weights) => weight_of(weights, mask),
        }
    }

    /// The mask of the chosen runs that have a number from `first` to `last`.
    fn holding(&self, first: u32, last: u32) -> u64 {
        let holds = |&i: &usize| {
            let place = self.runs[i].partition_point(|&x| x < first);
            self.runs[i].get(place).is_some_and(|&x| x <= last)
        };
        let chosen = named_runs(self.chosen());
        chosen.filter(holds).map(|i| 1 << i).sum()
    }

    fn missing(&self, first: u32, last: u32) -> u64 {
        self.chosen() & !self.holding(first, last)
    }

    /// What the runs that a gap names count for at least: then the others count
    /// for less than the threshold.
    fn needed_by_gap(&self) -> u32 {
        self.weight(self.chosen()) - self.threshold + 1
    }

    /// A gap that names some of the runs that miss it, `None` if too few do.
    fn gap(&self, random: &mut Random, first: u32, last: u32) -> Option<Part> {
        let mask = self.some_of(random, self.missing(first, last), self.needed_by_gap())?;
        Some(Part::Gap { first, last, mask })
    }

    /// An answer that names some of the runs that hold it, `None` if too few
    /// do.
    fn answer(&self, random: &mut Random, value: u32) -> Option<Part> {
        let mask = self.some_of(random, self.holding(value, value), self.threshold)?;
        Some(Part::Answer { value, mask })
    }

    /// Some of the runs that the mask names, which count for at least `least`;
    /// `None` if all of them do not. Often none can be left out any more.
    fn some_of(&self, random: &mut Random, mask: u64, least: u32) -> Option<u64> {
        if self.weight(mask) < least {
            return None;
        }
        let mut named: Vec<usize> = named_runs(mask).collect();
        let tried = match random.below(3) {
            0 => 0,
            1 => named.len(),
            _ => random.below(named.len() + 1),
        };
        let mut mask = mask;
        for _ in 0..tried {
            let without = mask & !(1 << named.swap_remove(random.below(named.len())));
            if self.weight(without) >= least {
                mask = without;
            }
        }
        Some(mask)
    }

    /// The last number to which a gap that begins at `first` may reach;
    /// `None` if there is no such gap.
    fn farthest(&self, first: u32) -> Option<u32> {
        let next = |i: usize| {
            let place = self.runs[i].partition_point(|&x| x < first);
            self.runs[i].get(place).map_or(1 << 32, |&x| u64::from(x))
        };
        let mut stops: Vec<(u64, u64)> = named_runs(self.chosen())
            .map(|i| (next(i), 1 << i))
            .collect();
        stops.sort_unstable();
        let mut stopped = 0;
        let (stop, _) = stops.into_iter().find(|(_, run)| {
            stopped |= run;
            self.weight(stopped) >= self.threshold
        })?;
        (stop > u64::from(first)).then(|| (stop - 1) as u32)
    }

    /// A true certificate cut and masked at random, found without the walk.
    pub fn any_true(&self, random: &mut Random) -> Vec<Part> {
        let mut parts = Vec::new();
        let mut next = FIRST_BIN;
        // How often a gap is cut short; never once there are many parts.
        let odds = random.pick(&[2, 5, 1_000]);
        loop {
            let part = match self.farthest(next) {
                None => self.answer(random, next),
                Some(farthest) => {
                    let last = match random.one_in(odds) && parts.len() < 200 {
                        true => self.cut(random, next, farthest),
                        false => farthest,
                    };
                    self.gap(random, next, last)
                }
            };
            let part = part.expect("the runs that hold a number are enough or are not");
            parts.push(part);
            if part.last() == M {
                return parts;
            }
            next = part.last() + 1;
        }
    }

    /// A true certificate made to cover 0 too: its first gap begins there, or a
    /// gap or an answer of 0 alone comes before it. The masks are such that the
    /// part would be true if 0 were a bin, or name all that are chosen.
    pub fn from_0(&self, random: &mut Random, parts: &[Part]) -> Vec<Part> {
        let mut parts = parts.to_vec();
        match (parts[0], random.below(3)) {
            (Part::Gap { last, mask, .. }, 0) => {
                parts[0] = Part::Gap {
                    first: 0,
                    last,
                    mask,
                };
            }
            (_, 1) => {
                let mask = random.pick(&[self.holding(0, 0), self.chosen()]);
                parts.insert(0, Part::Answer { value: 0, mask });
            }
            _ => {
                let mask = random.pick(&[self.missing(0, 0), self.chosen()]);
                let (first, last) = (0, 0);
                parts.insert(0, Part::Gap { first, last, mask });
            }
        }
        parts
    }

    /// A number from `first` to `last`, often near one of them.
    fn cut(&self, random: &mut Random, first: u32, last: u32) -> u32 {
        let width = last - first;
        match random.below(4) {
            0 => first,
            1 => first + width.min(1),
            2 => last - width.min(1),
            _ => first + random.below(width as usize + 1) as u32,
        }
    }

    /// Changes a true certificate into another: splits a gap, merges two,
    /// moves the border between two or names other runs.
    pub fn rewrite(&self, random: &mut Random, parts: &mut Vec<Part>) {
        let i = random.below(parts.len());
        let (first, last) = (parts[i].first(), parts[i].last());
        let next_gap = match (parts[i], parts.get(i + 1)) {
            (Part::Gap { .. }, Some(&Part::Gap { last, .. })) => Some(last),
            _ => None,
        };
        match (parts[i], next_gap) {
            (Part::Gap { .. }, Some(end)) if random.one_in(3) => {
                if let Some(merged) = self.gap(random, first, end) {
                    parts.splice(i..i + 2, [merged]);
                }
            }
            (Part::Gap { .. }, Some(end)) if random.one_in(2) => {
                let border = self.cut(random, first, end - 1);
                let left = self.gap(random, first, border);
                let right = self.gap(random, border + 1, end);
                if let (Some(left), Some(right)) = (left, right) {
                    parts.splice(i..i + 2, [left, right]);
                }
            }
            (Part::Gap { .. }, _) if first < last && random.one_in(2) => {
                let border = self.cut(random, first, last - 1);
                let left = self.gap(random, first, border);
                let right = self.gap(random, border + 1, last);
                parts.splice(i..i + 1, [left, right].into_iter().flatten());
            }
            (Part::Gap { .. }, _) => {
                parts[i] = self.gap(random, first, last).unwrap_or(parts[i]);
            }
            (Part::Answer { value, .. }, _) => {
                parts[i] = self.answer(random, value).unwrap_or(parts[i]);
            }
        }
    }

    /// Changes one or two parts, which most often makes the whole untrue.
    pub fn damage_parts(&self, random: &mut Random, parts: &mut Vec<Part>) {
        let k = self.runs.len();
        if parts.is_empty() {
            return;
        }
        let i = random.below(parts.len());
        let j = random.below(parts.len());
        let (first, last, mask) = (parts[i].first(), parts[i].last(), parts[i].mask());
        let with_mask = |mask| match parts[i] {
            Part::Answer { value, .. } => Part::Answer { value, mask },
            Part::Gap { first, last, .. } => Part::Gap { first, last, mask },
        };
        match random.below(14) {
            // A gap one number too wide, the part beside it narrowed or not.
            0 | 1 => widen(random, parts, i),
            // A run that is not chosen: one of the others, or beyond the last.
            2 => parts[i] = with_mask(mask | self.another(random)),
            // One name more or less, or other names.
            3 => parts[i] = with_mask(mask ^ 1 << random.below(k)),
            4 => {
                let (all, chosen) = (all_runs(k), self.chosen());
                let fewer = mask & mask.wrapping_sub(1);
                let masks = [0, all, u64::MAX, chosen, !mask & chosen, fewer];
                parts[i] = with_mask(random.pick(&masks));
            }
            5 => parts.swap(i, j),
            6 => drop(parts.remove(i)),
            7 => parts.insert(j, parts[i]),
            // The other kind.
            8 => {
                parts[i] = match parts[i] {
                    Part::Answer { value, mask } => Part::Gap {
                        first: value,
                        last: value,
                        mask,
                    },
                    Part::Gap { first, mask, .. } => Part::Answer { value: first, mask },
                }
            }
            // Other numbers.
            9 => {
                let near = |random: &mut Random, x: u32| match random.below(4) {
                    0 => x.wrapping_sub(1),
                    1 => x.wrapping_add(1),
                    2 => random.pick(&[0, M, first, last]),
                    _ => x,
                };
                let (first, last) = (near(random, first), near(random, last));
                parts[i] = match parts[i] {
                    Part::Answer { mask, .. } => Part::Answer { value: first, mask },
                    Part::Gap { mask, .. } => Part::Gap { first, last, mask },
                }
            }
            // First and last the wrong way round.
            10 => {
                if let Part::Gap { mask, .. } = parts[i] {
                    let (first, last) = (last, first);
                    parts[i] = Part::Gap { first, last, mask };
                }
            }
            // Any of the runs that do not contradict it, enough or not.
            11 | 12 => {
                let agreeing = match parts[i] {
                    Part::Answer { value, .. } => self.holding(value, value),
                    Part::Gap { .. } => self.missing(first, last),
                };
                parts[i] = with_mask(agreeing & random.bits());
            }
            // Something after the largest number.
            _ => {
                let first = random.pick(&[0, 1, M - 1, M]);
                let last = random.pick(&[0, first, M]);
                parts.push(match random.one_in(2) {
                    true => Part::Answer { value: first, mask },
                    false => Part::Gap { first, last, mask },
                });
            }
        }
    }

    /// The bit of a run that is not chosen, half the time of one that there is;
    /// no bit if there is none.
    fn another(&self, random: &mut Random) -> u64 {
        let others = all_runs(self.runs.len()) & !self.chosen();
        let others = match others != 0 && random.one_in(2) {
            true => others,
            false => !self.chosen(),
        };
        let bits: Vec<u64> = named_runs(others).map(|i| 1 << i).collect();
        match bits.is_empty() {
            true => 0,
            false => random.pick(&bits),
        }
    }
}

/// Moves one end of a gap outwards by one. In most cases the part beside it
/// is narrowed by as much, or left out if it becomes empty.
fn widen(random: &mut Random, parts: &mut Vec<Part>, i: usize) {
    let Part::Gap { first, last, mask } = parts[i] else {
        return;
    };
    let to_the_right = random.one_in(2);
    let narrow = !random.one_in(4);
    let beside = match to_the_right {
        true if last < M => {
            parts[i] = Part::Gap {
                first,
                last: last + 1,
                mask,
            };
            i + 1
        }
        false if first > 0 && i > 0 => {
            parts[i] = Part::Gap {
                first: first - 1,
                last,
                mask,
            };
            i - 1
        }
        _ => return,
    };
    match parts.get(beside) {
        Some(&Part::Gap { first, last, mask }) if narrow && first < last => {
            parts[beside] = match to_the_right {
                true => Part::Gap {
                    first: first + 1,
                    last,
                    mask,
                },
                false => Part::Gap {
                    first,
                    last: last - 1,
                    mask,
                },
            };
        }
        Some(_) if narrow => drop(parts.remove(beside)),
        _ => (),
    }
}

/// The offset of each field, as far as the tags can be read.
fn offsets(bytes: &[u8]) -> Vec<usize> {
    let mut offsets = Vec::new();
    let mut offset = 0;
    while let Some(tag) = bytes.get(offset) {
        offsets.push(offset);
        offset += if *tag == 1 { 15 } else { 19 };
    }
    offsets
}

/// Changes a few bytes.
pub fn damage_bytes(random: &mut Random, bytes: &mut Vec<u8>) {
    let length = bytes.len();
    let offsets = offsets(bytes);
    if offsets.is_empty() {
        bytes.push(random.word() as u8);
        return;
    }
    let place = random.below(length);
    let field = random.pick(&offsets);
    match random.below(12) {
        0 | 1 => bytes[place] ^= 1 << random.below(8),
        2 => bytes[place] = random.word() as u8,
        3 => bytes.truncate(place),
        4 => bytes.truncate(field + random.below(4)),
        // Trailing bytes.
        5 => {
            let kind = random.below(3);
            for _ in 0..random.from_to(1, 25) {
                bytes.push(match kind {
                    0 => 0,
                    1 => random.from_to(1, 2) as u8,
                    _ => random.word() as u8,
                });
            }
        }
        6 => bytes.insert(place, random.word() as u8),
        7 => drop(bytes.remove(place)),
        // Tag and length.
        8 => bytes[field] = random.pick(&[0, 1, 2, 3, 255]),
        9 => {
            let place = (field + random.from_to(1, 2)).min(length - 1);
            bytes[place] = random.pick(&[0, 1, 11, 12, 13, 15, 16, 17, 255]);
        }
        // Bytes of the body in another order.
        10 => {
            let start = (field + 3).min(length);
            let end = (start + random.pick(&[4, 8, 12])).min(length);
            match random.one_in(2) {
                true => bytes[start..end].reverse(),
                false => bytes[start..end].rotate_left(4.min(end - start)),
            }
        }
        // A piece or the whole doubled.
        _ => {
            let end = random.pick(&[length, (field + 19).min(length)]);
            let start = random.pick(&[0, field]);
            let piece = bytes[start..end.max(start)].to_vec();
            let at = random.pick(&[end, field, length]);
            bytes.splice(at..at, piece);
        }
    }
}

/// Fields of any content, with a few tags and lengths that are wrong.
pub fn any_fields(random: &mut Random) -> Vec<u8> {
    let mut bytes = Vec::new();
    for _ in 0..random.below(7) {
        let (tag, length) = match random.below(12) {
            0 => (random.word() as u8, random.pick(&[0, 12, 16])),
            1 => (random.pick(&[1, 2]), random.below(300) as u16),
            2 => random.pick(&[(1, 16), (2, 12), (1, 12 << 8), (2, 16 << 8)]),
            n if n % 2 == 0 => (1, 12),
            _ => (2, 16),
        };
        bytes.push(tag);
        bytes.extend(length.to_le_bytes());
        bytes.extend((0..length).map(|_| random.word() as u8));
    }
    if random.one_in(4) {
        bytes.truncate(random.below(bytes.len() + 1));
    }
    bytes
}

/// Reads the parts on both sides and compares them, with the offset of a field
/// that cannot be read and what comes before and after it. Returns what was
/// read.
pub fn compare_parts(seed: u64, bytes: &[u8]) -> Result<Vec<quorum::Part>, Refusal> {
    let context = || format!("seed {seed}: {bytes:?}");
    let items: Vec<Result<quorum::Part, Refusal>> = quorum::parts(bytes).collect();
    assert_eq!(items, read_each(bytes), "{}", context());
    let read: Result<Vec<_>, _> = items.into_iter().collect();
    let decoded = decode(bytes).map(|parts| parts.into_iter().map(part_of).collect());
    assert_eq!(read.as_ref().ok(), decoded.as_ref(), "{}", context());
    read
}

/// The reference's part in the terms of `quorum`.
fn part_of(part: Part) -> quorum::Part {
    match part {
        Part::Answer { value, mask } => quorum::Part::Answer { value, mask },
        Part::Gap { first, last, mask } => quorum::Part::Gap { first, last, mask },
    }
}

/// The parts as the reference reads each field by itself, and last a refusal if
/// it cannot read one.
fn read_each(bytes: &[u8]) -> Vec<Result<quorum::Part, Refusal>> {
    let mut items = Vec::new();
    let mut offset = 0;
    while offset < bytes.len() {
        let single = |size: usize| match decode(bytes.get(offset..offset + size)?)?[..] {
            [part] => Some((part, size)),
            _ => None,
        };
        let Some((part, size)) = single(15).or_else(|| single(19)) else {
            let (number, place) = (8, offset as u64);
            items.push(Err(Refusal { number, place }));
            break;
        };
        items.push(Ok(part_of(part)));
        offset += size;
    }
    items
}
