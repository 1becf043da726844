//! Classes of full days for the benchmark and the tests: twelve days a class, drawn from seeds, each with 1,440 minutes
//! and 64 entries. What a class is meant to be is tested, too.

use crate::chains;
use crate::day::{Day, Entry, LONGEST_DAY, MOST_ENTRIES};
use crate::random::{self, shuffle, Random};
use crate::samples::told_apart;

/// How many days a class has.
pub const DAYS: u64 = 12;

/// Days of one sort: its name, what they have in common, and the number that planning answers of each of them.
pub struct Class {
    pub name: &'static str,
    pub about: &'static str,
    pub number: u64,
    make: fn(&mut Random) -> Day,
}

impl Class {
    /// Its days, the same each time.
    pub fn days(&self) -> impl Iterator<Item = Day> + '_ {
        (1..=DAYS).map(|seed| {
            let day = told_apart((self.make)(&mut Random::new(seed)));
            assert_eq!((day.h, day.entries.len()), (LONGEST_DAY, MOST_ENTRIES), "{}, seed {seed}", self.name);
            day
        })
    }
}

/// A class whose days are planned.
const fn planned(name: &'static str, about: &'static str, make: fn(&mut Random) -> Day) -> Class {
    Class { name, about, number: 0, make }
}

pub const LOOSE: Class = planned(
    "loose",
    "a hidden plan with idle minutes, windows up to 60 minutes wider at either side, one entry in four pause",
    |random| random::full_day(random, true, 60, 4),
);
pub const TIGHT: Class = planned("tight", "as loose, without an idle minute", tight);
pub const ALL_WHOLE: Class =
    planned("all whole", "as tight, all entries whole", |random| random::full_day(random, false, 60, 0));
pub const MANY_ROUNDS: Class = planned(
    "many rounds",
    "20 to 28 nested whole entries of which each round settles one, and others beside them",
    many_rounds,
);
pub const NESTED: Class = planned(
    "nested windows",
    "in each quarter of the day 16 windows, one inside the other, one entry in four whole",
    nested,
);
pub const COMB: Class = planned(
    "comb",
    "40 pause entries of a fixed minute, 24 whole ones that hardly fit between them or not at all",
    comb,
);
pub const WALL: Class = planned(
    "wall",
    "40 entries with short deadlines that fill some hours, 24 whole ones that must pass them",
    wall,
);
pub const LONG_PAUSE: Class = planned(
    "long pause",
    "a pause entry that needs nearly all minutes which 63 others leave, so that its ends are far away",
    long_pause,
);
pub const REFUSED_BY_9: Class = Class {
    name: "refused by 9",
    about: "as tight, with more minutes for an entry",
    number: 9,
    make: |random| {
        let mut day = tight(random);
        random::work_more(random, &mut day);
        day
    },
};
pub const REFUSED_BY_10: Class = Class {
    name: "refused by 10 late",
    about: "18 to 26 nested whole entries around one without a place, which the last rounds show",
    number: 10,
    make: refused_late,
};

/// All of them.
pub const ALL: [Class; 10] =
    [LOOSE, TIGHT, ALL_WHOLE, MANY_ROUNDS, NESTED, COMB, WALL, LONG_PAUSE, REFUSED_BY_9, REFUSED_BY_10];

fn tight(random: &mut Random) -> Day {
    random::full_day(random, false, 60, 4)
}

fn many_rounds(random: &mut Random) -> Day {
    let minutes = chain_minutes(random, 20);
    beside(random, chains::of_minutes(&minutes).0)
}

fn refused_late(random: &mut Random) -> Day {
    let minutes = chain_minutes(random, 18);
    let inner = random.within(2, 20);
    let before = random.within(1, inner - 1);
    beside(random, chains::around_a_block(&minutes, inner, before))
}

/// The minutes of a chain's entries, so many of them or up to 8 more.
fn chain_minutes(random: &mut Random, least: usize) -> Vec<u16> {
    let n = least + random.below(9);
    (0..n).map(|_| random.within(8, 20)).collect()
}

/// A full day with a part in its first minutes, and loose windows in all others.
fn beside(random: &mut Random, part: Day) -> Day {
    let n = MOST_ENTRIES - part.entries.len();
    let mut others = random::unbroken_day(random, LONGEST_DAY - part.h, n, true, 60).entries;
    for entry in &mut others {
        (entry.r, entry.d) = (entry.r + part.h, entry.d + part.h);
        entry.whole = !random.once_in(4);
    }
    merged(random, part.entries, others)
}

/// A full day of these and other entries at any places, those of either sort in their order.
fn merged(random: &mut Random, these: Vec<Entry>, others: Vec<Entry>) -> Day {
    let mut is_of_these = [vec![true; these.len()], vec![false; others.len()]].concat();
    shuffle(random, &mut is_of_these);
    let (mut these, mut others) = (these.into_iter(), others.into_iter());
    let next = |is_of_these| if is_of_these { these.next() } else { others.next() };
    Day { h: LONGEST_DAY, opening: 0, entries: is_of_these.into_iter().filter_map(next).collect() }
}

/// An entry with this window and these minutes.
fn entry(random: &mut Random, r: u16, d: u16, p: u16, whole: bool) -> Entry {
    Entry { r, d, p, whole, ..random::entry(random, 1) }
}

fn nested(random: &mut Random) -> Day {
    let mut entries = vec![];
    for quarter in [0, 360, 720, 1080] {
        entries.extend(nest(random, quarter, quarter + 360));
    }
    shuffle(random, &mut entries);
    Day { h: LONGEST_DAY, opening: 0, entries }
}

/// 16 windows, each of which begins later and ends earlier than the last. There is a plan that keeps whole entries in one
/// piece: all minutes at one side of the next window are a whole entry's, with one idle minute at the other side, and
/// those at both sides a pause entry's.
fn nest(random: &mut Random, mut r: u16, mut d: u16) -> Vec<Entry> {
    let mut entries = vec![];
    for _ in 1..16 {
        let whole = random.once_in(4);
        let p = random.within(2, 22);
        let before = if whole { random.pick(&[1, p]) } else { random.within(1, p - 1) };
        let after = p + u16::from(whole) - before;
        entries.push(entry(random, r, d, p, whole));
        (r, d) = (r + before, d - after);
    }
    let p = d - r - random.within(0, 3);
    entries.push(entry(random, r, d, p, false));
    entries
}

/// Between two of the pause entries are 14 to 20 free minutes, a gap. A whole entry in four needs at most 13 and may have
/// them in a gap of its own; all others need at least 21 and have their place after the last pause entry.
fn comb(random: &mut Random) -> Day {
    let mut pauses = vec![];
    let mut gaps = vec![];
    let mut end = 0;
    for _ in 0..40 {
        gaps.push(end);
        let minute = end + random.within(14, 20);
        pauses.push(entry(random, minute, minute + 1, 1, false));
        end = minute + 1;
    }
    let pauses = in_some_order(random, pauses);
    shuffle(random, &mut gaps);
    let mut wholes = vec![];
    let mut free = end;
    for gap in gaps.into_iter().take(MOST_ENTRIES - pauses.len()) {
        let small = random.once_in(4);
        let p = if small { random.within(5, 13) } else { random.within(21, 24) };
        let start = if small { gap } else { free };
        free += if small { 0 } else { p };
        let r = random.within(0, start.min(end));
        let d = (start + p + random.within(0, 100)).min(LONGEST_DAY);
        wholes.push(entry(random, r, d, p, true));
    }
    merged(random, pauses, wholes)
}

/// The same entries from the first to the last, from the last to the first, or in any order.
fn in_some_order(random: &mut Random, mut entries: Vec<Entry>) -> Vec<Entry> {
    match random.below(3) {
        0 => {}
        1 => entries.reverse(),
        _ => shuffle(random, &mut entries),
    }
    entries
}

/// The entries of the wall have all minutes from `first` to `end`. The others are in one piece before or after it in
/// some plan.
fn wall(random: &mut Random) -> Day {
    let first = random.within(50, 250);
    let minutes = Vec::from_iter((0..40).map(|_| random.within(6, 16)));
    let end = first + minutes.iter().sum::<u16>();
    let mut wall = vec![];
    let mut free = first;
    for p in minutes {
        let r = random.within(first, free);
        let d = (free + p + random.within(0, 2)).min(end);
        let whole = random.once_in(3);
        wall.push(entry(random, r, d, p, whole));
        free += p;
    }
    let wall = in_some_order(random, wall);
    let mut wholes = vec![];
    let mut free = 0;
    for _ in wall.len()..MOST_ENTRIES {
        let p = random.within(10, 28);
        let start = if free + p <= first || end <= free { free } else { end };
        free = start + p + random.within(0, 3);
        let r = random.within(0, start);
        let d = (start + p + random.within(0, 200)).min(LONGEST_DAY);
        wholes.push(entry(random, r, d, p, true));
    }
    shuffle(random, &mut wholes);
    merged(random, wall, wholes)
}

/// Each of the others has 5 to 10 minutes of 22 of its own, and the pause entry all that are left but for at most 30.
fn long_pause(random: &mut Random) -> Day {
    let mut left = LONGEST_DAY;
    let mut entries = vec![];
    for turn in 1..MOST_ENTRIES as u16 {
        let p = random.within(5, 10);
        let start = random.within(22 * turn - 22, 22 * turn - p);
        let r = start.saturating_sub(random.within(0, 15));
        let d = (start + p + random.within(0, 15)).min(LONGEST_DAY);
        let whole = !random.once_in(3);
        entries.push(entry(random, r, d, p, whole));
        left -= p;
    }
    let p = left - random.within(0, 30);
    entries.push(entry(random, 0, LONGEST_DAY, p, false));
    shuffle(random, &mut entries);
    Day { h: LONGEST_DAY, opening: 0, entries }
}
