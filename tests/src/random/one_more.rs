//! One more entry for a day, right or wrong, with the stamp and the plan buffer of a call.

use super::{crossed_day, entry, mixed_day, nested_day, Random};
use crate::day::{Day, Entry, MOST_ENTRIES};
use crate::flat::{self, Numbers, Value};
use crate::opening;

/// A first list of at most 12 minutes and 4 entries: with a plan or without one, and perhaps with an opening
/// minute.
pub fn first_list(random: &mut Random) -> Day {
    if random.once_in(4) {
        let h = random.within(4, 12);
        return Day { h, opening: random.within(0, 3), entries: vec![] };
    }
    let day = match random.below(5) {
        0 => nested_day(random, 9, 3),
        1 => crossed_day(random),
        _ => mixed_day(random, 9, 3),
    };
    let by = random.pick(&[0, 0, 1, 3]);
    opening::later(&day, by)
}

/// A first list of short entries with so many of them: all have a plan, together with as many more as there
/// is room for.
pub fn long_list(random: &mut Random, n: usize) -> Day {
    let h = random.within(80, 140);
    let entry = |serial| Entry {
        serial,
        seal: random.once_in(2).then_some(serial),
        r: random.within(0, 9),
        d: h - random.within(0, 5),
        p: 1,
        whole: random.once_in(3),
    };
    Day { h, opening: 0, entries: (1_000..).take(n).map(entry).collect() }
}

/// One more entry for this list, mostly of a few minutes, as numbers: right, or wrong in one way.
pub fn one_more(random: &mut Random, list: &Value) -> Numbers {
    let mut more = right(random, list.h, list.opening);
    let earlier = &list.places[..usize::from(list.n).min(MOST_ENTRIES)];
    match random.below(14) {
        0 => more.p = 0,
        1 => more.d = list.h.saturating_add(random.within(1, 3)),
        2 => more.p = (more.d - more.r).saturating_add(1),
        3 | 4 => more.r = random.within(0, list.opening),
        5 | 6 if !earlier.is_empty() => more.serial = earlier[random.below(earlier.len())].serial,
        7 => more.p = more.d - more.r,
        _ => {}
    }
    in_odd_numbers(random, &more)
}

/// An entry that keeps all rules of an entry alone: a pause entry that has no choice, a wide one that is
/// mostly whole, so that it may have no place among those, or any.
fn right(random: &mut Random, h: u16, opening: u16) -> Entry {
    let last = h.saturating_sub(1);
    let opening = opening.min(last);
    let r = random.within(opening, last);
    let d = random.within(r, last) + 1;
    let any = Entry { serial: random.below(60) as u32, r, d, ..entry(random, 1) };
    match random.below(4) {
        0 => Entry { d: r + 1, p: 1, whole: false, ..any },
        1 => {
            let p = random.within(1, 4).min(last + 1 - opening);
            Entry { r: opening, d: last + 1, p, whole: !random.once_in(4), ..any }
        }
        _ => Entry { p: random.pick(&[1, 1, 1, 2, 2, 3]).min(d - r), ..any },
    }
}

/// The numbers of an entry, once in four times with another number for yes, with a number beside a missing
/// seal, and once in thirty times with a minute too large for its field.
fn in_odd_numbers(random: &mut Random, entry: &Entry) -> Numbers {
    let mut numbers = flat::numbers(entry);
    if random.once_in(4) {
        let yes = random.pick(&[2, 255, 65_536, u32::MAX]);
        (numbers[1], numbers[6]) = (numbers[1] * yes, numbers[6] * yes);
        if entry.seal.is_none() {
            numbers[2] = random.any() as u32;
        }
    }
    if random.once_in(30) {
        numbers[random.pick(&[3, 4, 5])] |= 0x1_0000;
    }
    numbers
}

/// A stamp for a day that has this one: mostly the same, else one near it, or one that is the same in its
/// lower bits.
pub fn stamp_near(random: &mut Random, stamp: u16) -> u64 {
    let stamp = u64::from(stamp);
    if !random.once_in(5) {
        return stamp;
    }
    let any = random.any();
    random.pick(&[
        stamp + 1,
        stamp.saturating_sub(1),
        0,
        65_535,
        65_536 + stamp,
        (1 << 32) + stamp,
        any << 16 | stamp,
        any,
        u64::MAX,
    ])
}

/// Bytes for the plan of a day of `h` minutes: mostly as many, else one less, none, or more.
pub fn room_near(random: &mut Random, h: u16) -> usize {
    let h = usize::from(h);
    random.pick(&[h, h, h, h + 1, h + 9, 2 * h + 3, h.saturating_sub(1), h / 2, 0])
}
