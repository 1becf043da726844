//! Changes of a day. What comes of one is a well-formed list, with a plan or without.

use dock_tests::day::{Day, Entry, LONGEST_DAY, MOST_ENTRIES};
use dock_tests::mirror;
use dock_tests::random::{self, shuffle, Random};

/// Changes of a day.
type Change = fn(&mut Random, &mut Day);

/// All of them, those that are made more often more than once.
const CHANGES: [Change; 24] = [
    move_release,
    move_release,
    move_deadline,
    move_deadline,
    shift,
    change_minutes,
    change_minutes,
    pass_minutes,
    pass_minutes,
    flip_kind,
    swap_places,
    swap_places,
    move_place,
    copy_window,
    nest,
    meet,
    meet,
    shift_block,
    new_entry,
    all_minutes,
    turn_places,
    copy_block,
    squeeze,
    mirrored,
];

/// The same day with a change, or with several at once, and at least so many entries.
pub fn changed(random: &mut Random, day: &Day, least: usize) -> Day {
    let often = random.pick(&[1, 1, 1, 1, 2, 2, 3, 5]);
    changed_often(random, day, often, least)
}

/// The same day with so many changes.
pub fn changed_often(random: &mut Random, day: &Day, often: usize, least: usize) -> Day {
    let mut day = day.clone();
    for _ in 0..often {
        if least < MOST_ENTRIES && random.once_in(6) {
            more_or_fewer(random, &mut day, least);
        } else {
            random.pick(&CHANGES)(random, &mut day);
        }
        day = well_formed(day);
    }
    day
}

/// The same day with serials that differ and without seals, each window in the day and with room for its minutes.
pub fn well_formed(mut day: Day) -> Day {
    (day.h, day.opening) = (LONGEST_DAY, 0);
    for (serial, entry) in (1..).zip(&mut day.entries) {
        (entry.serial, entry.seal) = (serial, None);
        entry.d = entry.d.clamp(1, LONGEST_DAY);
        entry.r = entry.r.min(entry.d - 1);
        entry.p = entry.p.clamp(1, entry.d - entry.r);
    }
    day
}

/// One of the entries. A day has one at least.
fn any<'a>(random: &mut Random, day: &'a mut Day) -> &'a mut Entry {
    let place = random.below(day.entries.len());
    &mut day.entries[place]
}

/// A copy of one of the entries.
fn other(random: &mut Random, day: &mut Day) -> Entry {
    any(random, day).clone()
}

/// A minute some minutes earlier or later, mostly few.
fn near(random: &mut Random, minute: u16) -> u16 {
    let most = random.pick(&[1, 1, 2, 4, 10, 30, 100, 600]);
    let by = random.within(1, most);
    match random.once_in(2) {
        true => minute.saturating_sub(by),
        false => (minute + by).min(LONGEST_DAY),
    }
}

fn move_release(random: &mut Random, day: &mut Day) {
    let entry = any(random, day);
    entry.r = near(random, entry.r);
}

fn move_deadline(random: &mut Random, day: &mut Day) {
    let entry = any(random, day);
    entry.d = near(random, entry.d);
}

/// A window as long as before, earlier or later.
fn shift(random: &mut Random, day: &mut Day) {
    let entry = any(random, day);
    let width = entry.d - entry.r;
    entry.r = near(random, entry.r).min(LONGEST_DAY - width);
    entry.d = entry.r + width;
}

fn change_minutes(random: &mut Random, day: &mut Day) {
    let entry = any(random, day);
    entry.p = near(random, entry.p);
}

/// Minutes of one entry for another.
fn pass_minutes(random: &mut Random, day: &mut Day) {
    let entry = any(random, day);
    let most = random.pick(&[1, 2, 5, 20]).min(entry.p - 1);
    let by = random.within(0, most);
    entry.p -= by;
    any(random, day).p += by;
}

fn flip_kind(random: &mut Random, day: &mut Day) {
    let entry = any(random, day);
    entry.whole = !entry.whole;
}

fn swap_places(random: &mut Random, day: &mut Day) {
    let (one, other) = (random.below(day.entries.len()), random.below(day.entries.len()));
    day.entries.swap(one, other);
}

/// An entry at another place, those between one place further.
fn move_place(random: &mut Random, day: &mut Day) {
    let entry = day.entries.remove(random.below(day.entries.len()));
    day.entries.insert(random.below(day.entries.len() + 1), entry);
}

fn copy_window(random: &mut Random, day: &mut Day) {
    let Entry { r, d, p, .. } = other(random, day);
    let entry = any(random, day);
    (entry.r, entry.d) = (r, d);
    if random.once_in(2) {
        entry.p = p;
    }
}

/// A window a little inside another one, or a little outside.
fn nest(random: &mut Random, day: &mut Day) {
    let Entry { r, d, .. } = other(random, day);
    let entry = any(random, day);
    let (left, right) = (random.within(0, 3), random.within(0, 3));
    (entry.r, entry.d) = match random.once_in(2) {
        true => (r + left, d.saturating_sub(right)),
        false => (r.saturating_sub(left), d + right),
    };
}

/// A side of a window where one of another entry is, or a minute beside it.
fn meet(random: &mut Random, day: &mut Day) {
    let Entry { r, d, p, .. } = other(random, day);
    let side = random.pick(&[r, d, r + p, d - p]);
    let minute = (side + random.within(0, 2)).saturating_sub(1);
    let entry = any(random, day);
    match random.once_in(2) {
        true => entry.r = minute,
        false => entry.d = minute,
    }
}

/// All sides from a minute on, earlier or later by as much.
fn shift_block(random: &mut Random, day: &mut Day) {
    let first = random.within(0, LONGEST_DAY - 1);
    let by = random.pick(&[1, 1, 2, 5, 20]);
    let later = random.once_in(2);
    let moved = |minute: u16| match later {
        _ if minute < first => minute,
        true => minute + by,
        false => minute.saturating_sub(by),
    };
    for entry in &mut day.entries {
        (entry.r, entry.d) = (moved(entry.r), moved(entry.d));
    }
}

fn new_entry(random: &mut Random, day: &mut Day) {
    let new = random::entry(random, LONGEST_DAY);
    let most = random.pick(&[1, 5, 30, LONGEST_DAY]);
    *any(random, day) = Entry { p: new.p.min(most), ..new };
}

/// A minute more or less for each entry of some places in a row.
fn all_minutes(random: &mut Random, day: &mut Day) {
    let more = random.once_in(2);
    for entry in block(random, day) {
        entry.p = if more { entry.p + 1 } else { entry.p - 1 };
    }
}

/// Some places in a row in another order.
fn turn_places(random: &mut Random, day: &mut Day) {
    let turned = random.once_in(2);
    let block = block(random, day);
    match turned {
        true => block.reverse(),
        false => shuffle(random, block),
    }
}

/// Some places in a row.
fn block<'a>(random: &mut Random, day: &'a mut Day) -> &'a mut [Entry] {
    let first = random.below(day.entries.len());
    let end = first + random.below(day.entries.len() - first) + 1;
    &mut day.entries[first..end]
}

/// The windows of some places in a row for as many others, earlier or later.
fn copy_block(random: &mut Random, day: &mut Day) {
    let block = block(random, day).to_vec();
    let first = random.below(day.entries.len());
    let by = random.within(0, 200);
    let later = random.once_in(2);
    for (entry, copied) in day.entries[first..].iter_mut().zip(block) {
        let moved = |minute: u16| if later { minute + by } else { minute.saturating_sub(by) };
        *entry = Entry { r: moved(copied.r), d: moved(copied.d), ..copied };
    }
}

/// The whole day in the first minutes: of each number so many eighths.
fn squeeze(random: &mut Random, day: &mut Day) {
    let eighths = random.within(1, 7);
    let less = |minutes: u16| (minutes * eighths).div_ceil(8);
    for entry in &mut day.entries {
        (entry.r, entry.d, entry.p) = (less(entry.r), less(entry.d), less(entry.p).max(1));
    }
}

fn mirrored(_: &mut Random, day: &mut Day) {
    *day = mirror::day(day);
}

/// An entry more or some fewer, from `least` to 64.
fn more_or_fewer(random: &mut Random, day: &mut Day, least: usize) {
    if random.once_in(2) && day.entries.len() < MOST_ENTRIES {
        let copied = other(random, day);
        let place = random.below(day.entries.len() + 1);
        day.entries.insert(place, copied);
    } else {
        let n = day.entries.len();
        let fewer = random.pick(&[1, 1, 2, 4, 8]).min(n.saturating_sub(least));
        for _ in 0..fewer {
            day.entries.remove(random.below(day.entries.len()));
        }
    }
}
