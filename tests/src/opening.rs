//! Document 02's "The room opens after midnight": days with an opening minute, and the same days without one.

use crate::day::{Day, Entry};
use crate::small;

/// The same day so many minutes later, in a room that opens when it begins.
pub fn later(day: &Day, by: u16) -> Day {
    let entry = |entry: &Entry| Entry { r: entry.r + by, d: entry.d + by, ..entry.clone() };
    Day { h: day.h + by, opening: day.opening + by, entries: day.entries.iter().map(entry).collect() }
}

/// Small days of both kinds that begin a minute or two after 0.
pub fn small_days() -> impl Iterator<Item = Day> {
    small::days_up_to(3, 3).chain(small::days_of_both_kinds(4, 2)).map(|day| {
        let day = later(&day, 1 + day.entries.len() as u16 % 2);
        assert!(day.opening > 0, "{day:?}");
        day
    })
}

/// The same windows in a room that is open from minute 0 on.
pub fn without(day: &Day) -> Day {
    Day { opening: 0, ..day.clone() }
}

/// All opening minutes that leave the list right: none before which a window begins, and none outside of the day.
pub fn possible(day: &Day) -> std::ops::Range<u16> {
    let earliest = day.entries.iter().map(|entry| entry.r).min();
    0..earliest.map_or(day.h, |r| r + 1)
}
