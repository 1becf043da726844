//! All days of so many minutes and entries.

use crate::day::Day;
use crate::samples;

/// r, d and p of every entry that a day of `h` minutes may have: p at least 1, r + p at most d, d at most H.
pub fn entries(h: u16) -> Vec<(u16, u16, u16)> {
    let mut all = vec![];
    for r in 0..h {
        for d in r + 1..=h {
            all.extend((1..=d - r).map(|p| (r, d, p)));
        }
    }
    all
}

/// Every day of `h` minutes with `n` entries, all pause: each place has each entry, whatever the others have.
pub fn days(h: u16, n: u32) -> impl Iterator<Item = Day> {
    let all = entries(h);
    (0..all.len().pow(n)).map(move |number| {
        let digit = |place| all[number / all.len().pow(place) % all.len()];
        samples::windows(h, &(0..n).map(digit).collect::<Vec<_>>())
    })
}

/// Every day of at most `h` minutes and `n` entries, all pause.
pub fn pause_days_up_to(h: u16, n: u32) -> impl Iterator<Item = Day> {
    (1..=h).flat_map(move |h| (0..=n).flat_map(move |n| days(h, n)))
}

/// Every day of `h` minutes with `n` entries, each pause or whole, whatever the others are.
pub fn days_of_both_kinds(h: u16, n: u32) -> impl Iterator<Item = Day> {
    days(h, n).flat_map(of_both_kinds)
}

/// A day of pause entries with each of them pause or whole, whatever the others are.
pub fn of_both_kinds(day: Day) -> impl Iterator<Item = Day> {
    let n = day.entries.len();
    (0..1_u32 << n).map(move |kinds| {
        let places: Vec<_> = (0..n).filter(|place| kinds >> place & 1 == 1).collect();
        samples::whole(day.clone(), &places)
    })
}

/// Every day of at most `h` minutes and `n` entries of both kinds.
pub fn days_up_to(h: u16, n: u32) -> impl Iterator<Item = Day> {
    (1..=h).flat_map(move |h| (0..=n).flat_map(move |n| days_of_both_kinds(h, n)))
}

/// How many of the days of at most 4 minutes and 3 entries are settled, refused with 9 and refused with 10.
pub const SETTLED: usize = 16_766;
pub const OVERLOADED: usize = 57_448;
pub const NO_PLACE: usize = 448;
