//! The smallest days that have settled windows and no unbroken day, by trying all days: those of fewer minutes first, and
//! of as many minutes those of fewer entries. They have 7 minutes and 4 entries.

use dock_tests::check_unbroken::{by_trying_everything, NONE};
use dock_tests::day::Day;
use dock_tests::narrow::{self, Narrowed};
use dock_tests::samples::{boxes, whole, windows};
use dock_tests::unbroken::{self, Ending};
use dock_tests::{overload, small, torn};

/// r, d and p of each entry.
type Times = Vec<(u16, u16, u16)>;

/// All lists of `n` entries that need no more than `h` minutes, each in one order: whether there is an unbroken day does
/// not depend on it.
fn in_one_order(h: u16, n: usize) -> Vec<Times> {
    let all = small::entries(h);
    let mut lists: Vec<(usize, u16, Times)> = vec![(0, h, vec![])];
    for _ in 0..n {
        let longer = |(first, left, list): &(usize, u16, Times)| -> Vec<(usize, u16, Times)> {
            let places = (*first..all.len()).filter(|&place| all[place].2 <= *left);
            places.map(|place| (place, left - all[place].2, [&list[..], &[all[place]]].concat())).collect()
        };
        lists = lists.iter().flat_map(longer).collect();
    }
    lists.into_iter().map(|(_, _, list)| list).collect()
}

/// Whether a day has settled windows and no unbroken day.
fn is_torn(day: &Day) -> bool {
    match narrow::rounds(day).outcome_after(0) {
        Ok(Narrowed { day: settled, .. }) => unbroken::search(&settled, u32::MAX).ending == Ending::None,
        Err(_) => false,
    }
}

/// Such days of a size. An entry of one minute is never broken, and with it whole more days are refused, not fewer; so it
/// is pause here. Of the others at least two are whole: one alone begins at its settled r in some plan.
fn torn_days(h: u16, n: usize) -> Vec<Day> {
    let mut found = vec![];
    for list in in_one_order(h, n) {
        let long = Vec::from_iter((0..n).filter(|&place| list[place].2 > 1));
        let day = windows(h, &list);
        if long.len() < 2 || overload::shown(&day).is_some() {
            continue;
        }
        for kinds in (0..1_usize << long.len()).filter(|kinds| kinds.count_ones() > 1) {
            let places = long.iter().enumerate().filter(|(bit, _)| kinds >> bit & 1 == 1);
            let day = whole(day.clone(), &Vec::from_iter(places.map(|(_, &place)| place)));
            if is_torn(&day) {
                found.push(day);
            }
        }
    }
    found
}

/// A day with more entries than minutes has no plan.
#[test]
fn none_is_smaller() {
    let sizes = (1..=6).flat_map(|h| (0..=usize::from(h)).map(move |n| (h, n)));
    for (h, n) in sizes.chain((0..=3).map(|n| (7, n))) {
        assert_eq!(torn_days(h, n), [], "{n} entries in {h} minutes");
    }
}

/// In whatever order, there are five: three entries of two minutes, of which at most one may not begin with the day and
/// at most one not end with it, and the minute in the middle.
#[test]
fn the_smallest_days() {
    let days = torn_days(7, 4);
    let wanted = [
        "w[0,6)2 w[0,7)2 w[0,7)2 p[3,4)1",
        "w[0,6)2 w[0,7)2 w[1,7)2 p[3,4)1",
        "w[0,7)2 w[0,7)2 w[0,7)2 p[3,4)1",
        "w[0,7)2 w[0,7)2 w[1,6)2 p[3,4)1",
        "w[0,7)2 w[0,7)2 w[1,7)2 p[3,4)1",
    ];
    for day in &days {
        assert!(matches!(by_trying_everything(day), Ok((NONE, _))), "{day:?}");
    }
    assert_eq!(days, wanted.map(|text| boxes(7, text)));
    assert!(days.contains(&torn::smallest()));
}
