//! The limits: no entries and 64, 1 minute and 1,440, one entry that fills the day, and the longest lists.

use dock_tests::check_unbroken::{finds, finds_none, is_spent, searched, ANY, FOUND};
use dock_tests::day::{IDLE, LONGEST_DAY, MOST_ENTRIES};
use dock_tests::samples::{all_whole, boxes, longest, windows};
use dock_tests::{flat, opening, torn};

#[test]
fn no_entries() {
    for h in [1, 2, 255, 256, 1439, 1440] {
        finds(&windows(h, &[]), 0, &[], &vec![IDLE; h.into()]);
    }
}

#[test]
fn one_entry_fills_the_day() {
    for h in [1, 2, 255, 256, 1439, 1440] {
        finds(&all_whole(windows(h, &[(0, h, h)])), 1, &[0], &vec![0; h.into()]);
    }
}

/// 64 whole entries that may have any minute of 64: entry k is tried at the minutes up to k.
#[test]
fn sixty_four_whole_entries() {
    let day = all_whole(windows(64, &[(0, 64, 1); MOST_ENTRIES]));
    let in_turn: Vec<u8> = (0..64).collect();
    let starts: Vec<u32> = (0..64).collect();
    finds(&day, 2080, &starts, &in_turn);
    let (answer, lent) = searched(&day, 4_294_967_295);
    assert_eq!((answer.number, answer.values), (0, [0, 1, 2080]));
    assert_eq!((lent.starts[0], lent.starts[63]), (0, 63));
    is_spent(&day, 0);
}

/// 64 whole entries without a choice, the last one first: one trial each.
#[test]
fn sixty_four_whole_entries_without_a_choice() {
    let entries = Vec::from_iter((0..64).rev().map(|turn| (22 * turn, 22 * turn + 22, 22)));
    let starts = Vec::from_iter(entries.iter().map(|&(r, _, _)| u32::from(r)));
    let minutes = Vec::from_iter((0..1408_u16).map(|minute| 63 - (minute / 22) as u8));
    finds(&all_whole(windows(1408, &entries)), 64, &starts, &minutes);
}

/// The last place alone is whole: its start stands at place 63.
#[test]
fn the_last_of_sixty_four_places() {
    let mut day = windows(LONGEST_DAY, &[(0, 1440, 1); MOST_ENTRIES]);
    day.entries[63].whole = true;
    let (answer, lent) = searched(&day, 1);
    assert_eq!((answer.number, answer.values), (0, [0, 1, 1]));
    assert_eq!(lent.starts, [0; MOST_ENTRIES], "it begins the day");
    assert_eq!((lent.plan[0], lent.plan[1], lent.plan[63]), (63, 0, 62));
    (day.entries[63].r, day.entries[63].p) = (1000, 440);
    let (answer, lent) = searched(&day, 1);
    assert_eq!((answer.values, lent.starts[63], lent.plan[1439]), ([0, 1, 1], 1000, 63));
    assert!(lent.starts[..63].iter().all(|&start| start == 0), "pause entries have 0");
}

/// Two entries that fill the longest day: 720 starts of the second have no plan.
#[test]
fn two_halves_of_the_longest_day() {
    let day = boxes(LONGEST_DAY, "w[0,1440)720 w[0,1440)720");
    let minutes = [vec![0; 720], vec![1; 720]].concat();
    finds(&day, 722, &[0, 720], &minutes);
}

/// The latest minutes of the longest day.
#[test]
fn torn_at_the_end_of_the_longest_day() {
    let day = opening::later(&torn::smallest(), LONGEST_DAY - 7);
    assert_eq!((day.h, day.opening, day.entries[0].d), (1440, 1433, 1440));
    finds_none(&day, 78);
}

/// A longest list has each entry alone in its window: one trial for each whole one.
#[test]
fn a_longest_list() {
    let day = longest();
    let wholes = day.entries.iter().filter(|entry| entry.whole).count();
    let (answer, lent) = searched(&day, ANY);
    assert_eq!((answer.number, answer.values), (0, [0, FOUND, wholes as u64]));
    assert!(lent.narrowed == flat::of_day(&day), "its windows are settled");
    for (place, entry) in day.entries.iter().enumerate() {
        let start = if entry.whole { u32::from(entry.r) } else { 0 };
        assert_eq!(lent.starts[place], start, "start of {place}");
    }
    is_spent(&day, wholes as u32 - 1);
}
