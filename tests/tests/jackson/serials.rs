//! Entries are known by their place. The same serial may stand twice where its windows share no minute, and nothing but
//! that is asked of serials; else the list is turned back with 14 (document 02, "One box in two places").

use dock_tests::check::{not_planned, overloaded, planned, test_refused};
use dock_tests::clashes::{depot, merged};
use dock_tests::day::{Day, Entry, Interval, MOST_ENTRIES};
use dock_tests::samples::{plan, windows, with_serials};
use dock_tests::{abi, brute, flat, writer};

/// Every entry of the day has all its minutes in this plan, in its window, and no other minute is taken.
#[track_caller]
fn every_entry_is_kept(day: &Day, plan: &[u8]) {
    let mut all = 0;
    for (place, entry) in day.entries.iter().enumerate() {
        let minutes = brute::minutes_of(plan, place);
        assert_eq!(minutes.len(), usize::from(entry.p), "minutes of place {place}");
        assert!(minutes.iter().all(|minute| (entry.r..entry.d).contains(minute)), "window of place {place}");
        all += minutes.len();
    }
    assert_eq!(plan.iter().filter(|&&byte| byte != 255).count(), all, "minutes of all places");
}

/// Both calls turn this list back by this place, the planner with any buffer, which stays as it was.
#[track_caller]
fn turned_back(day: &Day, place: usize) {
    let fields = flat::of_day(day);
    test_refused(&fields, 14, place);
    for room in [0, usize::from(day.h) - 1, day.h.into(), usize::from(day.h) + 9] {
        not_planned(&fields, room, 14, place);
    }
}

#[test]
fn one_serial_with_the_same_window_is_turned_back() {
    let day = windows(6, &[(1, 5, 2), (1, 5, 2)]);
    turned_back(&with_serials(day.clone(), &[7, 7]), 1);
    let bytes = planned(&day);
    assert_eq!(bytes, plan("- 0 0 1 1 -"), "with serials that differ");
    every_entry_is_kept(&day, &bytes);
}

#[test]
fn one_serial_with_windows_that_touch_is_planned_twice() {
    let day = with_serials(windows(6, &[(3, 6, 2), (0, 3, 2)]), &[0, 0]);
    let bytes = planned(&day);
    assert_eq!(bytes, plan("1 1 - 0 0 -"));
    every_entry_is_kept(&day, &bytes);
}

/// One minute more for either window, and they share it.
#[test]
fn one_serial_with_windows_that_share_a_minute_is_turned_back() {
    turned_back(&with_serials(windows(6, &[(2, 6, 2), (0, 3, 2)]), &[0, 0]), 1);
    turned_back(&with_serials(windows(6, &[(3, 6, 2), (0, 4, 2)]), &[0, 0]), 1);
}

#[test]
fn between_two_of_one_serial_the_tie_rule_is_the_same() {
    for serials in [[7, 8, 9], [9, 8, 7], [8, 7, 9]] {
        let day = with_serials(windows(6, &[(1, 6, 2), (0, 6, 2), (1, 2, 1)]), &serials);
        assert_eq!(planned(&day), plan("1 2 1 0 0 -"), "one minute left and two");
        let day = with_serials(windows(6, &[(1, 6, 2), (0, 6, 3), (1, 2, 1)]), &serials);
        assert_eq!(planned(&day), plan("1 2 0 0 1 1"), "two minutes left each");
    }
    let entries = [(3, 9, 2), (3, 9, 2), (1, 3, 2), (0, 1, 1)];
    for serials in [[8, 9, 7, 6], [8, 7, 7, 7], [7, 8, 7, 8], [7, 8, 8, 8], [8, 7, 8, 7]] {
        let day = with_serials(windows(9, &entries), &serials);
        assert_eq!(planned(&day), plan("3 2 2 0 0 1 1 - -"), "{serials:?}");
    }
}

/// "The entry that had the minute before .. goes on": the next entry of its serial is another one. At minute 3 places
/// 0 and 1 have the same d and as many minutes left, and 0 is lower, though 1 has the serial that had minute 2.
#[test]
fn an_entry_does_not_go_on_in_the_next_of_its_serial() {
    let day = with_serials(windows(9, &[(3, 9, 2), (3, 9, 2), (1, 3, 2)]), &[8, 7, 7]);
    assert_eq!(planned(&day), plan("- 2 2 0 0 1 1 - -"));
    let day = with_serials(windows(9, &[(0, 9, 3), (5, 8, 1), (2, 5, 1)]), &[8, 7, 7]);
    assert_eq!(planned(&day), plan("0 0 2 0 - 1 - - -"));
}

/// Document 01's (c) with a box of one serial in two windows that touch: the work of both counts.
#[test]
fn one_serial_twice_has_the_work_of_both() {
    let day = with_serials(windows(10, &[(2, 5, 2), (5, 7, 2), (2, 7, 2)]), &[7, 7, 8]);
    assert_eq!(overloaded(&day), Interval { a: 2, b: 7, work: 6 });
    let day = with_serials(windows(10, &[(2, 5, 2), (5, 7, 2), (2, 7, 1)]), &[7, 7, 8]);
    every_entry_is_kept(&day, &planned(&day));
}

/// 14 is told before 9.
#[test]
fn one_serial_twice_is_turned_back_before_its_work_is_reckoned() {
    let day = windows(10, &[(2, 5, 2), (2, 5, 2)]);
    assert_eq!(overloaded(&day), Interval { a: 2, b: 5, work: 4 }, "with serials that differ");
    turned_back(&with_serials(day, &[7, 7]), 1);
    let day = windows(10, &[(2, 5, 2), (2, 5, 2), (6, 8, 1), (7, 9, 1)]);
    turned_back(&with_serials(day, &[1, 2, 3, 3]), 3);
}

/// But for the serials these are 64 times the same entry.
#[test]
fn sixty_four_times_the_same_entry() {
    let day = windows(128, &[(0, 128, 2); MOST_ENTRIES]);
    let bytes = planned(&day);
    let wanted: Vec<u8> = (0..128).map(|minute| minute / 2).collect();
    assert_eq!(bytes, wanted);
    every_entry_is_kept(&day, &bytes);
    turned_back(&with_serials(day, &[1; MOST_ENTRIES]), 1);
    let day = windows(127, &[(0, 127, 2); MOST_ENTRIES]);
    assert_eq!(overloaded(&day), Interval { a: 0, b: 127, work: 128 });
    turned_back(&with_serials(day, &[1; MOST_ENTRIES]), 1);
}

#[test]
fn sixty_four_times_the_same_serial() {
    let entries: Vec<_> = (0..64).rev().map(|turn| (2 * turn, 2 * turn + 2, 2)).collect();
    let day = with_serials(windows(128, &entries), &[1; MOST_ENTRIES]);
    let bytes = planned(&day);
    let wanted: Vec<u8> = (0..128).map(|minute| 63 - minute / 2).collect();
    assert_eq!(bytes, wanted);
    every_entry_is_kept(&day, &bytes);
}

/// The windows of two depots, each of which numbers its boxes from 1, the second one's from minute `later` on.
fn two_depots(later: u16) -> (Day, Vec<u32>) {
    let one = [(0, 20, 4), (2, 9, 3), (5, 12, 2), (10, 20, 1)];
    let other = [(0, 20, 3), (1, 9, 2), (5, 8, 1), (12, 20, 2)].map(|(r, d, p)| (r + later, d + later, p));
    (windows(20 + later, &[one, other].concat()), vec![1, 2, 3, 4, 1, 2, 3, 4])
}

/// In the same hours: with serials that differ there is a plan, and with the same ones the first box that stands
/// twice is told.
#[test]
fn two_depots_with_the_same_serials_in_one_list() {
    let (day, serials) = two_depots(0);
    let bytes = planned(&day);
    assert_eq!(bytes, plan("4 5 5 1 1 6 1 2 2 4 4 3 7 7 0 0 0 0 - -"));
    every_entry_is_kept(&day, &bytes);
    turned_back(&with_serials(day, &serials), 4);
}

/// In other hours: the same plan with the same serials as with others, and it has all eight entries.
#[test]
fn two_depots_with_the_same_serials_in_other_hours() {
    let (day, serials) = two_depots(20);
    let same = with_serials(day.clone(), &serials);
    let bytes = planned(&same);
    assert_eq!(
        bytes,
        plan("0 0 1 1 1 2 2 0 0 - 3 - - - - - - - - - 4 5 5 4 4 6 - - - - - - 7 7 - - - - - -")
    );
    every_entry_is_kept(&same, &bytes);
    assert_eq!(bytes, planned(&day), "with serials that differ");
}

/// The same list from its bytes: the reader keeps both depots' entries, and so does the plan.
#[test]
fn two_depots_with_the_same_serials_from_bytes() {
    let (day, serials) = two_depots(20);
    let same = with_serials(day, &serials);
    let (answer, fields) = abi::read(&writer::form(&same));
    assert_eq!((answer.number, fields[1]), (0, 8));
    assert_eq!(fields, flat::of_day(&same));
    let (answer, bytes) = abi::schedule(&fields, 40);
    assert_eq!((answer.number, answer.values), (0, [0, 0, 0]));
    every_entry_is_kept(&same, &bytes);
    assert_eq!(bytes, planned(&same));
}

/// Four boxes, then again 4 in the same hours: from bytes the fifth one's map is told, and nothing is handed out. Of
/// the first depot the entries have 7, 11, 11 and 9 bytes.
#[test]
fn two_depots_in_the_same_hours_from_bytes() {
    let (day, serials) = two_depots(0);
    let (answer, fields) = abi::read(&writer::form(&with_serials(day, &serials)));
    assert_eq!((answer.number, answer.values), (14, [3 + 7 + 11 + 11 + 9, 0, 0]));
    assert!(fields == abi::untouched_fields(), "nothing is handed out");
}

/// Two depots too busy for one dock: no depot alone is overloaded, both together are. Each has both boxes, in hours
/// in which the other has the other one.
#[test]
fn two_depots_with_the_same_serials_may_be_overloaded_together() {
    let (one, other) = ([(0, 8, 3), (8, 16, 5)], [(8, 16, 3), (0, 8, 6)]);
    assert_eq!(planned(&windows(16, &one)), plan("0 0 0 - - - - - 1 1 1 1 1 - - -"));
    assert_eq!(planned(&windows(16, &other)), plan("1 1 1 1 1 1 - - 0 0 0 - - - - -"));
    let both = with_serials(windows(16, &[one, other].concat()), &[1, 2, 1, 2]);
    assert_eq!(overloaded(&both), Interval { a: 0, b: 8, work: 9 });
    let depot = [(0, 8, 3), (2, 6, 2)];
    let both = windows(8, &[depot, depot].concat());
    assert_eq!(overloaded(&both), Interval { a: 0, b: 8, work: 10 }, "with serials that differ");
    turned_back(&with_serials(both, &[1, 2, 1, 2]), 2);
}

/// Every place at which the second depot's list can be put into the first one's: the first box that stands twice is
/// told by the place that it has in that order.
#[test]
fn the_order_of_merging_decides_the_place() {
    let (one, other) = (depot(0), depot(60));
    turned_back(&merged(&[&one, &other]), 4);
    for at in 0..=4 {
        let mut entries = one.entries.clone();
        entries.splice(at..at, other.entries.clone());
        // box 1 is the only one that stands twice in hours that overlap: place 0 of the first depot, or place 4
        // behind the second's, and of the second depot place `at`
        turned_back(&Day { h: one.h, opening: 0, entries }, if at == 0 { 4 } else { at });
    }
    let without: Vec<Entry> = [&one.entries[1..], &other.entries].concat();
    let day = Day { h: one.h, opening: 0, entries: without };
    every_entry_is_kept(&day, &planned(&day));
}

/// Serials that look like places, like idle, or run against the places change nothing.
#[test]
fn serials_are_no_places() {
    let entries = [(0, 6, 2), (0, 6, 2), (1, 3, 1)];
    for serials in [[2, 1, 0], [255, 254, 253], [0, 255, 1], [u32::MAX, 0, 1], [64, 63, 62]] {
        let day = with_serials(windows(6, &entries), &serials);
        assert_eq!(planned(&day), plan("0 2 0 1 1 -"));
    }
    let entries = [(0, 3, 2), (3, 6, 2), (1, 3, 1), (3, 4, 1)];
    for serials in [[1, 1, 0, 0], [255, 255, 0, 0], [0, 2, 2, 0], [3, 2, 2, 3], [u32::MAX, 0, 1, u32::MAX]] {
        let day = with_serials(windows(6, &entries), &serials);
        assert_eq!(planned(&day), plan("0 0 2 3 1 1"), "{serials:?}");
    }
}
