//! The interval that 9 carries: which entries make its work, which pairs are intervals, and which of several
//! overloaded ones is shown.

use dock_tests::brute;
use dock_tests::check::{overloaded, planned};
use dock_tests::day::{Day, Interval};
use dock_tests::samples::{plan, windows};

/// The interval shown of this day, which must be one of all its overloaded ones.
#[track_caller]
fn shown(day: &Day) -> (u16, u16, u64) {
    let shown = overloaded(day);
    assert!(brute::overloaded_intervals(day).contains(&shown), "{shown:?} of {day:?}");
    (shown.a, shown.b, shown.work)
}

/// How many overloaded intervals this day has.
fn count(day: &Day) -> usize {
    brute::overloaded_intervals(day).len()
}

/// "the sum of p over entries with r at least a and d at most b": an entry that sticks out at either side
/// has no work in it, however little of it could be done outside.
#[test]
fn an_entry_that_sticks_out_has_no_work_in_it() {
    let day = windows(9, &[(2, 5, 2), (2, 5, 2), (1, 5, 1), (2, 6, 1)]);
    assert_eq!(shown(&day), (2, 5, 4));
    assert_eq!(planned(&windows(9, &[(2, 5, 2), (2, 6, 2)])), plan("- - 0 0 1 1 - - -"));
    assert_eq!(planned(&windows(9, &[(2, 5, 2), (1, 5, 2)])), plan("- 1 1 0 0 - - - -"));
    assert_eq!(planned(&windows(4, &[(0, 4, 2), (1, 3, 2)])), plan("0 1 1 0"));
}

/// "r at least a and d at most b": an entry that begins or ends with the interval is in it.
#[test]
fn an_entry_that_begins_and_ends_with_the_interval_is_in_it() {
    let day = windows(9, &[(2, 6, 2), (2, 4, 1), (4, 6, 2)]);
    assert_eq!(shown(&day), (2, 6, 5));
    assert_eq!(count(&day), 1);
}

#[test]
fn entries_far_inside_count_too() {
    let day = windows(20, &[(1, 19, 15), (5, 7, 1), (9, 10, 1), (12, 18, 2)]);
    assert_eq!(shown(&day), (1, 19, 19));
}

/// "it is overloaded if the work exceeds b - a": as much work as minutes is not too much.
#[test]
fn as_much_work_as_minutes_is_not_overloaded() {
    assert_eq!(planned(&windows(9, &[(2, 5, 2), (2, 5, 1)])), plan("- - 1 0 0 - - - -"));
    assert_eq!(shown(&windows(9, &[(2, 5, 2), (2, 5, 2)])), (2, 5, 4));
    assert_eq!(planned(&windows(3, &[(0, 3, 1), (0, 2, 1), (0, 1, 1)])), plan("2 1 0"));
}

/// "The interval shown has the smallest b": the early overload, not the late one.
#[test]
fn the_smallest_b_is_shown_whatever_the_places() {
    let (early, late) = ([(0, 3, 2), (1, 3, 2)], [(5, 8, 2), (6, 8, 2)]);
    for entries in [[early, late], [late, early]] {
        let day = windows(9, &entries.concat());
        assert_eq!(shown(&day), (0, 3, 4));
        assert!(count(&day) > 1);
    }
    for entries in [[early[0], late[0], late[1], early[1]], [late[1], early[1], early[0], late[0]]] {
        assert_eq!(shown(&windows(9, &entries)), (0, 3, 4));
    }
}

/// "and with it the largest a": of [0,4), [1,4) and [2,4) the last, in any order of the places.
#[test]
fn the_largest_a_is_shown_whatever_the_places() {
    let entries = [(0, 4, 2), (1, 4, 2), (2, 4, 2), (3, 4, 1)];
    for turn in 0..4 {
        let mut turned = entries;
        turned.rotate_left(turn);
        let day = windows(4, &turned);
        assert_eq!(shown(&day), (2, 4, 3));
        assert_eq!(count(&day), 3);
        turned.reverse();
        assert_eq!(shown(&windows(4, &turned)), (2, 4, 3));
    }
}

/// The smallest b comes first: a larger a with a larger b is not shown, nor a shorter or busier interval.
#[test]
fn the_smallest_b_is_shown_though_another_is_shorter_or_busier() {
    let day = windows(12, &[(0, 8, 5), (1, 8, 4), (9, 10, 1), (9, 10, 1)]);
    assert_eq!(shown(&day), (0, 8, 9));
    let day = windows(12, &[(0, 8, 5), (1, 8, 4), (8, 12, 4), (8, 12, 4), (8, 12, 4)]);
    assert_eq!(shown(&day), (0, 8, 9));
}

/// b is the smallest for any a: the interval that ends first may begin before all others.
#[test]
fn the_smallest_b_may_have_a_small_a() {
    let day = windows(10, &[(6, 8, 2), (6, 9, 2), (0, 7, 7), (5, 7, 1)]);
    assert_eq!(shown(&day), (0, 7, 8));
    assert!(brute::overloaded_intervals(&day).contains(&Interval { a: 6, b: 9, work: 4 }));
}

/// "a an earliest and b a latest minute of the list", which may be of different entries.
#[test]
fn an_interval_may_be_no_entrys_window() {
    let day = windows(9, &[(3, 5, 2), (4, 6, 2)]);
    assert_eq!(shown(&day), (3, 6, 4));
    assert_eq!(count(&day), 1);
}

/// The interval is no wider than the windows in it, and no narrower.
#[test]
fn a_and_b_are_minutes_of_the_list() {
    assert_eq!(shown(&windows(9, &[(4, 5, 1), (4, 5, 1)])), (4, 5, 2));
    assert_eq!(shown(&windows(9, &[(4, 5, 1), (4, 5, 1), (7, 8, 1)])), (4, 5, 2));
    assert_eq!(shown(&windows(9, &[(0, 9, 9), (4, 5, 1)])), (0, 9, 10));
}

/// r 2 stands only in an entry that ends after 5, and still makes the interval [2,5).
#[test]
fn an_interval_may_begin_with_an_entry_that_ends_after_it() {
    let day = windows(9, &[(2, 9, 1), (3, 5, 2), (3, 5, 2)]);
    assert!(brute::overloaded_intervals(&day).contains(&Interval { a: 2, b: 5, work: 4 }));
    assert_eq!(shown(&day), (3, 5, 4));
    assert_eq!(shown(&windows(9, &[(2, 9, 1), (2, 5, 3), (3, 5, 1)])), (2, 5, 4));
}

/// "With a below b .. other pairs are no intervals": r 5 and d 3 or 5 are on the list, and make none.
#[test]
fn pairs_with_a_not_below_b_are_no_intervals() {
    assert_eq!(planned(&windows(8, &[(5, 8, 2), (0, 3, 2)])), plan("1 1 - - - 0 0 -"));
    assert_eq!(planned(&windows(8, &[(5, 8, 3), (0, 5, 5)])), plan("1 1 1 1 1 0 0 0"));
}

/// The work is all of it, not what is too much.
#[test]
fn the_work_shown_is_the_whole_of_it() {
    assert_eq!(shown(&windows(5, &[(0, 5, 5), (0, 5, 5), (0, 5, 5)])), (0, 5, 15));
    assert_eq!(shown(&windows(5, &[(1, 3, 2), (1, 3, 2), (1, 3, 1), (0, 5, 5)])), (1, 3, 5));
}

#[test]
fn without_entries_nothing_is_overloaded() {
    assert_eq!(planned(&windows(3, &[])), plan("- - -"));
    assert_eq!(count(&windows(3, &[])), 0);
}
