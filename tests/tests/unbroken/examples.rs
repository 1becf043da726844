//! Single days, each with what the search answers of it, and why.

use dock_tests::abi::Call;
use dock_tests::check_bounds::asked;
use dock_tests::check_unbroken::{
    by_trying_everything, finds, finds_none, is_spent, search, searched, ANY, FOUND, NONE,
};
use dock_tests::day::{Day, Interval};
use dock_tests::samples::{boxes, document, plan};
use dock_tests::unbroken::{self, Ending};
use dock_tests::{check, flat, torn};

/// Document 01's example (a): in its settled windows no start has a choice, so that two trials find the day.
#[test]
fn two_whole_entries_that_narrowing_fixed() {
    let day = boxes(4, "w[0,3)2 w[0,4)2");
    finds(&day, 2, &[0, 2], &plan("0 0 1 1"));
    assert_eq!(searched(&day, ANY).0.values, [2, 1, 2]);
    assert_eq!(by_trying_everything(&day), Ok((FOUND, 2)));
    let given = unbroken::search(&day, ANY);
    assert_eq!((given.ending, given.trials), (Ending::Found(vec![0, 2]), 4), "in its given windows");
}

/// No move, settled, and no unbroken day.
#[test]
fn settled_and_torn() {
    let day = torn::smallest();
    finds_none(&day, 78);
    let (answer, lent) = searched(&day, ANY);
    assert_eq!(answer.values, [0, 2, 78]);
    assert!(lent.narrowed == flat::of_day(&day), "its windows are settled");
    assert_eq!(by_trying_everything(&day), Ok((NONE, 78)));
    assert_eq!(asked(Call::Plan, &day).0.number, 0, "there is a plan, which breaks one of them");
}

/// Wherever the pause entry stands in the list, there is none; the trials are the same, as it is passed over.
#[test]
fn settled_and_torn_in_another_order() {
    for entries in ["p[3,4)1 w[0,7)2 w[0,7)2 w[0,7)2", "w[0,7)2 p[3,4)1 w[0,7)2 w[0,7)2"] {
        finds_none(&boxes(7, entries), 78);
    }
}

/// With one minute more, to either side of the pause entry, a day is found.
#[test]
fn a_minute_more_than_torn() {
    for (h, entries) in [(8, "w[0,8)2 w[0,8)2 w[0,8)2 p[3,4)1"), (8, "w[0,8)2 w[0,8)2 w[0,8)2 p[4,5)1")] {
        let day = boxes(h, entries);
        let (ending, trials) = by_trying_everything(&day).expect("settled windows");
        assert_eq!(ending, FOUND, "{entries}");
        is_spent(&day, trials - 1);
    }
}

/// "whole entries by place": no whole entry needs no trial, and the plan is the day's plan.
#[test]
fn no_whole_entry() {
    for (h, entries) in [
        (1, ""),
        (3, ""),
        (1, "p[0,1)1"),
        (3, "p[0,3)2 p[0,3)1"),
        (6, "p[1,5)2 p[0,6)3"),
        (7, "p[0,7)2 p[0,7)2 p[0,7)2 p[3,4)1"),
    ] {
        let day = boxes(h, entries);
        let planned = asked(Call::Plan, &day).1.plan;
        finds(&day, 0, &[], &planned);
        let (answer, lent) = searched(&day, 0);
        assert_eq!(answer.values, [0, 1, 0], "{entries}");
        assert_eq!(lent.starts, [0; 64], "{entries}");
    }
}

/// The day's plan breaks no entry, and yet the plan found is another one: "its list of whole entries' starts is the
/// least".
#[test]
fn another_plan_than_the_days() {
    let day = boxes(2, "p[0,2)1 w[0,2)1");
    let (answer, lent) = asked(Call::Plan, &day);
    assert_eq!((answer.values, lent.plan), ([0, 0, 0], plan("0 1")));
    finds(&day, 1, &[0, 0], &plan("1 0"));
    assert_eq!(by_trying_everything(&day), Ok((FOUND, 1)));
}

/// The day's plan breaks the first entry, and the search does not.
#[test]
fn a_day_whose_plan_breaks_an_entry() {
    let day = boxes(4, "w[0,4)2 w[1,3)1");
    let (answer, lent) = asked(Call::Plan, &day);
    assert_eq!((answer.values, lent.plan), ([0, 1, 0], plan("0 1 0 -")));
    finds(&day, 3, &[0, 2], &plan("0 0 1 -"));
    assert_eq!(by_trying_everything(&day), Ok((FOUND, 3)));
}

/// Only after going back a day is found: with the first entry at its r, the second has no start. Trials are 2 of the
/// first, then 1 and 2 of the second; then 3 of the first, and 1 of the second.
#[test]
fn going_back() {
    let day = boxes(5, "w[2,5)1 w[0,4)2 p[0,1)1");
    let settled = boxes(5, "w[2,5)1 w[1,4)2 p[0,1)1");
    let second = unbroken::search(&settled, ANY);
    assert_eq!((second.ending, second.trials), (Ending::Found(vec![3, 1]), 5));
    finds(&day, 5, &[3, 1, 0], &plan("2 1 1 0 -"));
    assert_eq!(searched(&day, ANY).0.values, [1, 1, 5]);
    assert_eq!(by_trying_everything(&day), Ok((FOUND, 5)));
}

/// One whole entry alone is found at its settled r with one trial.
#[test]
fn one_whole_entry() {
    for (h, entries, start, minutes) in [
        (1, "w[0,1)1", 0, "0"),
        (4, "w[1,4)2", 1, "- 0 0 -"),
        (4, "w[0,4)4", 0, "0 0 0 0"),
        (6, "w[0,6)2 p[1,2)1 p[3,4)1", 4, "- 1 - 2 0 0"),
    ] {
        finds(&boxes(h, entries), 1, &[start], &plan(minutes));
    }
}

/// Document 01's sample.
#[test]
fn the_sample() {
    let day = check::accepted(&document());
    let (answer, lent) = searched(&day, ANY);
    assert_eq!((answer.number, answer.values), (0, [1, 1, 1]));
    assert_eq!(lent.starts[..3], [0, 5, 0]);
    assert_eq!(lent.plan, plan("0 0 0 2 2 1 1 1 0 - - -"));
    assert_eq!(lent.narrowed[flat::at(1) + 3..][..2], [5, 8]);
}

/// 9 and 10 are given before the search, whatever the limit.
#[test]
fn nine_and_ten_are_not_none() {
    for limit in [0, 1, ANY] {
        let overloaded = flat::of_day(&boxes(10, "w[2,5)2 p[2,5)2"));
        let (answer, _) = search(&overloaded, limit, 10);
        assert_eq!((answer.number, answer.values), (9, [2, 5, 4]), "limit {limit}");
        assert_eq!(check::shown(&boxes(10, "w[2,5)2 p[2,5)2")), Some(Interval { a: 2, b: 5, work: 4 }));
        let no_place = flat::of_day(&boxes(6, "p[2,4)2 w[0,6)3"));
        let (answer, _) = search(&no_place, limit, 6);
        assert_eq!((answer.number, answer.values), (10, [1, 0, 0]), "limit {limit}");
    }
}

/// The windows answered are the settled ones, and moves are told, also for none and spent.
#[test]
fn settled_windows_are_answered_with_every_ending() {
    let moving = boxes(10, "w[0,8)2 w[0,7)2 w[0,7)2 p[3,4)1 p[7,10)3");
    let (answer, lent) = searched(&moving, ANY);
    assert_eq!(answer.values[..2], [1, NONE]);
    let trials = answer.values[2] as u32;
    let settled = boxes(10, "w[0,7)2 w[0,7)2 w[0,7)2 p[3,4)1 p[7,10)3");
    assert!(lent.narrowed == flat::of_day(&settled), "none");
    assert_eq!(trials, 78, "those of the three entries in [0,7)");
    for limit in [0, 1, 77] {
        let (answer, lent) = searched(&moving, limit);
        assert_eq!(answer.values, [1, 3, limit.into()]);
        assert!(lent.narrowed == flat::of_day(&settled), "spent, limit {limit}");
    }
}

/// The serials of a list are not looked at, but an entry that is in two places is refused before the search.
#[test]
fn one_box_in_two_places() {
    let mut day = torn::smallest();
    day.entries[2].serial = day.entries[0].serial;
    let (answer, _) = search(&flat::of_day(&day), ANY, 7);
    assert_eq!((answer.number, answer.values), (14, [2, 0, 0]));
    let right = Day { entries: torn::smallest().entries, ..day };
    assert_eq!(searched(&right, 78).0.values, [0, 2, 78]);
}
