//! Worked examples: document 01's sample day with two late boxes, every number by hand; and its examples (a)
//! to (h), of which the last box is the late one.

use crate::late;
use dock_tests::abi::{self, Answer, DayCall, Lent};
use dock_tests::check_commits::{ask, commit, made, refused};
use dock_tests::commits::{Row, SIZE, STAMP};
use dock_tests::day::{Day, MOST_ENTRIES};
use dock_tests::flat::Numbers;
use dock_tests::samples::{self, boxes, hex, plan};

/// Box 504 with seal 79, whole, from minute 6 on to the day's end, 2 minutes; box 505 without a seal, pause,
/// at any time, a minute; box 506 like it.
const WHOLE_BOX: Numbers = [504, 1, 79, 6, 12, 2, 1];
const PAUSE_BOX: Numbers = [505, 0, 0, 0, 12, 1, 0];
const ONE_TOO_MANY: Numbers = [506, 0, 0, 0, 12, 1, 0];

/// The fresh day of document 01's sample: H 12, `p[0,12)4 w[2,8)3 p[3,6)2`.
fn sample() -> Row {
    let (_, fields) = abi::read(&samples::document());
    let mut row = abi::untouched_day();
    let answer = abi::fresh(&fields, &mut row);
    assert_eq!((answer.number, answer.values), (0, [0, 0, 0]));
    row
}

/// The numbers of the sample's three entries, as given.
const ENTRIES: [Numbers; 3] = [[501, 0, 0, 0, 12, 4, 0], [502, 1, 77, 2, 8, 3, 1], [503, 1, 78, 3, 6, 2, 0]];

/// This day's list is the sample's followed by these entries, with zeros after them, and its stamp is this.
#[track_caller]
fn is_day(row: &Row, more: &[Numbers], stamp: u32) {
    let entries = [&ENTRIES[..], more].concat().concat();
    let n = 3 + more.len() as u32;
    let mut wanted = [[12, n, 0].to_vec(), entries].concat();
    wanted.resize(STAMP, 0);
    wanted.push(stamp);
    assert_eq!((wanted.len(), row[..] == wanted[..]), (SIZE, true), "{:?}", &row[..]);
}

/// What planning says of the longer list: the settled r and d of each entry, the least ends, the greatest
/// starts, and the minutes.
struct Says<'a> {
    windows: &'a [[u32; 2]],
    ends: &'a [u32],
    starts: &'a [u32],
    plan: &'a str,
}

/// A call left what planning says.
#[track_caller]
fn is_planned(lent: &Lent, says: &Says) {
    let n = says.windows.len();
    assert_eq!(lent.narrowed[..3], [12, n as u32, 0]);
    for (place, window) in says.windows.iter().enumerate() {
        assert_eq!(lent.narrowed[3 + 7 * place + 3..][..2], *window, "place {place}");
    }
    assert!(lent.narrowed[3 + 7 * n..].iter().all(|&number| number == 0), "zeros after the list");
    assert_eq!(lent.bounds[..n], *says.ends);
    assert_eq!(lent.bounds[MOST_ENTRIES..][..n], *says.starts);
    assert_eq!(lent.plan, plan(says.plan));
}

#[test]
fn a_fresh_day_is_the_list_with_stamp_0() {
    is_day(&sample(), &[], 0);
}

/// With box 504 the whole box 502 begins at 5 and box 504 at 8, 2 moves. At minute 8 boxes 501 and 504 have
/// the same d; 501 has 1 minute left and goes first. All plans have 501 at least twice in minutes 0 to 2, so
/// that it starts by 1.
const WITH_504: Says = Says {
    windows: &[[0, 12], [5, 8], [3, 6], [8, 12]],
    ends: &[9, 8, 5, 10],
    starts: &[1, 5, 3, 10],
    plan: "0 0 0 2 2 1 1 1 0 3 3 -",
};

/// With box 505 alone box 502 makes the only move. Boxes 501 and 505 have the same d, and 505 the fewest
/// minutes left.
const WITH_505: Says = Says {
    windows: &[[0, 12], [5, 8], [3, 6], [0, 12]],
    ends: &[9, 8, 5, 1],
    starts: &[8, 5, 3, 11],
    plan: "3 0 0 2 2 1 1 1 0 0 - -",
};

/// With both boxes the day is full. At minute 8 boxes 501 and 504 have 2 minutes left each; the lowest place
/// goes first.
const WITH_BOTH: Says = Says {
    windows: &[[0, 12], [5, 8], [3, 6], [8, 12], [0, 12]],
    ends: &[9, 8, 5, 10, 1],
    starts: &[1, 5, 3, 10, 11],
    plan: "4 0 0 2 2 1 1 1 0 0 3 3",
};

#[test]
fn the_first_dispatcher_asks_and_commits() {
    let mut row = sample();
    let (answer, lent) = ask(&row, &WHOLE_BOX, 12);
    assert_eq!((answer.number, answer.values), (0, [2, 0, 0]));
    is_planned(&lent, &WITH_504);
    is_day(&row, &[], 0);
    let (answer, lent) = commit(&mut row, &WHOLE_BOX, 0, 12);
    assert_eq!((answer.number, answer.values), (0, [2, 0, 1]));
    is_planned(&lent, &WITH_504);
    is_day(&row, &[WHOLE_BOX], 1);
}

/// The second dispatcher asked before the first one committed, so that the stamp 0 is no longer the day's.
#[test]
fn the_second_dispatcher_has_a_stale_stamp_and_asks_again() {
    let mut row = sample();
    let (answer, lent) = ask(&row, &PAUSE_BOX, 12);
    assert_eq!((answer.number, answer.values), (0, [1, 0, 0]));
    is_planned(&lent, &WITH_505);
    assert_eq!(commit(&mut row, &WHOLE_BOX, 0, 12).0.values, [2, 0, 1]);

    refused(DayCall::Commit(0), &row, &PAUSE_BOX, 12, 17, 1);
    is_day(&row, &[WHOLE_BOX], 1);

    let (answer, lent) = ask(&row, &PAUSE_BOX, 12);
    assert_eq!((answer.number, answer.values), (0, [2, 0, 1]));
    is_planned(&lent, &WITH_BOTH);
    let (answer, lent) = commit(&mut row, &PAUSE_BOX, 1, 12);
    assert_eq!((answer.number, answer.values), (0, [2, 0, 2]));
    is_planned(&lent, &WITH_BOTH);
    is_day(&row, &[WHOLE_BOX, PAUSE_BOX], 2);
}

/// The day's list after both commits, in its one form: the boxes have the windows that were given, not the
/// settled ones.
#[test]
fn the_bytes_of_the_longer_list() {
    let mut row = sample();
    commit(&mut row, &WHOLE_BOX, 0, 12);
    commit(&mut row, &PAUSE_BOX, 1, 12);
    let (answer, out) = abi::write(&row[..STAMP], 60);
    assert_eq!((answer.number, answer.values), (0, [60, 0, 0]));
    let wanted = hex("0C 00 05 | 11 F5 01 00 00 04 00 | 3F F6 01 00 00 4D 00 00 00 02 00 08 00 03 00
         | 1F F7 01 00 00 4E 00 00 00 03 00 06 00 02 00
         | 37 F8 01 00 00 4F 00 00 00 06 00 02 00 | 11 F9 01 00 00 01 00");
    assert_eq!(out, wanted);
}

/// All 12 minutes are taken: a further box is 9 of the whole day, with 13 minutes of work.
#[test]
fn the_day_has_no_minute_left() {
    let mut row = sample();
    commit(&mut row, &WHOLE_BOX, 0, 12);
    commit(&mut row, &PAUSE_BOX, 1, 12);
    let (answer, _) = ask(&row, &ONE_TOO_MANY, 12);
    assert_eq!((answer.number, answer.values), (9, [0, 12, 13]));
    let (answer, _) = commit(&mut row, &ONE_TOO_MANY, 2, 12);
    assert_eq!((answer.number, answer.values), (9, [0, 12, 13]));
    refused(DayCall::Commit(1), &row, &ONE_TOO_MANY, 12, 17, 2);
    is_day(&row, &[WHOLE_BOX, PAUSE_BOX], 2);
}

/// A whole box of 3 minutes that must end by 10: minutes 3 to 7 are taken, before them 2 are left and after
/// them 2.
#[test]
fn a_late_box_without_a_place() {
    let mut row = sample();
    let late_box = [504, 0, 0, 1, 10, 3, 1];
    refused(DayCall::Ask, &row, &late_box, 12, 10, 3);
    refused(DayCall::Commit(0), &row, &late_box, 12, 10, 3);
    let (answer, _) = commit(&mut row, &[504, 0, 0, 1, 11, 3, 1], 0, 12);
    assert_eq!((answer.number, answer.values[2]), (0, 1), "with a minute more it has one");
}

/// Wrong boxes are told at place 3, and a buffer of 11 bytes with 12.
#[test]
fn wrong_late_boxes() {
    let row = sample();
    for (late_box, room, number, carries) in [
        ([504, 0, 0, 6, 12, 0, 0], 12, 6, 3),
        ([504, 0, 0, 6, 13, 2, 0], 12, 7, 3),
        ([504, 0, 0, 11, 12, 2, 0], 12, 7, 3),
        ([503, 0, 0, 5, 12, 2, 0], 12, 14, 3),
        (WHOLE_BOX, 11, 11, 12),
    ] {
        refused(DayCall::Ask, &row, &late_box, room, number, carries);
        refused(DayCall::Commit(0), &row, &late_box, room, number, carries);
        refused(DayCall::Commit(1), &row, &late_box, room, 17, 0);
    }
    let touching = [503, 0, 0, 6, 12, 2, 0];
    assert_eq!(ask(&row, &touching, 12).0.number, 0, "one serial in windows that only touch");
}

/// A day of 4 minutes in a room that opens at 1.
#[test]
fn a_room_that_opens_later() {
    let day = Day { opening: 1, ..boxes(4, "p[1,4)1") };
    let mut row = made(&day);
    refused(DayCall::Commit(0), &row, &late("w[0,4)2"), 4, 16, 1);
    let (answer, lent) = commit(&mut row, &late("w[1,4)2"), 0, 4);
    assert_eq!((answer.number, answer.values, lent.plan), (0, [0, 0, 1], plan("- 0 1 1")));
    assert_eq!(row[..10], [4, 2, 1, 101, 0, 0, 1, 4, 1, 0]);
    assert_eq!(row[10..17], [201, 0, 0, 1, 4, 2, 1]);
    assert_eq!(lent.narrowed[..3], [4, 2, 1]);
    assert_eq!(row[STAMP], 1);
}

/// Asks for the last box on the day of the others.
#[track_caller]
fn last_asked(h: u16, others: &str, last: &str) -> (Answer, Lent) {
    ask(&made(&boxes(h, others)), &late(last), h.into())
}

/// (a) "settled [0,2) and [2,4), 1 move in each of rounds one and two"; (b) "no move; its least end is 4,
/// greatest start 2"
#[test]
fn examples_a_and_b() {
    let (answer, lent) = last_asked(4, "w[0,3)2", "w[0,4)2");
    assert_eq!((answer.number, answer.values, &lent.plan), (0, [2, 0, 0], &plan("0 0 1 1")));
    assert_eq!([&lent.narrowed[6..8], &lent.narrowed[13..15]], [[0, 2], [2, 4]]);
    let (answer, lent) = last_asked(4, "w[0,3)2", "p[0,4)2");
    assert_eq!((answer.number, answer.values, &lent.plan), (0, [0, 0, 0], &plan("0 0 1 1")));
    assert_eq!((lent.bounds[1], lent.bounds[MOST_ENTRIES + 1]), (4, 2));
}

/// (c) "9, from 2 to 5, work 4. With p 2 and 1: accepted"; (d) "9, from 2 to 4, work 3"; (e) "10, entry 0"
#[test]
fn examples_c_d_and_e() {
    for (h, others, last, number, values) in [
        (10, "p[2,5)2", "p[2,5)2", 9, [2, 5, 4]),
        (10, "p[2,5)2", "p[2,5)1", 0, [0, 0, 0]),
        (4, "p[0,4)2 p[2,4)2", "p[2,4)1", 9, [2, 4, 3]),
        (6, "w[0,6)3", "p[2,4)2", 10, [0, 0, 0]),
        (6, "p[2,4)2", "w[0,6)3", 10, [1, 0, 0]),
    ] {
        let (answer, _) = last_asked(h, others, last);
        assert_eq!((answer.number, answer.values), (number, values), "{others}, then {last}");
    }
}

/// (f) "place 1 has minutes 0 to 2, place 0 has 3 and 4"; (g) "place 1 at 0, place 0 at 1 and 2, place 1 at 3
/// and 4"
#[test]
fn examples_f_and_g() {
    assert_eq!(last_asked(6, "p[1,6)2", "p[0,6)3").1.plan, plan("1 1 1 0 0 -"));
    assert_eq!(last_asked(6, "p[1,5)2", "p[0,6)3").1.plan, plan("1 0 0 1 1 -"));
}

/// (h) `01 00 00`: the only minute is for the late box, and then there is none.
#[test]
fn example_h() {
    let (_, fields) = abi::read(&hex("01 00 00"));
    let mut row = abi::untouched_day();
    assert_eq!(abi::fresh(&fields, &mut row).number, 0);
    let (answer, lent) = commit(&mut row, &late("w[0,1)1"), 0, 1);
    assert_eq!((answer.number, answer.values, lent.plan), (0, [0, 0, 1], vec![0]));
    let (answer, _) = ask(&row, &[202, 0, 0, 0, 1, 1, 0], 1);
    assert_eq!((answer.number, answer.values), (9, [0, 1, 2]));
}
