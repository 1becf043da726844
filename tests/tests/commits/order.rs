//! The order of the refusals: 100, then 17 "before all else, and a day of 64 entries or more as 18 straight
//! after it, for an ask first of all .. The longer list's other refusals follow as document 01 orders them":
//! 2, 15, then 16, 6 and 7 entry by entry, 14, 11, 9, 10. The new entry has place n.

use crate::late;
use dock_tests::abi::{self, Answer, DayCall, Lent};
use dock_tests::check_commits::{ask, both_refused, commit, made};
use dock_tests::commits::{self, STAMP};
use dock_tests::flat::{self, Numbers, OPENING};
use dock_tests::samples::{boxes, windows, with_serials};

/// What is handed to a commit, right or wrong. Without the stamp it is handed to an ask.
struct Given {
    day: Vec<u32>,
    entry: Vec<u32>,
    stamp: u64,
    room: usize,
    narrowed: usize,
}

impl Given {
    /// Makes a call with it. A refusal must write nothing.
    #[track_caller]
    fn call(&self, call: DayCall) -> Answer {
        let before = Lent::untouched(self.room);
        let (mut day, mut plan, mut bounds) = (self.day.clone(), before.plan.clone(), before.bounds);
        let row: Vec<u32> = (7..).take(self.narrowed).collect();
        let mut narrowed = row.clone();
        let answer =
            abi::call_day_lending(call, &mut day, &self.entry, &mut plan, &mut narrowed, &mut bounds);
        let kept = day == self.day && narrowed == row && plan == before.plan && bounds == before.bounds;
        assert!(answer.number == 0 || kept, "{answer:?} to {call:?}, and something is written");
        answer
    }
}

/// The new entry's numbers.
const SERIAL: usize = 0;
const R: usize = 3;
const D: usize = 4;
const P: usize = 5;

/// H 7, opening minute 1, `w[1,7)3 p[4,6)1`, stamp 9; and a new `p[6,7)1`, with which the whole box makes a
/// move.
fn right() -> Given {
    let mut list = boxes(7, "w[1,7)3 p[4,6)1");
    list.opening = 1;
    let (day, entry) = (commits::row(&list, 9).to_vec(), late("p[6,7)1").to_vec());
    Given { day, entry, stamp: 9, room: 7, narrowed: 451 }
}

/// A way to break a row, and what is then told.
type Wrong = (fn(&mut Given), u64, [u64; 3]);

/// In the order in which they are told. A new `p[4,6)2` overloads [4, 6), and a new `p[2,4)1` leaves the
/// whole box no place.
const ROWS: [Wrong; 14] = [
    (|given| given.day.push(0), 100, [452, 0, 0]),
    (|given| given.entry.push(0), 100, [7, 0, 0]),
    (|given| given.narrowed = 450, 100, [451, 0, 0]),
    (|given| given.stamp = 8, 17, [9, 0, 0]),
    (|given| given.day[1] = 64, 18, [9, 0, 0]),
    (|given| given.day[0] = 0, 2, [0, 0, 0]),
    (|given| given.day[OPENING] = 65_535, 15, [0, 0, 0]),
    (|given| given.entry[R] = 0, 16, [2, 0, 0]),
    (|given| given.entry[P] = 0, 6, [2, 0, 0]),
    (|given| given.entry[D] = 8, 7, [2, 0, 0]),
    (|given| given.entry[SERIAL] = 101, 14, [2, 0, 0]),
    (|given| given.room = 6, 11, [7, 0, 0]),
    (|given| given.entry[R..=P].copy_from_slice(&[4, 6, 2]), 9, [4, 6, 3]),
    (|given| given.entry[R..=P].copy_from_slice(&[2, 4, 1]), 10, [0, 0, 0]),
];

/// Breaks these rows, the last one first, and commits and asks: the first one is told. An ask passes over 17.
#[track_caller]
fn first_is_told(given: &mut Given, rows: &[Wrong]) {
    rows.iter().rev().for_each(|(wrong, ..)| wrong(given));
    let (_, number, values) = rows[0];
    let answer = given.call(DayCall::Commit(given.stamp));
    assert_eq!((answer.number, answer.values), (number, values), "committed");
    let asked = rows.iter().find(|&&(_, number, _)| number != 17);
    let (number, values) = asked.map_or((0, [1, 0, 9]), |&(_, number, values)| (number, values));
    let answer = given.call(DayCall::Ask);
    assert_eq!((answer.number, answer.values), (number, values), "asked");
}

#[test]
fn each_row_alone() {
    assert_eq!(right().call(DayCall::Ask), Answer { number: 0, values: [1, 0, 9] });
    assert_eq!(right().call(DayCall::Commit(9)), Answer { number: 0, values: [1, 0, 10] });
    ROWS.iter().for_each(|row| first_is_told(&mut right(), &[*row]));
}

/// Of two rows that are broken the first one is told.
#[test]
fn each_row_before_each_later_one() {
    for (place, first) in ROWS.iter().enumerate() {
        for later in &ROWS[place + 1..] {
            first_is_told(&mut right(), &[*first, *later]);
        }
    }
}

/// All rows from one on are broken, and those before it are right.
#[test]
fn each_row_before_all_later_ones() {
    (0..ROWS.len()).for_each(|first| first_is_told(&mut right(), &ROWS[first..]));
}

/// With more than 64 entries too 18 is told before 2 and all others, and 3 never.
#[test]
fn three_is_never_told() {
    const MORE: [Wrong; 4] = [
        (|given| given.day[1] = 65, 18, [9, 0, 0]),
        (|given| given.day[1] = 255, 18, [9, 0, 0]),
        (|given| given.day[1] = 256, 18, [9, 0, 0]),
        (|given| given.day[1] = u32::MAX, 18, [9, 0, 0]),
    ];
    for more in MORE {
        first_is_told(&mut right(), &[more]);
        first_is_told(&mut right(), &[&[more], &ROWS[5..]].concat());
        (5..ROWS.len()).for_each(|later| first_is_told(&mut right(), &[more, ROWS[later]]));
        (0..4).for_each(|first| first_is_told(&mut right(), &[ROWS[first], more]));
    }
}

/// A wrong new entry is told at place n, whatever n is.
#[test]
fn the_new_entry_has_place_n() {
    for n in [0, 1, 2, 31, 62, 63] {
        let mut list = windows(70, &vec![(9, 70, 1); n]);
        list.opening = 9;
        let row = commits::row(&list, 3);
        let place = n as u64;
        for (entry, number) in [("p[8,70)1", 16), ("p[9,70)0", 6), ("p[9,71)1", 7), ("p[60,70)11", 7)] {
            both_refused(&row, &late(entry), 70, number, place);
        }
        let mut clash = late("p[9,70)1");
        clash[SERIAL] = 101;
        match n {
            0 => assert_eq!(ask(&row, &clash, 70).0.number, 0),
            _ => both_refused(&row, &clash, 70, 14, place),
        }
    }
}

/// Entry by entry: what is wrong in an entry of the day is told before what is wrong in the new one, but 14
/// after it.
#[test]
fn the_days_entries_come_before_the_new_one() {
    let opened = |entries: &str| {
        let mut day = boxes(20, entries);
        day.opening = 2;
        commits::row(&day, 0)
    };
    for (wrong, number) in [("p[1,20)1", 16), ("p[2,20)0", 6), ("p[2,21)1", 7)] {
        for late_box in ["p[1,20)1", "p[2,20)0", "p[2,21)1", "p[2,20)1"] {
            both_refused(&opened(&format!("p[2,20)1 {wrong}")), &late(late_box), 20, number, 1);
            both_refused(&opened(&format!("{wrong} p[2,20)1")), &late(late_box), 20, number, 0);
        }
    }
    let clash = commits::row(&with_serials(boxes(20, "p[2,20)1 p[2,20)1"), &[7, 7]), 0);
    for (late_box, number, place) in [("p[2,20)0", 6, 2), ("p[2,21)1", 7, 2), ("p[2,20)1", 14, 1)] {
        both_refused(&clash, &late(late_box), 20, number, place);
    }
}

/// Of two clashes the earlier place is told: one inside of the day, or the new entry with one of the day's.
#[test]
fn the_first_clash_is_told() {
    let day = boxes(20, "p[0,9)1 p[9,20)1 p[0,20)1");
    let mut late_box: Numbers = late("p[0,20)1");
    late_box[SERIAL] = 7;
    for (serials, place) in [([7, 8, 7], 2), ([7, 7, 9], 3), ([8, 9, 7], 3), ([8, 7, 7], 2)] {
        let row = commits::row(&with_serials(day.clone(), &serials), 0);
        both_refused(&row, &late_box, 20, 14, place);
    }
    let apart = commits::row(&with_serials(day, &[7, 8, 9]), 0);
    late_box[R] = 9;
    assert_eq!(ask(&apart, &late_box, 20).0.number, 0, "windows that only touch");
}

/// 10 carries the place at which the rounds stop, which need not be that of the new entry; 9 any interval of
/// the longer list.
#[test]
fn nine_and_ten_are_the_longer_lists() {
    for (h, list, entry, wanted) in [
        (6, "w[0,6)3 p[5,6)1", "p[2,4)2", (10, [0, 0, 0])),
        (7, "w[1,7)2 p[2,4)2", "w[0,5)3", (10, [2, 0, 0])),
        (11, "w[0,11)2 w[0,11)2 w[5,6)1 w[0,11)4", "w[0,7)2", (10, [1, 0, 0])),
        (9, "p[0,3)2 p[6,9)3", "p[6,9)1", (9, [6, 9, 4])),
        (9, "p[0,3)2 p[6,9)3", "p[0,3)2", (9, [0, 3, 4])),
        (9, "p[0,3)2 p[6,9)3", "p[0,9)5", (9, [0, 9, 10])),
    ] {
        let mut row = made(&boxes(h, list));
        for answer in [ask(&row, &late(entry), h.into()).0, commit(&mut row, &late(entry), 0, h.into()).0] {
            assert_eq!((answer.number, answer.values), (wanted.0, wanted.1), "{list}, then {entry}");
        }
        assert_eq!((row[1], row[STAMP]), (boxes(h, list).entries.len() as u32, 0));
        assert_eq!(row[flat::at(row[1] as usize)..][..7], [0; 7]);
    }
}
