//! Rows of the wrong length, which are refused as 100 before all else, with the right length: a fresh day
//! tests the list's row, then the day's; asks and commits test the day's row, then the entry's, then the one
//! for the narrowed list.

use crate::late;
use dock_tests::abi::{self, Answer, DayCall, Lent};
use dock_tests::check_commits::made;
use dock_tests::commits::{self, STAMP};
use dock_tests::flat::{self, WIDTH};
use dock_tests::rows::{self, of_length, WRONG};
use dock_tests::samples::boxes;

/// The numbers of a stamped day.
const DAY: usize = 452;

/// What is answered to a row that must have so many numbers.
fn wrong_length(numbers: usize) -> Answer {
    Answer { number: 100, values: [numbers as u64, 0, 0] }
}

#[test]
fn the_right_lengths() {
    assert_eq!((commits::SIZE, STAMP, flat::SIZE, WIDTH), (DAY, 451, 451, 7));
}

#[test]
fn a_fresh_day_of_a_row_of_another_length() {
    for row in rows::wrong() {
        for numbers in [0, 451, DAY, 453] {
            let answer = rows::stays(numbers, |day| abi::fresh(&row, day));
            assert_eq!(answer, wrong_length(451), "{} numbers, lent {numbers}", row.len());
        }
    }
}

#[test]
fn a_fresh_day_in_a_row_of_another_length() {
    for fields in rows::lists() {
        for numbers in WRONG.into_iter().filter(|&numbers| numbers != DAY).chain([451, 453, 904]) {
            let answer = rows::stays(numbers, |day| abi::fresh(&fields, day));
            assert_eq!(answer, wrong_length(DAY), "lent {numbers}");
        }
    }
}

#[test]
fn every_length_of_either_row_of_a_fresh_day() {
    let list = flat::of_day(&boxes(4, "w[0,3)2 w[0,4)2"));
    for numbers in 0..=1_000 {
        if numbers != 451 {
            let given = of_length(&list, numbers);
            assert_eq!(rows::stays(DAY, |day| abi::fresh(&given, day)), wrong_length(451), "{numbers}");
        }
        if numbers != DAY {
            assert_eq!(rows::stays(numbers, |day| abi::fresh(&list, day)), wrong_length(DAY), "{numbers}");
        }
    }
    let mut row = abi::untouched_day();
    assert_eq!(abi::fresh(&list, &mut row), Answer { number: 0, values: [0; 3] });
}

/// Makes a call with these rows, `room` bytes and `numbers` numbers lent, all of which must stay as they
/// were.
#[track_caller]
fn stays(call: DayCall, day: &[u32], entry: &[u32], room: usize, numbers: usize) -> Answer {
    let mut kept = day.to_vec();
    let Lent { mut plan, mut bounds, .. } = Lent::untouched(room);
    let answer = rows::stays(numbers, |narrowed| {
        abi::call_day_lending(call, &mut kept, entry, &mut plan, narrowed, &mut bounds)
    });
    let before = Lent::untouched(room);
    assert!(kept == day, "{call:?} writes to the day beside a refusal");
    assert!(plan == before.plan && bounds == before.bounds, "{call:?} writes beside a refusal");
    answer
}

/// Days that would be longer, that are full, and that no list makes; each with the stamp 3.
fn days() -> Vec<Vec<u32>> {
    let right = commits::row(&boxes(12, "p[0,12)4 w[2,8)3 p[3,6)2"), 3);
    let (mut full, mut wrong) = (right, right);
    full[1] = 64;
    (wrong[0], wrong[1]) = (0, 255);
    [right, full, wrong].map(|row| row.to_vec()).to_vec()
}

/// Asking, committing with the day's stamp, and with others.
const CALLS: [DayCall; 4] = [DayCall::Ask, DayCall::Commit(3), DayCall::Commit(0), DayCall::Commit(u64::MAX)];

/// Lengths of the day's row, the entry's row and the one for the narrowed list, each right or wrong whatever
/// the others are, and what is then told: the right length of the first one that is wrong.
fn lengths() -> Vec<([usize; 3], usize)> {
    let days = [DAY, 0, 451, 453];
    let entries = days.into_iter().flat_map(|day| [WIDTH, 0, 6, 8, DAY].map(|entry| [day, entry]));
    let all = entries.flat_map(|[day, entry]| [451, 0, 450, DAY].map(|lent| [day, entry, lent]));
    let told = |lengths: [usize; 3]| {
        let wrong = lengths.into_iter().zip([DAY, WIDTH, 451]).find(|(length, right)| length != right);
        wrong.map(|(_, right)| (lengths, right))
    };
    all.filter_map(told).collect()
}

#[test]
fn the_first_row_of_the_wrong_length_is_told() {
    assert_eq!(lengths().len(), 4 * 5 * 4 - 1);
    for (day, ([numbers, entry, lent], right)) in
        days().iter().flat_map(|day| lengths().into_iter().map(move |lengths| (day, lengths)))
    {
        let (day, late_box) = (of_length(day, numbers), of_length(&late("p[6,12)1"), entry));
        for (call, room) in CALLS.into_iter().flat_map(|call| [(call, 0), (call, 12)]) {
            let answer = stays(call, &day, &late_box, room, lent);
            assert_eq!(answer, wrong_length(right), "{call:?}, lengths {numbers}, {entry}, {lent}");
        }
    }
}

#[test]
fn every_length_of_each_row() {
    let (day, entry) = (&days()[0], late("p[6,12)1"));
    for call in [DayCall::Ask, DayCall::Commit(3)] {
        for numbers in 0..=1_000 {
            if numbers != DAY {
                let answer = stays(call, &of_length(day, numbers), &entry, 12, 451);
                assert_eq!(answer, wrong_length(DAY), "{call:?} of a day of {numbers} numbers");
            }
            if numbers != WIDTH {
                let answer = stays(call, day, &of_length(&entry, numbers), 12, 451);
                assert_eq!(answer, wrong_length(WIDTH), "{call:?} of an entry of {numbers} numbers");
            }
            if numbers != 451 {
                let answer = stays(call, day, &entry, 12, numbers);
                assert_eq!(answer, wrong_length(451), "{call:?} lent {numbers} numbers");
            }
        }
    }
}

/// With rows of the right lengths the same calls are answered.
#[test]
fn rows_of_the_right_lengths() {
    let mut day = days().remove(0);
    for (call, stamp) in [(DayCall::Ask, 3), (DayCall::Commit(3), 4)] {
        let answer = abi::call_day(call, &mut day, &late("p[6,12)1"), &mut Lent::untouched(12));
        assert_eq!((answer.number, answer.values), (0, [1, 0, stamp]), "{call:?}");
    }
    assert_eq!((day[1], day[STAMP]), (4, 4));
}

/// A list's row is no day's, and a day's is no list's: the stamp must stand or may not stand.
#[test]
fn a_lists_row_and_a_days_row_are_not_the_same() {
    let row = made(&boxes(12, "p[0,12)4"));
    let list = &row[..STAMP];
    assert_eq!(stays(DayCall::Ask, list, &late("p[6,12)1"), 12, 451), wrong_length(DAY));
    assert_eq!(rows::stays(DAY, |day| abi::fresh(&row, day)), wrong_length(451));
}
