//! "A fresh day is made from a list that can be planned, else that list's refusal is given." No plan buffer
//! is lent, so that 11 is passed over. The day is the list's first n entries with zeros after them, and stamp
//! 0.

use dock_tests::abi::{self, Call};
use dock_tests::check::{is_refused, number};
use dock_tests::check_commits::{fresh, fresh_in, made};
use dock_tests::commits::{self, Row, SIZE, STAMP};
use dock_tests::day::{Day, LONGEST_DAY, MOST_ENTRIES};
use dock_tests::flat::{self, Fields};
use dock_tests::ignored;
use dock_tests::random::{self, Random};
use dock_tests::samples::{boxes, longest, windows};
use dock_tests::told::Told;
use dock_tests::values;

#[test]
fn wrong_values_are_refused() {
    values::refused(|fields, number, carries| is_refused(fresh(fields), number, carries));
}

#[test]
fn values_at_the_limits_make_days() {
    values::accepted(|fields| {
        let row = fresh(fields).expect("a day");
        let used = flat::at(fields[1] as usize);
        assert_eq!(row[..used], fields[..used]);
        assert!(row[used..].iter().all(|&number| number == 0), "zeros after the list, and stamp 0");
    });
}

/// 9 carries the interval shown and its work, 10 the place at which the rounds stop; 9 comes first.
#[test]
fn lists_without_a_plan_are_refused() {
    for (h, entries, wanted) in [
        (10, "p[2,5)2 p[2,5)2", (9, [2, 5, 4])),
        (4, "p[0,4)2 p[2,4)2 p[2,4)1", (9, [2, 4, 3])),
        (9, "w[0,6)3 p[2,4)2 p[7,9)2 p[8,9)1", (9, [7, 9, 3])),
        (6, "w[0,6)3 p[2,4)2", (10, [0, 0, 0])),
        (6, "p[2,4)2 w[0,6)3", (10, [1, 0, 0])),
        (7, "w[0,7)2 p[4,6)1 w[0,7)3 p[1,3)1", (10, [0, 0, 0])),
    ] {
        let refusal = fresh(&flat::of_day(&boxes(h, entries))).expect_err("no day");
        assert_eq!(refusal.code(), wanted, "{entries}");
    }
}

/// A value that is wrong in every row, mended row by row: 2, 3, 15, 16, 6, 7, 14, then 9, 10.
#[test]
fn the_rows_in_their_order() {
    let mut wrong = flat::of_day(&boxes(7, "w[1,7)3 p[3,5)2 p[0,8)0"));
    (wrong[0], wrong[1]) = (0, 65);
    (0..3).for_each(|place| wrong[flat::at(place)] = 9);
    let right = values::Mended { h: 7, opening: 1, r: 3, d: 5 };
    let mut fields = values::mended(wrong, right, |fields, number, carries| {
        is_refused(fresh(fields), number, carries);
    });
    assert_eq!(fresh(&fields).expect_err("overloaded").code(), (9, [3, 5, 3]));
    fields[flat::at(2) + 3..][..2].copy_from_slice(&[1, 2]);
    is_refused(fresh(&fields), 10, 0);
    fields[flat::at(1) + 3..][..2].copy_from_slice(&[5, 7]);
    assert_eq!(fresh(&fields), Ok(commits::with_stamp(&fields, 0)));
}

/// What a day's row may hold before: zeros, the largest numbers, a longest list with a stamp, noise.
fn rows() -> [Row; 4] {
    [[0; SIZE], [u32::MAX; SIZE], commits::row(&longest(), 77), abi::untouched_day()]
}

#[test]
fn whatever_the_row_held_the_day_is_the_same() {
    for day in
        [boxes(1, ""), boxes(4, "w[0,3)2 w[0,4)2"), Day { opening: 3, ..boxes(9, "p[3,9)2") }, longest()]
    {
        for mut row in rows() {
            assert_eq!(fresh_in(&flat::of_day(&day), &mut row), Ok(()));
            assert!(row == commits::row(&day, 0), "{day:?}");
        }
    }
}

#[test]
fn a_refusal_leaves_every_number_as_it_was() {
    let no_plan = [boxes(10, "p[2,5)2 p[2,5)2"), boxes(6, "w[0,6)3 p[2,4)2")].map(|day| flat::of_day(&day));
    let wrong = values::wrong().map(|(_, fields)| fields);
    for fields in wrong.into_iter().chain(no_plan) {
        for before in rows() {
            let mut row = before;
            assert!(fresh_in(&fields, &mut row).is_err(), "{:?}", &fields[..]);
            assert!(row == before, "changed by a refusal of {:?}", &fields[..]);
        }
    }
}

/// Noise behind the list is none of the day.
#[test]
fn from_place_n_on_there_are_zeros() {
    let mut random = Random::new(501);
    for n in [0, 1, 2, 10, 63, 64] {
        let day = windows(64, &vec![(0, 64, 1); n]);
        for fields in ignored::with_junk(&mut random, &flat::of_day(&day)) {
            let row = fresh(&fields).expect("a day");
            assert!(row == commits::row(&day, 0), "{n} entries");
            assert!(row[flat::at(n)..].iter().all(|&number| number == 0), "{n} entries");
        }
    }
}

/// Any number but 0 says that an entry is whole or has a seal, and is stored as 1; beside a missing seal 0
/// stands.
#[test]
fn a_yes_is_stored_as_1() {
    let mut fields = flat::of_day(&boxes(4, "w[0,3)2 w[0,4)2"));
    (fields[4], fields[5], fields[9]) = (5, 77, 9);
    (fields[11], fields[12], fields[16]) = (0, 88, u32::MAX);
    let row = fresh(&fields).expect("a day");
    assert_eq!(row[3..10], [101, 1, 77, 0, 3, 2, 1]);
    assert_eq!(row[10..17], [102, 0, 0, 0, 4, 2, 1]);
}

/// The day holds the windows as given: those that narrowing settles are [0, 2) and [2, 4).
#[test]
fn the_windows_stay_as_given() {
    let row = made(&boxes(4, "w[0,3)2 w[0,4)2"));
    assert_eq!((&row[6..8], &row[13..15]), (&[0, 3][..], &[0, 4][..]));
}

/// No plan buffer is lent, however long the day is.
#[test]
fn the_longest_day_and_a_full_list_need_no_buffer() {
    for day in [windows(LONGEST_DAY, &[]), boxes(LONGEST_DAY, "w[0,1440)1440"), longest()] {
        assert!(made(&day) == commits::row(&day, 0), "{day:?}");
    }
    let full = windows(64, &[(0, 64, 1); MOST_ENTRIES]);
    assert_eq!(made(&full)[1], 64);
}

/// A day is made exactly of a list that planning accepts, and a refusal is the same.
#[test]
fn a_day_is_made_exactly_of_a_list_that_is_planned() {
    let mut random = Random::new(502);
    let mut told = Told::default();
    for _ in 0..2_000 {
        let first = random::first_list(&mut random);
        let fields = flat::of_day(&random::with_doubled_serials(&mut random, first, 12));
        let (planned, _) = abi::ask(Call::Plan, &fields, LONGEST_DAY.into());
        let mut row = abi::untouched_day();
        let answer = abi::fresh(&fields, &mut row);
        let wanted = if planned.number == 0 { [0; 3] } else { planned.values };
        assert_eq!((answer.number, answer.values), (planned.number, wanted), "{:?}", &fields[..]);
        told.count(answer.number as usize);
    }
    told.more_than(20, &[0, 9, 10, 14]);
}

/// The list of a fresh day makes the same day again.
#[test]
fn a_fresh_day_made_again() {
    let mut random = Random::new(503);
    let mut found = 0;
    for _ in 0..1_000 {
        let fields = flat::of_day(&random::first_list(&mut random));
        let Ok(row) = fresh(&fields) else { continue };
        assert_eq!(row[STAMP], 0);
        assert!(fresh(&commits::list_of(&row)) == Ok(row), "{:?}", &fields[..]);
        found += 1;
    }
    assert!(found > 300, "{found} days");
}

#[test]
fn six_thousand_wild_values() {
    let told = values::wild(504, 6_000, |_, fields: &Fields| number(&fresh(fields)));
    told.more_than(40, &[0, 2, 3, 6, 7, 9, 14, 15, 16]);
    told.more_than(0, &[10]);
    told.never(&[11, 12, 13, 17, 18]);
}
