//! Rows of another length than a list's: the overload test and the schedule refuse them as 100, carrying 451, before
//! all else.

use dock_tests::abi;
use dock_tests::flat;
use dock_tests::rows;
use dock_tests::samples::{boxes, plan};

#[test]
fn the_overload_test_refuses_a_row_of_another_length() {
    for row in rows::wrong() {
        assert_eq!(abi::overload(&row), rows::refused(), "{} numbers", row.len());
    }
}

/// A value's own rows, 11 and 9 stand behind it.
#[test]
fn the_schedule_refuses_a_row_of_another_length() {
    for row in rows::wrong() {
        for room in [0, 5, 12, 2_000] {
            let (answer, out) = abi::schedule(&row, room);
            assert_eq!(answer, rows::refused(), "{} numbers in {room} bytes", row.len());
            assert!(out == abi::untouched_bytes(room), "bytes written for {} numbers", row.len());
        }
    }
}

#[test]
fn every_length_of_a_row() {
    let list = flat::of_day(&boxes(6, "p[1,6)2 p[0,6)3"));
    for numbers in 0..=1_000 {
        let row = rows::of_length(&list, numbers);
        let (answer, out) = abi::schedule(&row, 6);
        if numbers == 451 {
            assert_eq!(abi::overload(&row).number, 0);
            assert_eq!((answer.number, out), (0, plan("1 1 1 0 0 -")));
        } else {
            assert_eq!(abi::overload(&row), rows::refused(), "{numbers} numbers");
            assert_eq!((answer, out), (rows::refused(), abi::untouched_bytes(6)), "{numbers} numbers");
        }
    }
}
