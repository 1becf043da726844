//! Rows of another length than a list's: the search refuses them as 100, carrying 451, before all else, the given one as
//! well as the lent one, and writes to nothing that is lent.

use dock_tests::abi::{self, Answer, SearchLent};
use dock_tests::flat::{self, SIZE};
use dock_tests::rows::{self, WRONG};
use dock_tests::samples::boxes;

/// Searches with `room` bytes and `numbers` numbers lent, all of which must stay as they were.
#[track_caller]
fn stays(given: &[u32], limit: u32, room: usize, numbers: usize) -> Answer {
    let SearchLent { mut plan, mut starts, .. } = SearchLent::untouched(room);
    let answer = rows::stays(numbers, |narrowed| {
        abi::unbroken_lending(given, limit, (&mut plan, narrowed, &mut starts))
    });
    let before = SearchLent::untouched(room);
    assert!(plan == before.plan && starts == before.starts, "written beside a refusal");
    answer
}

#[test]
fn a_given_row_of_another_length() {
    for row in rows::wrong() {
        for (limit, room) in [(0, 0), (0, 12), (u32::MAX, 5), (u32::MAX, 2_000)] {
            let answer = stays(&row, limit, room, SIZE);
            assert_eq!(answer, rows::refused(), "{} numbers in {room} bytes", row.len());
        }
    }
}

#[test]
fn a_lent_row_of_another_length() {
    for fields in rows::lists() {
        for numbers in WRONG {
            for (limit, room) in [(0, 0), (0, 12), (u32::MAX, 5), (u32::MAX, 2_000)] {
                let answer = stays(&fields, limit, room, numbers);
                assert_eq!(answer, rows::refused(), "lent {numbers} numbers, {room} bytes");
            }
        }
    }
}

#[test]
fn both_rows_of_another_length() {
    for row in rows::wrong() {
        for numbers in [0, 450, row.len()] {
            assert_eq!(stays(&row, 7, 12, numbers), rows::refused(), "{} numbers, lent {numbers}", row.len());
        }
    }
}

#[test]
fn every_length_of_either_row() {
    let list = flat::of_day(&boxes(4, "w[0,3)2 w[0,4)2"));
    for numbers in (0..=1_000).filter(|&numbers| numbers != 451) {
        assert_eq!(stays(&list, 2, 4, numbers), rows::refused(), "lent {numbers} numbers");
        assert_eq!(stays(&rows::of_length(&list, numbers), 2, 4, SIZE), rows::refused(), "{numbers} numbers");
    }
    let (answer, lent) = abi::unbroken(&list, 2, 4);
    assert_eq!((answer.number, answer.values), (0, [2, 1, 2]), "451 numbers, lent 451");
    assert_eq!(lent.narrowed[..3], [4, 2, 0]);
}
