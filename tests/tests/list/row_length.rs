//! Rows of another length than a list's: reading and writing refuse them as 100, carrying 451, before all else.

use dock_tests::rows::{self, WRONG};
use dock_tests::samples::{self, hex};
use dock_tests::{abi, check, flat};

/// Inputs of every kind: accepted ones, and one for each refusal of reading.
fn inputs() -> Vec<Vec<u8>> {
    let refused = [
        "",
        "64",
        "00 00 00",
        "64 00 41",
        "64 00 80",
        "64 00 80 00 00",
        "64 00 01",
        "64 00 01 | 51 09000000 0100",
        "64 00 01 | 15 09000000 0000 0100",
        "64 00 81 07 00 | 15 09000000 0600 0100",
        "64 00 01 | 11 09000000 0000",
        "64 00 01 | 11 09000000 6500",
        "64 00 00 | 00",
        "64 00 02 | 11 09000000 0100 | 11 09000000 0100",
    ];
    let accepted = [samples::inputs(), samples::opened_inputs()].concat();
    accepted.into_iter().chain(refused.map(hex)).collect()
}

#[test]
fn a_lent_row_of_another_length_is_100_whatever_the_input_is() {
    for bytes in inputs() {
        for numbers in WRONG {
            let answer = rows::stays(numbers, |row| abi::read_into(&bytes, row));
            assert_eq!(answer, rows::refused(), "{numbers} numbers for {bytes:02X?}");
        }
    }
}

/// Each length around the one that is right.
#[test]
fn every_length_of_a_lent_row() {
    for numbers in 0..=1_000 {
        let mut row = vec![7; numbers];
        let answer = abi::read_into(&samples::document(), &mut row);
        if numbers == 451 {
            assert_eq!((answer.number, &row[..3]), (0, &[12, 3, 0][..]));
        } else {
            assert_eq!(answer, rows::refused(), "{numbers} numbers");
            assert!(row.iter().all(|&number| number == 7), "{numbers} numbers");
        }
    }
}

#[test]
fn a_given_row_of_another_length_is_100_whatever_it_says() {
    for row in rows::wrong() {
        for room in [0, 3, 5, 12, 1_000] {
            let (answer, out) = abi::write(&row, room);
            assert_eq!(answer, rows::refused(), "{} numbers in {room} bytes", row.len());
            assert!(out == abi::untouched_bytes(room), "bytes written for {} numbers", row.len());
        }
    }
}

/// Each length around the one that is right: a list of which only that many numbers are given, or with zeros after it.
#[test]
fn every_length_of_a_given_row() {
    let list = flat::of_day(&check::accepted(&samples::document()));
    for numbers in 0..=1_000 {
        let (answer, out) = abi::write(&rows::of_length(&list, numbers), 40);
        if numbers == 451 {
            assert_eq!((answer.number, out), (0, samples::document()));
        } else {
            assert_eq!((answer, out), (rows::refused(), abi::untouched_bytes(40)), "{numbers} numbers");
        }
    }
}

/// The former layout would be misread: its first serial stands where the opening minute is, and place 0, which is pause,
/// would have that 0 for its p.
#[test]
fn the_former_layout_is_refused() {
    let mut list = flat::of_day(&check::accepted(&samples::document()));
    list[flat::at(0)] = 7;
    let former = rows::former(&list);
    assert_eq!((former.len(), former[flat::OPENING]), (450, 7));
    assert_eq!(abi::write(&former, 1_000).0, rows::refused());
    let misread: Vec<u32> = [&former[..], &[0]].concat();
    check::not_written(misread.as_slice().try_into().expect("451 numbers"), 1_000, 6, 0);
}

/// The same twice over: two lists in one row are none.
#[test]
fn two_lists_in_one_row_are_refused() {
    let list = flat::of_day(&check::accepted(&samples::document()));
    let both = [list, list].concat();
    assert_eq!(abi::write(&both, 1_000), (rows::refused(), abi::untouched_bytes(1_000)));
}
