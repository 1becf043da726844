//! Rows of another length than a list's: narrowing refuses them as 100, carrying 451, before all else, the given one as
//! well as the lent one.

use dock_tests::abi;
use dock_tests::flat::{self, SIZE};
use dock_tests::rows::{self, WRONG};
use dock_tests::samples::boxes;

#[test]
fn a_given_row_of_another_length() {
    for row in rows::wrong() {
        let answer = rows::stays(SIZE, |narrowed| abi::settle_into(&row, narrowed));
        assert_eq!(answer, rows::refused(), "{} numbers", row.len());
    }
}

#[test]
fn a_lent_row_of_another_length() {
    for fields in rows::lists() {
        for numbers in WRONG {
            let answer = rows::stays(numbers, |narrowed| abi::settle_into(&fields, narrowed));
            assert_eq!(answer, rows::refused(), "{numbers} numbers for {:?}", &fields[..flat::at(1)]);
        }
    }
}

#[test]
fn both_rows_of_another_length() {
    for row in rows::wrong() {
        for numbers in [WRONG[0], row.len(), 450] {
            let answer = rows::stays(numbers, |narrowed| abi::settle_into(&row, narrowed));
            assert_eq!(answer, rows::refused(), "{} and {numbers} numbers", row.len());
        }
    }
}

#[test]
fn every_length_of_either_row() {
    let list = flat::of_day(&boxes(4, "w[0,3)2 w[0,4)2"));
    for numbers in 0..=1_000 {
        let mut narrowed = vec![7; numbers];
        let answer = abi::settle_into(&list, &mut narrowed);
        if numbers == 451 {
            assert_eq!((answer.number, answer.values), (0, [2, 0, 0]));
            assert_eq!(narrowed[..3], [4, 2, 0]);
            continue;
        }
        assert_eq!(answer, rows::refused(), "{numbers} numbers lent");
        assert!(narrowed.iter().all(|&number| number == 7), "{numbers} numbers lent");
        let given = rows::of_length(&list, numbers);
        let answer = rows::stays(SIZE, |narrowed| abi::settle_into(&given, narrowed));
        assert_eq!(answer, rows::refused(), "{numbers} numbers given");
    }
}
