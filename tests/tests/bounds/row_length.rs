//! Rows of another length than a list's: the calls that plan refuse them as 100, carrying 451, before all else, the given
//! one as well as the lent one, and write to nothing that is lent.

use dock_tests::abi::{self, Answer, Call, Lent};
use dock_tests::flat::{self, SIZE};
use dock_tests::rows::{self, WRONG};
use dock_tests::samples::boxes;

/// Planning, and both plans of a place that lists have and of one that none has.
const CALLS: [Call; 5] =
    [Call::Plan, Call::Early(0), Call::Late(0), Call::Early(u64::MAX), Call::Late(u64::MAX)];

/// Makes a call with `room` bytes and `numbers` numbers lent, all of which must stay as they were.
#[track_caller]
fn stays(call: Call, given: &[u32], room: usize, numbers: usize) -> Answer {
    let Lent { mut plan, mut bounds, .. } = Lent::untouched(room);
    let answer =
        rows::stays(numbers, |narrowed| abi::ask_lending(call, given, &mut plan, narrowed, &mut bounds));
    let before = Lent::untouched(room);
    assert!(plan == before.plan && bounds == before.bounds, "{call:?} writes beside a refusal");
    answer
}

#[test]
fn a_given_row_of_another_length() {
    for row in rows::wrong() {
        for call in CALLS {
            for room in [0, 5, 12, 2_000] {
                let answer = stays(call, &row, room, SIZE);
                assert_eq!(answer, rows::refused(), "{call:?} of {} numbers in {room} bytes", row.len());
            }
        }
    }
}

#[test]
fn a_lent_row_of_another_length() {
    for fields in rows::lists() {
        for (call, numbers) in CALLS.into_iter().flat_map(|call| WRONG.map(|numbers| (call, numbers))) {
            for room in [0, 5, 12, 2_000] {
                let answer = stays(call, &fields, room, numbers);
                assert_eq!(answer, rows::refused(), "{call:?} lent {numbers} numbers, {room} bytes");
            }
        }
    }
}

#[test]
fn both_rows_of_another_length() {
    for row in rows::wrong() {
        for (call, numbers) in
            CALLS.into_iter().flat_map(|call| [0, 450, row.len()].map(|numbers| (call, numbers)))
        {
            let answer = stays(call, &row, 12, numbers);
            assert_eq!(answer, rows::refused(), "{call:?} of {} numbers, lent {numbers}", row.len());
        }
    }
}

#[test]
fn every_length_of_either_row() {
    let list = flat::of_day(&boxes(4, "w[0,3)2 w[0,4)2"));
    for call in [Call::Plan, Call::Early(1), Call::Late(1)] {
        for numbers in (0..=1_000).filter(|&numbers| numbers != 451) {
            assert_eq!(stays(call, &list, 4, numbers), rows::refused(), "{call:?} lent {numbers} numbers");
            let given = rows::of_length(&list, numbers);
            assert_eq!(stays(call, &given, 4, SIZE), rows::refused(), "{call:?} of {numbers} numbers");
        }
        let (answer, lent) = abi::ask(call, &list, 4);
        assert_eq!((answer.number, answer.values[0]), (0, 2), "{call:?} of 451 numbers, lent 451");
        assert_eq!(lent.narrowed[..3], [4, 2, 0]);
    }
}
