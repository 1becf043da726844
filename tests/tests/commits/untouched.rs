//! "A refusal writes nothing to any lent buffer": beside each refusal the day's row, the plan, the narrowed
//! list and the bounds keep every number, whatever stands in them. An ask never writes to the day.

use crate::late;
use dock_tests::abi::{self, DayCall, Lent};
use dock_tests::commits::{self, Row, STAMP};
use dock_tests::flat::{self, Numbers};
use dock_tests::ignored::contents;
use dock_tests::samples::{boxes, plan};
use std::collections::BTreeSet;

/// A day of 12 minutes that is refused, with what is asked or committed, the bytes lent, and the number.
struct Case {
    call: DayCall,
    row: Row,
    entry: Numbers,
    room: usize,
    number: u64,
}

/// A day of three boxes with stamp 5, some numbers for a yes that are not 1, a number beside a missing seal,
/// and noise behind the list.
fn odd_day() -> Row {
    let mut row = commits::row(&boxes(12, "p[0,12)4 w[2,8)3 p[3,6)2"), 5);
    (row[4], row[5], row[16]) = (0, 77, 9);
    (row[11], row[12], row[18]) = (256, 88, u32::MAX);
    (24..STAMP).for_each(|at| row[at] = 0xABCD_0000 + at as u32);
    row
}

/// The same day with this number there.
fn odd_day_with(at: usize, number: u32) -> Row {
    let mut row = odd_day();
    row[at] = number;
    row
}

/// A case for each refusal but 100, by both calls.
fn cases() -> Vec<Case> {
    let right = late("w[6,12)2");
    let clash = Numbers::from([101, 0, 0, 6, 12, 1, 0]);
    let first_p = flat::at(0) + 5;
    let listed = [
        (odd_day_with(1, 64), right, 12, 18),
        (odd_day_with(1, 70_000), right, 12, 18),
        (odd_day_with(0, 0), right, 12, 2),
        (odd_day_with(0, 70_000), right, 12, 2),
        (odd_day_with(2, 12), right, 12, 15),
        (odd_day_with(2, 70_000), right, 12, 15),
        (odd_day_with(2, 1), right, 12, 16),
        (odd_day_with(first_p, 0), right, 12, 6),
        (odd_day(), late("p[6,12)0"), 12, 6),
        (odd_day_with(first_p, 70_000), right, 12, 7),
        (odd_day(), late("p[6,13)1"), 12, 7),
        (odd_day_with(flat::at(1), 101), right, 12, 14),
        (odd_day(), clash, 12, 14),
        (odd_day(), right, 11, 11),
        (odd_day(), right, 0, 11),
        (odd_day(), late("p[0,12)4"), 12, 9),
        (odd_day(), late("w[1,10)3"), 12, 10),
    ];
    let both = [DayCall::Ask, DayCall::Commit(5)];
    let both = both.into_iter().flat_map(|call| listed.map(|listed| (call, listed)));
    let stale = [0, 4, 6, 65_541, u64::MAX].map(|stamp| (DayCall::Commit(stamp), (odd_day(), right, 12, 17)));
    both.chain(stale)
        .map(|(call, (row, entry, room, number))| Case { call, row, entry, room, number })
        .collect()
}

#[test]
fn each_refusal_leaves_every_number_as_it_was() {
    let mut seen = BTreeSet::new();
    for Case { call, row, entry, room, number } in cases() {
        for before in contents(room) {
            let (mut day, mut lent) = (row, before.clone());
            let answer = abi::call_day(call, &mut day, &entry, &mut lent);
            assert_eq!(answer.number, number, "{call:?} of {entry:?}, {:?}", &row[..24]);
            assert!(day == row, "the day is changed by {number}, {call:?}");
            assert!(lent == before, "a buffer is changed by {number}, {call:?}");
        }
        seen.insert((call == DayCall::Ask, number));
    }
    let numbers = [2, 6, 7, 9, 10, 11, 14, 15, 16, 18];
    let wanted = [true, false].into_iter().flat_map(|ask| numbers.map(|number| (ask, number)));
    assert_eq!(seen, wanted.chain([(false, 17)]).collect());
}

/// 100 too, of each of the three rows.
#[test]
fn a_row_of_the_wrong_length_leaves_every_number_as_it_was() {
    let (long_day, right) = ([&odd_day()[..], &[7]].concat(), late("w[6,12)2"));
    for (row, entry, numbers, carries) in [
        (&long_day[..], &right[..], 451, 452),
        (&odd_day(), &right[..6], 451, 7),
        (&odd_day(), &right, 450, 451),
    ] {
        for call in [DayCall::Ask, DayCall::Commit(5), DayCall::Commit(6)] {
            for Lent { plan, narrowed, bounds } in contents(12) {
                let mut day = row.to_vec();
                let (mut lent, mut short, mut told) = (plan.clone(), narrowed[..numbers].to_vec(), bounds);
                let answer = abi::call_day_lending(call, &mut day, entry, &mut lent, &mut short, &mut told);
                assert_eq!((answer.number, answer.values), (100, [carries, 0, 0]), "{call:?}");
                assert!(day == row && lent == plan, "changed by 100, {call:?}");
                assert!(short == narrowed[..numbers] && told == bounds, "changed by 100, {call:?}");
            }
        }
    }
}

/// All refusals again, with a stamp that is too large for its field.
#[test]
fn a_stamp_that_is_too_large_stays_beside_a_refusal() {
    for Case { call, mut row, entry, room, number } in cases() {
        row[STAMP] = 70_000;
        let call = match call {
            DayCall::Commit(5) => DayCall::Commit(65_535),
            other => other,
        };
        let (mut day, mut lent) = (row, Lent::untouched(room));
        assert_eq!(abi::call_day(call, &mut day, &entry, &mut lent).number, number, "{call:?}");
        assert!(day == row && lent == Lent::untouched(room), "changed by {number}, {call:?}");
    }
}

/// An ask that is answered leaves the day with all its odd numbers; a commit stores the longer list in their
/// place.
#[test]
fn only_a_commit_with_success_writes_to_the_day() {
    let row = odd_day();
    let (mut day, mut lent) = (row, Lent::untouched(12));
    let answer = abi::call_day(DayCall::Ask, &mut day, &late("p[6,12)2"), &mut lent);
    assert_eq!((answer.number, answer.values), (0, [1, 0, 5]));
    assert!(day == row, "an ask writes to the day");
    let answer = abi::call_day(DayCall::Commit(5), &mut day, &late("p[6,12)2"), &mut lent);
    assert_eq!((answer.number, answer.values), (0, [1, 0, 6]));
    assert_eq!(day[..3], [12, 4, 0]);
    assert_eq!(day[3..10], [101, 0, 0, 0, 12, 4, 0]);
    assert_eq!(day[10..17], [102, 1, 88, 2, 8, 3, 1]);
    assert_eq!(day[17..24], [103, 1, 0, 3, 6, 2, 0]);
    assert_eq!(day[24..31], [201, 0, 0, 6, 12, 2, 0]);
    assert!(day[31..STAMP].iter().all(|&number| number == 0), "zeros after the list");
    assert_eq!(day[STAMP], 6);
}

/// "In a longer buffer the bytes after H keep their values", any byte.
#[test]
fn any_byte_after_h_is_kept() {
    let row = commits::row(&boxes(6, "p[1,5)2"), 0);
    for call in [DayCall::Ask, DayCall::Commit(0)] {
        for byte in 0..=u8::MAX {
            let (mut day, mut lent) = (row, Lent { plan: vec![byte; 9], ..Lent::untouched(0) });
            assert_eq!(abi::call_day(call, &mut day, &late("p[0,6)3"), &mut lent).number, 0);
            assert_eq!(lent.plan, [plan("1 0 0 1 1 -"), vec![byte; 3]].concat(), "{call:?} over {byte}");
        }
    }
}

/// Of a buffer of 256 bytes or more, and of 65,536 or more, the whole length counts.
#[test]
fn a_buffer_is_not_measured_by_its_lowest_bytes() {
    let row = commits::row(&boxes(300, "p[10,20)3"), 0);
    for (room, number) in [(0, 11), (256, 11), (299, 11), (300, 0), (512, 0), (65_536, 0), (65_541, 0)] {
        for call in [DayCall::Ask, DayCall::Commit(0)] {
            let (mut day, mut lent) = (row, Lent::untouched(room));
            let answer = abi::call_day(call, &mut day, &late("w[15,40)3"), &mut lent);
            assert_eq!(answer.number, number, "{call:?} in {room} bytes");
            assert_eq!(day == row, number != 0 || call == DayCall::Ask, "{call:?} in {room} bytes");
        }
    }
}
