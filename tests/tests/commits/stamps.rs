//! The stamp of a day, of any day that is handed in: the stamp handed to a commit may be any number, and only
//! the day's own is not refused. "(at 65,535, never reached from fresh, it stays)"

use crate::late;
use dock_tests::abi::DayCall;
use dock_tests::check_commits::{ask, both_refused, commit, refused};
use dock_tests::commits::{self, Row, STAMP};
use dock_tests::flat::{self, Numbers};
use dock_tests::samples::{boxes, one_box};

/// A day of 12 minutes and three boxes with this number as its stamp.
fn day(stamp: u32) -> Row {
    commits::row(&boxes(12, "p[0,12)4 w[2,8)3 p[3,6)2"), stamp)
}

/// A box that has a place there.
fn right() -> Numbers {
    late("w[6,12)2")
}

/// Other numbers than this stamp: near it, or the same in their lower 8, 16 or 32 bits.
fn others(stamp: u64) -> impl Iterator<Item = u64> {
    let near = [0, 1, 2, 64, 255, 256, 65_534, 65_535, 65_536, 65_537, 131_071, 1 << 32, 1 << 63, u64::MAX];
    let alike = [8, 16, 17, 31, 32, 33, 48, 63].map(|bit| stamp ^ 1 << bit);
    let near = near.into_iter().chain([stamp + 1, stamp.wrapping_sub(1), !stamp]);
    near.chain(alike).filter(move |&other| other != stamp)
}

/// Some stamps, each against many other numbers.
#[test]
fn a_stamp_that_is_not_the_days_is_17() {
    for stamp in [0, 1, 2, 63, 64, 65, 255, 256, 257, 32_768, 65_534, 65_535] {
        for other in others(stamp.into()) {
            refused(DayCall::Commit(other), &day(stamp), &right(), 12, 17, stamp.into());
        }
        let mut row = day(stamp);
        let (answer, _) = commit(&mut row, &right(), stamp.into(), 12);
        let next = u64::from(stamp + 1).min(65_535);
        assert_eq!((answer.number, answer.values), (0, [2, 0, next]), "stamp {stamp}");
    }
}

/// All stamps from 0 to 100, each of them for each of these days.
#[test]
fn only_the_days_stamp_passes() {
    for stamp in 0..=100 {
        for other in 0..=100 {
            let mut row = day(stamp);
            let (answer, _) = commit(&mut row, &right(), other.into(), 12);
            assert_eq!(answer.number, if other == stamp { 0 } else { 17 }, "{other} for {stamp}");
        }
    }
}

/// 65,536 and the stamp would be the stamp again if 16 bits of it were taken.
#[test]
fn more_than_16_bits_of_a_stamp_count() {
    for stamp in [0, 5, 65_535] {
        for more in [65_536, 131_072, 1 << 32, 1 << 48, u64::MAX - 65_535] {
            refused(DayCall::Commit(more + u64::from(stamp)), &day(stamp), &right(), 12, 17, stamp.into());
        }
    }
}

#[test]
fn a_success_is_one_more_up_to_65535() {
    for (stamp, next) in
        [(0, 1), (254, 255), (255, 256), (65_533, 65_534), (65_534, 65_535), (65_535, 65_535)]
    {
        let mut row = day(stamp);
        assert_eq!(commit(&mut row, &right(), stamp.into(), 12).0.values, [2, 0, u64::from(next)]);
        assert_eq!((row[1], row[STAMP]), (4, next));
    }
}

/// At 65,535 a success appends and the stamp stays, so that the same stamp passes again.
#[test]
fn at_65535_one_stamp_passes_twice() {
    let mut row = day(65_535);
    assert_eq!(ask(&row, &right(), 12).0.values, [2, 0, 65_535]);
    for (serial, n) in [(301, 4), (302, 5)] {
        let entry = flat::numbers(&one_box(serial, "p[0,12)1"));
        let (answer, _) = commit(&mut row, &entry, 65_535, 12);
        assert_eq!((answer.number, answer.values[2]), (0, 65_535));
        assert_eq!((row[1], row[STAMP]), (n, 65_535));
        assert_eq!(row[flat::at(n as usize - 1)], serial);
    }
    both_refused(&row, &late("p[0,12)2"), 11, 11, 12);
    refused(DayCall::Commit(65_536), &row, &late("p[0,12)1"), 12, 17, 65_535);
}

/// A number too large for a stamp counts as 65,535, for asks, commits and refusals. A refusal leaves it as it
/// is, and a success stores 65,535.
#[test]
fn a_stamp_over_65535_in_the_row_counts_as_65535() {
    for number in [65_536, 65_537, 65_536 + 300, 131_071, 1 << 31, u32::MAX] {
        let row = day(number);
        assert_eq!(ask(&row, &right(), 12).0.values, [2, 0, 65_535], "{number}");
        for stamp in [0, 1, 300, 65_534, 65_536, u64::from(number)] {
            refused(DayCall::Commit(stamp), &row, &right(), 12, 17, 65_535);
        }
        let mut full = row;
        full[1] = 64;
        both_refused(&full, &right(), 12, 18, 65_535);
        both_refused(&row, &late("p[0,12)0"), 12, 6, 3);
        let mut longer = row;
        let (answer, _) = commit(&mut longer, &right(), 65_535, 12);
        assert_eq!((answer.number, answer.values), (0, [2, 0, 65_535]), "{number}");
        assert_eq!((longer[1], longer[STAMP]), (4, 65_535));
    }
}

/// The stamp is no part of the list: whatever it is, the longer list is the same.
#[test]
fn the_stamp_is_none_of_the_lists_numbers() {
    let mut lists = vec![];
    for stamp in [0, 1, 3, 12, 64, 101, 65_535] {
        let mut row = day(stamp);
        assert_eq!(commit(&mut row, &right(), stamp.into(), 12).0.number, 0);
        lists.push(row[..STAMP].to_vec());
    }
    assert!(lists.iter().all(|list| *list == lists[0]));
}
