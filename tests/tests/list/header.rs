//! The header: its length, the day's length H, the number of entries n, in this order. What follows where bit 7 of the
//! count byte stands is the matter of opening_bytes.rs.

use dock_tests::check::{accepted, refused};
use dock_tests::day::Day;
use dock_tests::samples::{hex, list, shorts};

#[test]
fn a_short_header_comes_before_a_wrong_day() {
    refused(&hex("00"), 1, 1);
    refused(&hex("00 00"), 1, 2);
    refused(&hex("FF FF"), 1, 2);
}

/// "day length H in minutes (2 bytes, 1 to 1,440)"; `01 00 00` is document 01's (h).
#[test]
fn every_day_length() {
    for h in 0..=u16::MAX {
        let bytes = list(h, &[]);
        match h {
            1..=1440 => assert_eq!(accepted(&bytes), Day { h, opening: 0, entries: vec![] }),
            _ => refused(&bytes, 2, 0),
        }
    }
}

#[test]
fn every_number_of_entries_with_as_many_entries() {
    for n in 0..=127_u8 {
        let bytes = list(100, &shorts(n.into()));
        match n {
            0..=64 => assert_eq!(accepted(&bytes).entries.len(), usize::from(n)),
            _ => refused(&bytes, 3, 2),
        }
    }
}

#[test]
fn a_wrong_day_comes_before_too_many_entries() {
    refused(&hex("00 00 41"), 2, 0);
    refused(&hex("A1 05 FF"), 2, 0);
    refused(&hex("A0 05 41"), 3, 2);
    refused(&hex("A0 05 FF"), 3, 2);
}

#[test]
fn the_header_comes_before_the_entries() {
    refused(&hex("00 00 01 | 00"), 2, 0);
    refused(&hex("01 00 41 | 00"), 3, 2);
}

#[test]
fn the_first_of_several_bytes_left_over_is_told() {
    refused(&hex("01 00 00 | 11 22 33"), 8, 3);
}
