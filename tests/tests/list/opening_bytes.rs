//! The opening minute in the header: "Bit 7 of the count byte now says that two bytes with the opening minute follow the
//! header; bits 0 to 6 are n, and 3 tests those. .. If the two bytes are missing that is 1, after 3. An opening minute
//! written as 0, or one of H or more, is refused as 15 next, carrying 3".

use dock_tests::check::{accepted, refused};
use dock_tests::day::Day;
use dock_tests::samples::{hex, opened_list, shorts, Written, SHORT};

/// A day without entries in a room that opens then.
fn empty(h: u16, opening: u16) -> Day {
    Day { h, opening, entries: vec![] }
}

#[test]
fn every_count_byte_at_the_inputs_end() {
    for count in 0..=u8::MAX {
        let bytes = [100, 0, count];
        match count {
            0 => assert_eq!(accepted(&bytes), empty(100, 0)),
            1..=64 => refused(&bytes, 1, 3),    // no map byte
            128..=192 => refused(&bytes, 1, 3), // no opening minute
            65..=127 | 193..=255 => refused(&bytes, 3, 2),
        }
    }
}

/// 7 is half an opening minute, or a byte left over, or no right map byte.
#[test]
fn every_count_byte_with_one_byte_after_it() {
    for count in 0..=u8::MAX {
        let bytes = [100, 0, count, 7];
        match count {
            0 => refused(&bytes, 8, 3),
            1..=64 => refused(&bytes, 4, 3),
            128..=192 => refused(&bytes, 1, 4),
            65..=127 | 193..=255 => refused(&bytes, 3, 2),
        }
    }
}

#[test]
fn every_count_byte_with_two_bytes_after_it() {
    for count in 0..=u8::MAX {
        let bytes = [100, 0, count, 7, 0];
        match count {
            0 => refused(&bytes, 8, 3),
            1..=64 => refused(&bytes, 4, 3),
            128 => assert_eq!(accepted(&bytes), empty(100, 7)),
            129..=192 => refused(&bytes, 1, 5), // no map byte
            65..=127 | 193..=255 => refused(&bytes, 3, 2),
        }
    }
}

/// Bits 0 to 6 are n: 128 and 0 are no entries, 192 and 64 are 64, and 193 and 65 are too many.
#[test]
fn every_count_byte_with_bit_7_and_as_many_entries() {
    for n in 0..=127_u8 {
        let bytes = opened_list(100, 7, &shorts(n.into()));
        assert_eq!(bytes[2], 128 + n);
        match n {
            0..=64 => {
                let day = accepted(&bytes);
                assert_eq!((day.h, day.opening, day.entries.len()), (100, 7, n.into()));
                assert!(day.entries.iter().all(|entry| (entry.r, entry.d, entry.p) == (7, 100, 1)));
            }
            _ => refused(&bytes, 3, 2),
        }
    }
}

/// One entry more or fewer than bits 0 to 6 say.
#[test]
fn a_wrong_number_of_entries_with_bit_7() {
    for n in 0..=64_u8 {
        let mut bytes = opened_list(100, 7, &shorts(n.into()));
        let end = bytes.len();
        if n < 64 {
            bytes[2] = 128 + n + 1;
            refused(&bytes, 1, end);
        }
        if n > 0 {
            bytes[2] = 128 + n - 1;
            refused(&bytes, 8, end - 7);
        }
    }
}

/// An opening minute is one of the day's minutes but 0.
#[test]
fn every_opening_minute() {
    for h in [1, 2, 100, 255, 256, 257, 1440] {
        for opening in 0..=u16::MAX {
            let bytes = opened_list(h, opening, &[]);
            if (1..h).contains(&opening) {
                assert_eq!(accepted(&bytes), empty(h, opening));
            } else {
                refused(&bytes, 15, 3);
            }
        }
    }
}

#[test]
fn opening_minutes_at_the_edges_of_every_day() {
    for h in 1..=1440 {
        for opening in [0, h, h + 1, u16::MAX] {
            refused(&opened_list(h, opening, &[]), 15, 3);
        }
        for opening in [1, h - 1] {
            match h {
                1 => refused(&opened_list(h, opening, &[]), 15, 3),
                _ => assert_eq!(accepted(&opened_list(h, opening, &[])), empty(h, opening)),
            }
        }
    }
}

/// A day of one minute has no minute after 0 to open at.
#[test]
fn in_a_day_of_one_minute_every_opening_minute_is_15() {
    for opening in [0, 1, 2, 255, 256, 65_535] {
        refused(&opened_list(1, opening, &[]), 15, 3);
        refused(&opened_list(1, opening, &[SHORT]), 15, 3);
    }
}

#[test]
fn the_lowest_byte_stands_first() {
    assert_eq!(accepted(&hex("A0 05 80 02 01")), empty(1440, 258));
    assert_eq!(accepted(&hex("A0 05 80 00 01")), empty(1440, 256));
    assert_eq!(accepted(&hex("A0 05 80 01 00")), empty(1440, 1));
    refused(&hex("A0 05 80 01 06"), 15, 3);
}

#[test]
fn a_wrong_day_comes_before_all_that_bit_7_brings() {
    for day in ["00 00", "A1 05", "FF FF"] {
        for rest in ["80", "C1", "80 00", "80 00 00", "80 07 00", "C1 00 00", "FF FF FF"] {
            refused(&hex(&format!("{day} {rest}")), 2, 0);
        }
    }
    refused(&hex("00 00"), 1, 2);
}

/// 3 stands before the missing bytes and before 15: 193 is 65 entries and bit 7.
#[test]
fn too_many_entries_come_before_the_opening_minute() {
    for rest in ["", "00", "07", "00 00", "64 00", "07 00", "FF FF", "07 00 11 09000000 0100"] {
        for count in ["C1", "C2", "FF"] {
            refused(&hex(&format!("64 00 {count} {rest}")), 3, 2);
        }
    }
}

/// Whatever the byte is that stands: 0, or more than half of what H has.
#[test]
fn a_missing_byte_of_the_opening_minute_comes_before_15() {
    for count in ["80", "81", "C0"] {
        refused(&hex(&format!("64 00 {count}")), 1, 3);
        for byte in ["00", "07", "64", "FF"] {
            refused(&hex(&format!("64 00 {count} {byte}")), 1, 4);
            refused(&hex(&format!("01 00 {count} {byte}")), 1, 4);
        }
    }
}

/// An entry that is missing, or wrong in any way, is not looked at; nor are bytes left over.
#[test]
fn a_wrong_opening_minute_comes_before_the_entries() {
    for opening in ["00 00", "64 00", "65 00", "FF FF"] {
        for entry in [
            "",
            "00",
            "51 09000000 0100",
            "11 09000000 01",
            "15 09000000 0000 0100",
            "15 09000000 6400 0100",
            "11 09000000 0000",
            "11 09000000 6500",
            "11 09000000 0100",
            "11 09000000 0100 00",
        ] {
            refused(&hex(&format!("64 00 81 {opening} {entry}")), 15, 3);
        }
        refused(&hex(&format!("64 00 82 {opening} 11 09000000 0100 11 09000000 0100")), 15, 3);
        refused(&hex(&format!("64 00 80 {opening} 00")), 15, 3);
    }
}

#[test]
fn bytes_left_over_after_the_opening_minute() {
    refused(&hex("64 00 80 07 00 | 00"), 8, 5);
    refused(&hex("64 00 80 07 00 | 11 22 33"), 8, 5);
}

/// A list that is wrong in every row of reading, mended row by row: 2, 3, 1, 15, 4, 5, 16, 6, 7, 8, 14.
#[test]
fn the_rows_of_reading_in_their_order() {
    let third = Written { r: Some(6), d: Some(100), p: 0, ..SHORT };
    let mut bytes = [opened_list(0, 0, &[SHORT, SHORT, third]), vec![0]].concat();
    bytes[2] = 128 + 65;
    bytes[19] |= 0x40;
    refused(&bytes, 2, 0);
    bytes[0] = 100;
    refused(&bytes, 3, 2);
    refused(&bytes[..4], 3, 2);
    bytes[2] = 128 + 3;
    refused(&bytes[..3], 1, 3);
    refused(&bytes[..4], 1, 4);
    refused(&bytes, 15, 3);
    bytes[3] = 7;
    refused(&bytes, 4, 19);
    bytes[19] ^= 0x40;
    refused(&bytes, 5, 19);
    bytes[26] = 101;
    refused(&bytes, 16, 19);
    bytes[24] = 8;
    refused(&bytes, 6, 19);
    bytes[28] = 1;
    refused(&bytes, 7, 19);
    bytes[26] = 50;
    refused(&bytes, 8, 30);
    bytes.truncate(30);
    refused(&bytes, 14, 12);
    bytes[13] = 8;
    refused(&bytes, 14, 19);
    bytes[20] = 7;
    assert_eq!(accepted(&bytes).entries.len(), 3);
}
