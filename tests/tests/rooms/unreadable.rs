//! "A share that does not read .. makes the room refused": by each row of reading but 1, for which a share has too many
//! bytes, and 8, which is not tested. Places are counted from the share's first byte.

use dock_tests::check_desk::{answered, turn};
use dock_tests::day::LONGEST_LIST;
use dock_tests::desk::{share, Desk, BEGUN, FRESH, REFUSED};
use dock_tests::random::{self, Random};
use dock_tests::samples::{hex, list, longest, shorts, Written, SHORT};
use dock_tests::told::Told;
use dock_tests::writer;

/// A list, the row that turns it back, and what that carries.
const WRONG: [(&str, u64, u64); 22] = [
    ("00 00 00", 2, 0),
    ("A1 05 00", 2, 0),
    ("FF FF FF", 2, 0),
    ("01 00 41", 3, 2),
    ("64 00 FF", 3, 2),
    ("64 00 80 00 00", 15, 3),
    ("64 00 80 64 00", 15, 3),
    ("64 00 01 | 10 09000000 0100", 4, 3),
    ("64 00 81 05 00 | 51 09000000 0100", 4, 5),
    ("64 00 02 | 11 09000000 0100 | 91", 4, 10),
    ("64 00 01 | 15 09000000 0000 0100", 5, 3),
    ("64 00 01 | 19 09000000 6400 0100", 5, 3),
    ("64 00 82 05 00 | 11 09000000 0100 | 15 0A000000 0500 0100", 5, 12),
    ("64 00 81 05 00 | 15 09000000 0400 0100", 16, 5),
    ("64 00 01 | 11 09000000 0000", 6, 3),
    ("64 00 02 | 11 09000000 0100 | 31 0A000000 0000", 6, 10),
    ("64 00 01 | 11 09000000 6500", 7, 3),
    ("64 00 01 | 19 09000000 6500 0100", 7, 3),
    ("64 00 01 | 15 09000000 FFFF 0100", 7, 3),
    ("64 00 02 | 11 09000000 0100 | 11 09000000 0100", 14, 10),
    ("64 00 03 | 11 09000000 0100 | 11 09000000 0100 | 11 0A000000 0000", 6, 17),
    ("64 00 83 05 00 | 11 09000000 0100 | 11 0A000000 0100 | 1F 09000000 07000000 0600 0800 0100", 14, 19),
];

/// In each of three rooms, fresh or begun: only the stage is written, and the place is the share's own.
#[test]
fn every_row_in_every_room() {
    for (bytes, number, carries) in WRONG {
        for (k, stage) in [0, 1, 2].into_iter().flat_map(|k| [(k, FRESH), (k, BEGUN)]) {
            let mut shares = vec![share(&hex("01 00 00")); 3];
            shares[k] = share(&hex(bytes));
            let mut desk = Desk::new(&[[stage, 5, 6]; 3], &shares);
            answered(&mut desk, k as u64, [k as u64, number, (k as u64 + 1) % 3], [carries, 0, 0]);
            let mut rows = [[stage, 5, 6]; 3];
            rows[k] = [REFUSED, 5, 6];
            assert_eq!(desk.rows(), rows, "{bytes}");
            assert!(desk.lists == shares.concat(), "{bytes}");
        }
    }
}

/// A list that seems cut off goes on with what follows it in the share. The bytes 80 and on are no map bytes, and of
/// a share of zeros, or of 11 alone, something else is wrong.
#[test]
fn a_list_that_seems_cut_off() {
    for (bytes, number, carries) in [
        ("64 00 01", 4, 3),
        ("64 00 02 | 11 09000000 0100", 4, 10),
        ("64 00 81 05 00", 4, 5),
        ("64 00 01 | 11 09000000", 7, 3), // p is 89 88
        ("64 00 80", 15, 3),              // the opening minute is 84 83
        ("", 2, 0),                       // H is 81 80
    ] {
        let mut desk = Desk::fresh(&[share(&hex(bytes))]);
        answered(&mut desk, 0, [0, number, 0], [carries, 0, 0]);
    }
    for (byte, number, carries) in [(0x00, 2, 0), (0x01, 4, 3), (0x04, 4, 3), (0x11, 2, 0), (0xFF, 2, 0)] {
        let mut desk = Desk::fresh(&[vec![byte; LONGEST_LIST]]);
        answered(&mut desk, 0, [0, number, 0], [carries, 0, 0]);
    }
}

/// The bytes of the next share are none of this one: with 64 entries of all fields the list ends with its share, and
/// its last bytes are its own.
#[test]
fn the_last_bytes_of_a_share() {
    let right = writer::form(&longest());
    for (at, byte, number) in [(964, 0x05, 7), (963, 0x00, 6), (961, 0xFF, 7), (950, 0x5F, 4), (950, 0x1F, 0)]
    {
        let mut wrong = right.clone();
        wrong[at] = byte;
        if number == 6 {
            wrong[964] = 0;
        }
        let mut desk = Desk::fresh(&[wrong, share(&hex("01 00 00"))]);
        let carries = if number == 0 { 0 } else { 950 };
        answered(&mut desk, 0, [0, number, 1], [carries, 0, 0]);
    }
}

/// 14 is told though bytes follow the list, which reading alone would tell first; and before 9.
#[test]
fn a_clash_with_bytes_after_the_list() {
    let full = Written { p: 100, ..SHORT };
    let overloaded = list(100, &[full, full]);
    for stage in [FRESH, BEGUN] {
        let mut desk = Desk::new(&[[stage, 0, 0]], &[share(&overloaded)]);
        answered(&mut desk, 0, [0, 14, 0], [10, 0, 0]);
    }
}

/// Of 64 short entries the last one has the first one's serial: its map byte is at 3 + 63 * 7.
#[test]
fn a_clash_at_the_last_place() {
    let mut entries = shorts(64);
    entries[63].serial = entries[0].serial;
    let mut desk = Desk::fresh(&[share(&list(64, &shorts(64))), share(&list(64, &entries))]);
    answered(&mut desk, 1, [1, 14, 0], [444, 0, 0]);
    answered(&mut desk, 0, [0, 0, 1], [0, 0, 0]);
}

/// Every change of one byte of a small list: never 1 and never 8.
#[test]
fn every_change_of_one_byte() {
    let mut told = Told::default();
    for bytes in [
        hex("0C 00 03 | 11 F5 01 00 00 04 00 | 3F F6 01 00 00 4D 00 00 00 02 00 08 00 03 00
             | 1F F7 01 00 00 4E 00 00 00 03 00 06 00 02 00"),
        hex("09 00 83 02 00 | 31 07000000 0300 | 35 08000000 0300 0200 | 19 07000000 0700 0100"),
    ] {
        for place in 0..bytes.len() {
            for change in 1..=u8::MAX {
                let mut bytes = bytes.clone();
                bytes[place] ^= change;
                let answer = turn(&mut Desk::fresh(&[share(&bytes)]), 0);
                told.count(answer.values[1] as usize);
            }
        }
    }
    told.more_than(0, &[0, 2, 3, 4, 5, 6, 7, 9, 14, 15, 16]);
    told.never(&[1, 8]);
}

/// Damaged lists and junk: never 1 and never 8.
#[test]
fn eight_thousand_damaged_shares() {
    let mut random = Random::new(661);
    let mut told = Told::default();
    for _ in 0..8_000 {
        let bytes = match random.below(3) {
            0 => random::damaged_opened(&mut random),
            _ => {
                let day = random::room_list(&mut random);
                random::damaged_form(&mut random, &day)
            }
        };
        let share = random::share_with_junk(&mut random, &bytes);
        let answer = turn(&mut Desk::fresh(&[share]), 0);
        told.count(answer.values[1] as usize);
    }
    told.more_than(20, &[0, 2, 3, 4, 5, 6, 7, 9, 10, 14, 15, 16]);
    told.never(&[1, 8, 11, 12, 13, 17, 18, 19]);
}
