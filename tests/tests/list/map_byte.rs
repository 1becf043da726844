//! The map byte: which bits must stand, may stand and must not, and how many bytes it calls for.

use dock_tests::check::{accepted, refused};
use dock_tests::samples::hex;

/// The map bytes that keep the rules: bits 0 and 4 stand, bits 6 and 7 do not.
const RIGHT: [u8; 16] =
    [0x11, 0x13, 0x15, 0x17, 0x19, 0x1B, 0x1D, 0x1F, 0x31, 0x33, 0x35, 0x37, 0x39, 0x3B, 0x3D, 0x3F];

/// The header of a day of 5 minutes with one entry.
fn before_one() -> Vec<u8> {
    hex("05 00 01")
}

/// The header of a day of 5 minutes with two entries, and the first of them, with another serial.
fn before_two() -> Vec<u8> {
    hex("05 00 02 | 11 02000000 0100")
}

/// A right entry with this map byte: seal 4, r 1, d 4 and p 2 where they stand.
fn entry(map: u8) -> Vec<u8> {
    let mut bytes = vec![map, 1, 0, 0, 0];
    for (bit, field) in [(1, "04000000"), (2, "0100"), (3, "0400")] {
        if map >> bit & 1 == 1 {
            bytes.extend(hex(field));
        }
    }
    bytes.extend([2, 0]);
    bytes
}

/// Puts every map byte after `start`, followed by `rest`, and tries those that break the rules.
fn wrong_ones_are_4(start: &[u8], rest: &[u8]) {
    let mut tried = 0;
    for map in (0..=u8::MAX).filter(|map| !RIGHT.contains(map)) {
        refused(&[start, &[map], rest].concat(), 4, start.len());
        tried += 1;
    }
    assert_eq!(tried, 240);
}

#[test]
fn every_wrong_map_byte_alone() {
    wrong_ones_are_4(&before_one(), &[]);
    wrong_ones_are_4(&before_two(), &[]);
}

#[test]
fn every_wrong_map_byte_with_enough_bytes_after_it() {
    for rest in [[0; 14], [1; 14], [0xFF; 14]] {
        wrong_ones_are_4(&before_one(), &rest);
        wrong_ones_are_4(&before_two(), &rest);
    }
}

#[test]
fn every_right_map_byte_with_its_fields_is_accepted() {
    for map in RIGHT {
        let day = accepted(&[before_one(), entry(map)].concat());
        let only = &day.entries[0];
        assert_eq!(only.seal, [None, Some(4)][usize::from(map >> 1 & 1)]);
        assert_eq!(only.r, u16::from(map >> 2 & 1));
        assert_eq!(only.d, 5 - u16::from(map >> 3 & 1));
        assert_eq!((only.serial, only.p, only.whole), (1, 2, map >= 0x30));
        assert_eq!(accepted(&[before_two(), entry(map)].concat()).entries[1], *only);
    }
}

/// Cut anywhere in the entry, before its map byte too, bytes are missing; one byte more is left over.
#[test]
fn every_right_map_byte_decides_how_many_bytes_follow() {
    for (map, size) in RIGHT.into_iter().zip([7, 11, 9, 13, 9, 13, 11, 15].into_iter().cycle()) {
        for start in [before_one(), before_two()] {
            let whole = [start.clone(), entry(map)].concat();
            let end = start.len() + size;
            assert_eq!(whole.len(), end);
            refused(&[whole.clone(), vec![0]].concat(), 8, end);
            for short in start.len()..end {
                refused(&whole[..short], 1, short);
            }
        }
    }
}
