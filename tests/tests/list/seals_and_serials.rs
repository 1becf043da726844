//! Serials and seals: any value, kept as it is, inside its own entry. One serial may stand twice if its windows share
//! no minute; where they do is the matter of clashes.rs.

use dock_tests::check::{accepted, refused};
use dock_tests::day::Entry;
use dock_tests::samples::{list, shorts, Written, SHORT};
use dock_tests::{abi, flat};

const VALUES: [u32; 10] = [0, 1, 255, 256, 65_535, 65_536, 0x0102_0304, 0x7FFF_FFFF, 0x8000_0000, u32::MAX];

/// The seven numbers of a place, as the library reads them from bytes that must be accepted.
#[track_caller]
fn numbers(bytes: &[u8], place: usize) -> [u32; flat::WIDTH] {
    accepted(bytes);
    let (_, fields) = abi::read(bytes);
    std::array::from_fn(|i| fields[flat::at(place) + i])
}

#[test]
fn any_serial_is_kept() {
    for serial in VALUES {
        let bytes = list(10, &[Written { serial, ..SHORT }]);
        assert_eq!(numbers(&bytes, 0), [serial, 0, 0, 0, 10, 1, 0]);
    }
}

#[test]
fn any_seal_is_kept() {
    for seal in VALUES {
        let bytes = list(10, &[Written { seal: Some(seal), ..SHORT }]);
        assert_eq!(numbers(&bytes, 0), [9, 1, seal, 0, 10, 1, 0]);
    }
}

#[test]
fn seal_0_is_not_a_missing_seal() {
    let with = list(10, &[Written { seal: Some(0), ..SHORT }]);
    let without = list(10, &[SHORT]);
    assert_eq!(numbers(&with, 0), [9, 1, 0, 0, 10, 1, 0]);
    assert_eq!(numbers(&without, 0), [9, 0, 0, 0, 10, 1, 0]);
}

#[test]
fn a_seal_stays_inside_its_entry() {
    let mut entries = shorts(4);
    (entries[1].seal, entries[3].seal) = (Some(7), Some(7));
    let day = accepted(&list(10, &entries));
    let seals: Vec<_> = day.entries.iter().map(|entry| entry.seal).collect();
    assert_eq!(seals, [None, Some(7), None, Some(7)]);
}

#[test]
fn the_same_serial_twice_makes_two_entries() {
    let early = Written { d: Some(4), p: 2, ..SHORT };
    let late = Written { r: Some(5), p: 3, whole: true, seal: Some(1), ..SHORT };
    let bytes = list(10, &[early, late]);
    assert_eq!(numbers(&bytes, 0), [9, 0, 0, 0, 4, 2, 0]);
    assert_eq!(numbers(&bytes, 1), [9, 1, 1, 5, 10, 3, 1]);
}

/// Document 02, "One box in two places".
#[test]
fn the_same_entry_twice_is_turned_back() {
    refused(&list(10, &[SHORT, SHORT]), 14, 10);
}

#[test]
fn the_same_entry_twice_but_for_its_serial_makes_two_entries() {
    let day = accepted(&list(10, &shorts(2)));
    assert_eq!(day.entries.len(), 2);
    assert_eq!(day.entries[0], Entry { serial: 9, ..day.entries[1].clone() });
}

/// Ten entries of one serial, each with a minute of its own, are ten entries.
#[test]
fn the_same_serial_ten_times_makes_ten_entries() {
    for serial in VALUES {
        let minute =
            |r: u16| Written { serial, r: (r > 0).then_some(r), d: (r < 9).then_some(r + 1), ..SHORT };
        let day = accepted(&list(10, &[7, 0, 9, 3, 1, 8, 2, 6, 4, 5].map(minute)));
        let found: Vec<_> = day.entries.iter().map(|entry| (entry.serial, entry.r, entry.d)).collect();
        assert_eq!(found, [7, 0, 9, 3, 1, 8, 2, 6, 4, 5].map(|r| (serial, r, r + 1)));
    }
}

#[test]
fn a_refusal_of_an_entry_does_not_look_at_its_serial() {
    for serial in VALUES {
        refused(&list(10, &[SHORT, Written { serial, p: 0, ..SHORT }]), 6, 10);
    }
}
