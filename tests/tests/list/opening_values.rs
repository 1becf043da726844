//! The opening minute of a value, and the writer: "The list value carries and compares that minute"; 15 is "0 for a
//! value, where only H or more is wrong"; 16 stands "for a value, before 6". An opening minute of 0 is none.

use crate::write_value::{written_and_read_back, ROOM};
use dock_tests::check::{accepted, not_written, number, write, written};
use dock_tests::day::{Day, Entry};
use dock_tests::flat::{self, Fields, OPENING};
use dock_tests::samples::{self, entry, hex, numbered, value};
use dock_tests::told::Told;
use dock_tests::{abi, opening, random};

/// A value that says a day of 100 minutes with this opening minute, right or wrong, and these entries.
fn opened(minute: u32, entries: &[Entry]) -> Fields {
    let mut fields = samples::day(entries);
    fields[OPENING] = minute;
    fields
}

/// The writer refuses this value so, whatever it is lent, and writes nothing.
#[track_caller]
fn refused(fields: &Fields, number: u32, carries: usize) {
    for room in [0, 1, 3, 5, 12, ROOM] {
        not_written(fields, room, number, carries);
    }
}

#[test]
fn no_opening_minute_is_written_without_the_field() {
    assert_eq!(written(&opened(0, &[]), ROOM), hex("64 00 00"));
    assert_eq!(written(&opened(0, &[entry(0, 100, 3)]), ROOM), hex("64 00 01 | 11 09000000 0300"));
    assert_eq!(written(&opened(0, &[entry(7, 100, 3)]), ROOM), hex("64 00 01 | 15 09000000 0700 0300"));
}

#[test]
fn an_opening_minute_is_written_and_an_r_equal_to_it_is_not() {
    assert_eq!(written(&opened(7, &[]), ROOM), hex("64 00 80 07 00"));
    let form = |r, d| written(&opened(7, &[entry(r, d, 3)]), ROOM);
    assert_eq!(form(7, 100), hex("64 00 81 07 00 | 11 09000000 0300"));
    assert_eq!(form(8, 100), hex("64 00 81 07 00 | 15 09000000 0800 0300"));
    assert_eq!(form(7, 99), hex("64 00 81 07 00 | 19 09000000 6300 0300"));
    assert_eq!(form(8, 99), hex("64 00 81 07 00 | 1D 09000000 0800 6300 0300"));
}

#[test]
fn the_lowest_byte_stands_first() {
    let mut fields = value(1440, 0, &[]);
    fields[OPENING] = 258;
    assert_eq!(written(&fields, ROOM), hex("A0 05 80 02 01"));
    let full = numbered(&vec![entry(258, 1440, 1); 64]);
    let mut fields = value(1440, 64, &full);
    fields[OPENING] = 258;
    let bytes = written(&fields, ROOM);
    assert_eq!((bytes.len(), &bytes[..5]), (5 + 64 * 7, &hex("A0 05 C0 02 01")[..]));
}

#[test]
fn a_buffer_that_is_too_short_is_12_with_the_two_bytes_counted() {
    let fields = opened(7, &[entry(8, 100, 3)]);
    (0..14).for_each(|room| not_written(&fields, room, 12, 14));
    assert_eq!(written(&fields, 14).len(), 14);
    (0..5).for_each(|room| not_written(&opened(7, &[]), room, 12, 5));
}

/// 0 is no opening minute, and H or more is 15: only there a value has another rule than the bytes.
#[test]
fn every_opening_minute() {
    for minute in (0..=66_000).chain([131_072, 0x0100_0007, u32::MAX]) {
        let fields = opened(minute, &[]);
        match minute {
            0 => assert_eq!(written(&fields, ROOM), hex("64 00 00")),
            1..=99 => assert_eq!(written(&fields, ROOM), [100, 0, 128, minute as u8, 0]),
            _ => not_written(&fields, ROOM, 15, 0),
        }
    }
}

/// A number too large for its field is taken as the largest, 65,535, which no day has.
#[test]
fn an_opening_minute_too_large_for_two_bytes_is_15() {
    for minute in [65_535, 65_536, 65_543, 131_072, u32::MAX] {
        assert_eq!(flat::value(&opened(minute, &[])).opening, 65_535);
        refused(&opened(minute, &[entry(7, 100, 3)]), 15, 0);
    }
}

#[test]
fn fifteen_stands_after_3_and_before_16() {
    let mut fields = opened(100, &[entry(0, 100, 0)]);
    fields[1] = 65;
    refused(&fields, 3, 0);
    fields[1] = 1;
    refused(&fields, 15, 0);
    fields[OPENING] = 99;
    refused(&fields, 16, 0);
    fields[OPENING] = 0;
    refused(&fields, 6, 0);
    fields[0] = 0;
    fields[OPENING] = 65_535;
    refused(&fields, 2, 0);
}

#[test]
fn sixteen_carries_the_entrys_place_and_stands_before_6_and_7() {
    let right = entry(7, 100, 1);
    for wrong in [entry(6, 100, 1), entry(6, 100, 0), entry(6, 101, 1), entry(0, 0, 0), entry(6, 6, 95)] {
        refused(&opened(7, &[wrong.clone()]), 16, 0);
        refused(&opened(7, &numbered(&[right.clone(), wrong.clone()])), 16, 1);
        refused(&opened(7, &numbered(&[right.clone(), right.clone(), wrong, right.clone()])), 16, 2);
    }
    refused(&opened(7, &numbered(&[entry(7, 100, 0), entry(6, 100, 1)])), 6, 0);
    refused(&opened(7, &numbered(&[entry(7, 101, 1), entry(6, 100, 1)])), 7, 0);
}

/// Entries 0 and 1 are one box in two places, and entry 2 begins too early.
#[test]
fn fourteen_stands_after_the_last_16() {
    let entries = [entry(7, 100, 1), entry(7, 100, 1), Entry { serial: 8, ..entry(6, 100, 1) }];
    refused(&opened(7, &entries), 16, 2);
    refused(&opened(6, &entries), 14, 1);
}

#[test]
fn entries_from_place_n_on_may_begin_before_the_opening_minute() {
    let mut fields = opened(7, &numbered(&[entry(7, 100, 1), entry(6, 100, 1)]));
    refused(&fields, 16, 1);
    fields[1] = 1;
    assert_eq!(written(&fields, ROOM), hex("64 00 81 07 00 | 11 09000000 0100"));
}

/// "The list value carries and compares that minute": with each opening minute that it may have, a list has other bytes,
/// and they are read as that list.
#[test]
fn lists_that_differ_in_the_opening_minute_alone_have_other_bytes() {
    let lists =
        [samples::boxes(20, ""), samples::boxes(20, "p[5,20)3 w[9,12)2"), samples::boxes(9, "w[8,9)1")];
    for day in lists {
        let mut forms = vec![];
        for minute in opening::possible(&day) {
            let day = Day { opening: minute, ..day.clone() };
            let form = written(&flat::of_day(&day), ROOM);
            assert_eq!(accepted(&form), day);
            assert!(!forms.contains(&form), "{day:?}");
            forms.push(form);
        }
        assert!(forms.len() > 5, "{} opening minutes of {day:?}", forms.len());
    }
}

/// What is written reads back as the same list, opening minute and all.
#[test]
fn five_thousand_lists_are_written_and_read_back() {
    let opened = written_and_read_back(9, |random| {
        let day = random::any_drawn_day(random);
        samples::told_apart(random::opened(random, day))
    });
    assert!(opened > 3_000, "{opened} with an opening minute");
}

/// Writes a value with each of its numbers changed, one after the other: to 0, to the largest, by one up and by one down.
/// What is answered must be what the second value check says.
fn every_change_of_one_number(right: &Fields) -> Told {
    let mut told = Told::default();
    for at in 0..flat::SIZE {
        for other in [0, u32::MAX, right[at].wrapping_add(1), right[at].wrapping_sub(1)] {
            let mut fields = *right;
            fields[at] = other;
            told.count(number(&write(&fields, ROOM)));
        }
    }
    told
}

/// The first r is the opening minute, the second window has just its minutes, and neighbours have serials one apart.
#[test]
fn every_change_of_one_number_of_three_entries() {
    let sealed = Entry { seal: Some(0), whole: true, ..entry(20, 30, 9) };
    let fields = opened(7, &numbered(&[entry(7, 100, 1), entry(8, 100, 92), sealed]));
    written(&fields, ROOM);
    let told = every_change_of_one_number(&fields);
    told.more_than(0, &[0, 2, 3, 6, 7, 14, 15, 16]);
    told.never(&[12]);
}

/// Here all 64 places count, and no two windows share a minute.
#[test]
fn every_change_of_one_number_of_a_longest_list() {
    let told = every_change_of_one_number(&flat::of_day(&samples::longest()));
    told.more_than(63, &[0, 6, 7, 16]);
    told.more_than(0, &[2, 3, 15]);
    told.never(&[12, 14]);
}

/// What is read is written back, byte for byte.
#[test]
fn accepted_inputs_are_read_and_written_back() {
    for bytes in samples::opened_inputs() {
        let (answer, fields) = abi::read(&bytes);
        assert_eq!(answer.number, 0);
        let (answer, out) = abi::write(&fields, ROOM);
        assert_eq!((answer.number, answer.values), (0, [bytes.len() as u64, 0, 0]));
        assert_eq!(out[..bytes.len()], bytes);
    }
}

#[test]
fn the_sample_five_minutes_later_in_flat_form() {
    let bytes = samples::opened_document();
    let wanted = opening::later(&accepted(&samples::document()), 5);
    assert_eq!(accepted(&bytes), wanted);
    let (_, fields) = abi::read(&bytes);
    assert_eq!(fields[..3], [17, 3, 5]);
    assert_eq!(fields[3..10], [501, 0, 0, 5, 17, 4, 0]);
    assert_eq!(fields[10..17], [502, 1, 77, 7, 13, 3, 1]);
    assert_eq!(fields[17..24], [503, 1, 78, 8, 11, 2, 0]);
    assert!(fields[24..].iter().all(|&number| number == 0));
}
