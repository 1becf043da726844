//! A list handed over as a value: 2, 3, 15, then 16, 6 and 7 for each entry by its place, then 14, and only then 12.

use dock_tests::check::{accepted, not_written, number, write, written};
use dock_tests::day::{Day, Entry, MOST_ENTRIES};
use dock_tests::random::{self, Random};
use dock_tests::samples::{day, entry, hex, numbered, value};
use dock_tests::{flat, values, writer};

/// More room than any list needs.
pub const ROOM: usize = 1000;

/// A value's own rows stand above 12.
#[test]
fn wrong_values_are_refused_with_any_buffer() {
    values::refused(|fields, number, carries| {
        for room in [0, 1, 2, 3, 9, 10, ROOM] {
            not_written(fields, room, number, carries);
        }
    });
    not_written(&day(&[entry(0, 100, 1)]), 9, 12, 10);
}

#[test]
fn values_at_the_limits_are_accepted() {
    values::accepted(|fields| {
        written(fields, ROOM);
    });
}

#[test]
fn forms_of_the_shortest_and_the_longest_day_and_of_64_entries() {
    assert_eq!(written(&value(1, 0, &[]), ROOM), hex("01 00 00"));
    assert_eq!(written(&value(1440, 0, &[]), ROOM), hex("A0 05 00"));
    let full = numbered(&vec![entry(0, 100, 1); MOST_ENTRIES]);
    assert_eq!(written(&day(&full), ROOM).len(), 3 + 64 * 7);
}

#[test]
fn defaults_are_not_written() {
    let form = |r, d, p| written(&day(&[entry(r, d, p)]), ROOM);
    assert_eq!(form(0, 100, 3), hex("64 00 01 | 11 09000000 0300"));
    assert_eq!(form(1, 100, 3), hex("64 00 01 | 15 09000000 0100 0300"));
    assert_eq!(form(0, 99, 3), hex("64 00 01 | 19 09000000 6300 0300"));
    assert_eq!(form(1, 99, 3), hex("64 00 01 | 1D 09000000 0100 6300 0300"));
}

#[test]
fn seal_and_kind_are_written_in_the_map_byte() {
    let sealed = Entry { seal: Some(0), ..entry(0, 100, 3) };
    assert_eq!(written(&day(&[sealed]), ROOM), hex("64 00 01 | 13 09000000 00000000 0300"));
    let whole = Entry { whole: true, ..entry(0, 100, 3) };
    assert_eq!(written(&day(&[whole]), ROOM), hex("64 00 01 | 31 09000000 0300"));
    let both = Entry { whole: true, seal: Some(0x0807_0605), ..entry(0, 100, 3) };
    assert_eq!(written(&day(&[both]), ROOM), hex("64 00 01 | 33 09000000 05060708 0300"));
}

/// What is written of five thousand such lists reads back as the same list. How many of them have an opening minute.
#[track_caller]
pub fn written_and_read_back(seed: u64, draw: impl Fn(&mut Random) -> Day) -> usize {
    let mut random = Random::new(seed);
    let mut opened = 0;
    for _ in 0..5_000 {
        let day = draw(&mut random);
        let form = written(&flat::of_day(&day), ROOM);
        assert_eq!(form, writer::form(&day));
        assert_eq!(accepted(&form), day);
        opened += usize::from(day.opening > 0);
    }
    opened
}

#[test]
fn five_thousand_lists_are_written_and_read_back() {
    let opened = written_and_read_back(4, random::any_day);
    assert!((1_000..2_000).contains(&opened), "{opened} with an opening minute");
}

#[test]
fn fifty_thousand_wild_values() {
    let seen = values::wild(5, 50_000, |random, fields| {
        let any = random.below(1000);
        number(&write(fields, random.pick(&[0, 3, any, ROOM, ROOM])))
    });
    seen.more_than(500, &[0, 2, 3, 6, 7, 12, 14, 15, 16]);
}
