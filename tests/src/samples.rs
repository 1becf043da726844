//! Inputs and lists that several tests share, and what is needed to write others down.

use crate::day::{Day, Entry, IDLE, LONGEST_DAY, MOST_ENTRIES};
use crate::flat::{self, Fields, SIZE};
use crate::{cases, opening, writer};

/// Bytes written as in document 01: hexadecimal, with blanks and bars anywhere.
pub fn hex(text: &str) -> Vec<u8> {
    let digits: Vec<u32> = text.chars().filter_map(|digit| digit.to_digit(16)).collect();
    assert_eq!(digits.len() % 2, 0, "a byte has two digits");
    digits.chunks(2).map(|pair| (pair[0] << 4 | pair[1]) as u8).collect()
}

/// A plan written down minute by minute: a place, or `-` for an idle minute.
pub fn plan(minutes: &str) -> Vec<u8> {
    let minute = |word| if word == "-" { IDLE } else { str::parse(word).expect("a place") };
    minutes.split_whitespace().map(minute).collect()
}

/// A day of `h` minutes with r, d and p of each entry: all of them pause, with serials that differ.
pub fn windows(h: u16, entries: &[(u16, u16, u16)]) -> Day {
    let entry = |(serial, &(r, d, p))| Entry { serial, seal: None, r, d, p, whole: false };
    Day { h, opening: 0, entries: (101..).zip(entries).map(entry).collect() }
}

/// The same list with the entries at these places whole.
pub fn whole(mut day: Day, places: &[usize]) -> Day {
    places.iter().for_each(|&place| day.entries[place].whole = true);
    day
}

/// The same list with all its entries whole.
pub fn all_whole(mut day: Day) -> Day {
    day.entries.iter_mut().for_each(|entry| entry.whole = true);
    day
}

/// The same list with these serials.
pub fn with_serials(mut day: Day, serials: &[u32]) -> Day {
    assert_eq!(day.entries.len(), serials.len());
    for (entry, &serial) in day.entries.iter_mut().zip(serials) {
        entry.serial = serial;
    }
    day
}

/// The same list with serials that are told apart, so that no box is in two places: an entry that shares a minute
/// with an earlier one of its serial gets the next lower serial of which that is not so, after 0 the greatest.
/// Windows that share no minute keep their serials, equal ones too.
pub fn told_apart(mut day: Day) -> Day {
    for place in 0..day.entries.len() {
        while day.clashes_at(place) {
            let serial = &mut day.entries[place].serial;
            *serial = serial.wrapping_sub(1);
        }
    }
    day
}

/// A day of `h` minutes in short: `w[0,3)2 p[1,4)1` is a whole entry with the window [0, 3) and p 2, then a
/// pause entry with [1, 4) and p 1. The serials differ.
pub fn boxes(h: u16, entries: &str) -> Day {
    let mut all = vec![];
    let mut wholes = vec![];
    for (place, word) in entries.split_whitespace().enumerate() {
        let numbers: Vec<u16> =
            word[2..].split([',', ')']).map(|word| word.parse().expect("a number")).collect();
        let &[r, d, p] = &numbers[..] else { panic!("{word} is no entry") };
        all.push((r, d, p));
        match &word[..2] {
            "w[" => wholes.push(place),
            "p[" => {}
            _ => panic!("{word} is neither whole nor pause"),
        }
    }
    whole(windows(h, &all), &wholes)
}

/// One entry in short, with this serial.
pub fn one_box(serial: u32, entry: &str) -> Entry {
    let mut entries = boxes(1, entry).entries;
    assert_eq!(entries.len(), 1, "{entry} is one entry");
    Entry { serial, ..entries.remove(0) }
}

/// Found by search: 16 whole entries in 100 minutes that are settled with 68 moves.
pub fn many_moves() -> Day {
    boxes(
        100,
        "w[16,96)5 w[8,97)9 w[13,88)9 w[11,94)5 w[10,95)5 w[16,97)6 w[10,100)5 w[17,98)10
         w[5,97)5 w[8,94)7 w[83,97)5 w[2,98)3 w[3,22)7 w[4,15)8 w[89,98)3 w[93,97)3",
    )
}

/// The longest day with a part of it four times, one after the other in time, their places taken in turn.
pub fn four_of(part: &Day) -> Day {
    let later = |entry: &Entry, by: u16| Entry { r: entry.r + by, d: entry.d + by, ..entry.clone() };
    let entries = part.entries.iter().flat_map(|entry| [0, 360, 720, 1080].map(|by| later(entry, by)));
    Day { h: LONGEST_DAY, opening: 0, entries: entries.collect() }
}

/// A pause entry with these minutes, right or wrong.
pub fn entry(r: u16, d: u16, p: u16) -> Entry {
    Entry { serial: 9, seal: None, r, d, p, whole: false }
}

/// The same entries with serials that differ, 9, 10 and so on.
pub fn numbered(entries: &[Entry]) -> Vec<Entry> {
    (9..).zip(entries).map(|(serial, entry)| Entry { serial, ..entry.clone() }).collect()
}

/// A value with these entries, whatever they are.
pub fn value(h: u32, n: u32, entries: &[Entry]) -> Fields {
    let mut fields = [0; SIZE];
    (fields[0], fields[1]) = (h, n);
    for (place, entry) in entries.iter().enumerate() {
        flat::put(&mut fields, place, entry);
    }
    fields
}

/// A value that says a day of 100 minutes with these entries.
pub fn day(entries: &[Entry]) -> Fields {
    value(100, entries.len() as u32, entries)
}

/// Document 01's sample input.
pub fn document() -> Vec<u8> {
    hex("0C 00 03 | 11 F5 01 00 00 04 00 | 3F F6 01 00 00 4D 00 00 00 02 00 08 00 03 00
         | 1F F7 01 00 00 4E 00 00 00 03 00 06 00 02 00")
}

/// The fields of an entry as they are written, right or wrong.
#[derive(Clone, Copy)]
pub struct Written {
    pub serial: u32,
    pub seal: Option<u32>,
    pub r: Option<u16>,
    pub d: Option<u16>,
    pub p: u16,
    pub whole: bool,
}

/// The shortest entry, of one minute at any time of the day: 7 bytes.
pub const SHORT: Written = Written { serial: 9, seal: None, r: None, d: None, p: 1, whole: false };

/// So many of the shortest entries, with serials that differ, from 9 on.
pub fn shorts(n: usize) -> Vec<Written> {
    (9..).take(n).map(|serial| Written { serial, ..SHORT }).collect()
}

/// The bytes of a list with entries that are written so.
pub fn list(h: u16, entries: &[Written]) -> Vec<u8> {
    let mut bytes = h.to_le_bytes().to_vec();
    bytes.push(entries.len() as u8);
    push_entries(&mut bytes, entries);
    bytes
}

/// The bytes of such a list with its opening minute written, right or wrong.
pub fn opened_list(h: u16, opening: u16, entries: &[Written]) -> Vec<u8> {
    let mut bytes = h.to_le_bytes().to_vec();
    bytes.push(0x80 | entries.len() as u8);
    bytes.extend(opening.to_le_bytes());
    push_entries(&mut bytes, entries);
    bytes
}

fn push_entries(bytes: &mut Vec<u8>, entries: &[Written]) {
    for entry in entries {
        let stands = [entry.seal.is_some(), entry.r.is_some(), entry.d.is_some(), true, entry.whole];
        let map = (1..).zip(stands).fold(1, |map, (bit, stands)| map | u8::from(stands) << bit);
        bytes.push(map);
        bytes.extend(entry.serial.to_le_bytes());
        bytes.extend(entry.seal.iter().flat_map(|seal| seal.to_le_bytes()));
        bytes.extend([entry.r, entry.d].iter().flatten().flat_map(|minute| minute.to_le_bytes()));
        bytes.extend(entry.p.to_le_bytes());
    }
}

/// A longest list: an opening minute, and 64 entries with all their fields.
pub fn longest() -> Day {
    Day { opening: 300, ..all_fields(301, 17) }
}

/// A longest list without an opening minute, which has two bytes less.
pub fn longest_from_0() -> Day {
    all_fields(1, 20)
}

/// 64 entries with all their fields, each alone in a window of so many minutes, one after the other from `first` on.
fn all_fields(first: u16, width: u16) -> Day {
    let entry = |i: u16| {
        let r = first + width * i;
        Entry {
            serial: 0x0104_0302 * (u32::from(i) + 1),
            seal: Some(i.into()),
            r,
            d: r + width,
            p: 1 + i % width,
            whole: i % 3 == 1,
        }
    };
    Day { h: LONGEST_DAY, opening: 0, entries: (0..MOST_ENTRIES as u16).map(entry).collect() }
}

/// A full day in which each entry begins a minute after the last, from `first` on, and ends a minute before
/// it, with serials and seals of the most digits. All but the innermost are interrupted by the next after their
/// first minute.
pub fn interrupted(first: u16, whole: bool, p: impl Fn(usize) -> u16) -> Day {
    let entry = |place: usize| Entry {
        serial: u32::MAX - place as u32,
        seal: Some(u32::MAX),
        r: first + place as u16,
        d: LONGEST_DAY - place as u16,
        p: p(place),
        whole,
    };
    Day { h: LONGEST_DAY, opening: 0, entries: (0..MOST_ENTRIES).map(entry).collect() }
}

/// A day with a long report: 64 entries and 127 runs, nearly all with numbers of the most digits.
pub fn long_text() -> Day {
    interrupted(1_000, false, |place| if place < 39 { 10 } else { 2 })
}

/// A list with each of the 16 shapes of an entry.
pub fn every_shape() -> Day {
    let entry = |shape: u32| Entry {
        serial: 0x0102_0304 * (shape + 1),
        seal: (shape & 1 != 0).then_some(shape * 0x1111_1111),
        r: if shape & 2 != 0 { 256 + shape as u16 } else { 0 },
        d: if shape & 4 != 0 { 515 + shape as u16 } else { 777 },
        p: 256 + shape as u16 % 3,
        whole: shape & 8 != 0,
    };
    Day { h: 777, opening: 0, entries: (0..16).map(entry).collect() }
}

/// Accepted inputs without an opening minute, from the smallest to the longest.
pub fn inputs() -> Vec<Vec<u8>> {
    vec![
        hex("01 00 00"),
        document(),
        writer::form(&every_shape()),
        list(1, &shorts(MOST_ENTRIES)),
        writer::form(&longest_from_0()),
    ]
}

/// Document 01's sample five minutes later, in a room that opens at minute 5.
pub fn opened_document() -> Vec<u8> {
    hex("11 00 83 05 00 | 11 F5 01 00 00 04 00 | 3F F6 01 00 00 4D 00 00 00 07 00 0D 00 03 00
         | 1F F7 01 00 00 4E 00 00 00 08 00 0B 00 02 00")
}

/// Accepted inputs with an opening minute, from the smallest to the longest.
pub fn opened_inputs() -> Vec<Vec<u8>> {
    vec![
        hex("02 00 80 01 00"),
        opened_document(),
        cases::of(&cases::root().join("samples"), "late-opening".to_string()).list,
        writer::form(&opening::later(&every_shape(), 258)),
        opened_list(2, 1, &shorts(MOST_ENTRIES)),
        writer::form(&longest()),
    ]
}
