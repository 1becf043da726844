//! Document 02, "One box in two places": "An entry whose given window shares a minute with an earlier entry of the same
//! serial is turned back. Windows that only touch are fine. .. Such an entry, the first in list order, is refused as
//! 14, after 8 when reading and after the last 7 for a value, and carries its map's place or its entry's place."

use dock_tests::check::{self, accepted, not_written, refused, written};
use dock_tests::clashes;
use dock_tests::day::{Day, Entry, LONGEST_DAY, LONGEST_LIST, MOST_ENTRIES};
use dock_tests::flat::{self, SIZE};
use dock_tests::ignored::with_rest;
use dock_tests::random::{self, Random};
use dock_tests::samples::{self, entry, hex, list, shorts, value, Written, SHORT};
use dock_tests::values::{self, Mended};
use dock_tests::{abi, writer};

/// More room than any list needs.
const ROOM: usize = 1000;

/// The list is read from its one form and written as a value, if no place is told; else it is turned back both
/// times, with the map's place in the bytes, which all entries before it make, and with the entry's own.
#[track_caller]
fn told(day: &Day, place: Option<usize>) {
    let bytes = writer::form(day);
    let fields = flat::of_day(day);
    let Some(place) = place else {
        assert_eq!(accepted(&bytes), *day);
        assert_eq!(written(&fields, ROOM), bytes);
        return;
    };
    let before = Day { h: day.h, opening: day.opening, entries: day.entries[..place].to_vec() };
    refused(&bytes, 14, writer::form(&before).len());
    for room in [0, bytes.len() - 1, bytes.len(), ROOM] {
        not_written(&fields, room, 14, place);
    }
}

/// Of the 441 pairs of windows of 6 minutes 140 share no minute: a < b <= c < d can be chosen in 35 ways with b below
/// c and in 35 with b = c, and either may be the earlier entry.
#[test]
fn every_pair_of_windows_of_one_serial() {
    let mut seen = [0; 2];
    for first in clashes::windows(6) {
        for second in clashes::windows(6) {
            let shared = clashes::share_a_minute(6, first, second);
            told(&clashes::day(6, &[(7, first), (7, second)]), shared.then_some(1));
            seen[usize::from(shared)] += 1;
        }
    }
    assert_eq!(seen, [140, 301]);
}

#[test]
fn every_pair_of_windows_of_two_serials() {
    let mut pairs = 0;
    for first in clashes::windows(6) {
        for second in clashes::windows(6) {
            told(&clashes::day(6, &[(7, first), (8, second)]), None);
            pairs += 1;
        }
    }
    assert_eq!(pairs, 441);
}

/// "A seal is either missing or a number": it is not asked whether two boxes have the same.
#[test]
fn seals_do_not_count() {
    let seals = [None, Some(0), Some(5), Some(7)];
    for first in clashes::windows(4) {
        for second in clashes::windows(4) {
            for (one, other) in seals.iter().flat_map(|&one| seals.map(|other| (one, other))) {
                for serials in [[7, 7], [7, 5]] {
                    let entries = [(serials[0], first), (serials[1], second)];
                    let mut day = clashes::day(4, &entries);
                    (day.entries[0].seal, day.entries[1].seal) = (one, other);
                    told(&day, clashes::told(&entries));
                }
            }
        }
    }
}

/// Three entries with any windows of 3 minutes, of one serial, of two in each way, and of three.
#[test]
fn every_three_windows() {
    let windows = clashes::windows(3);
    let mut seen = [0; 3];
    for serials in [[7, 7, 7], [7, 7, 8], [7, 8, 7], [8, 7, 7], [7, 8, 9]] {
        for number in 0..windows.len().pow(3) {
            let window = |place: u32| windows[number / windows.len().pow(place) % windows.len()];
            let entries = [0, 1, 2].map(|place| (serials[place], window(place as u32)));
            let place = clashes::told(&entries);
            told(&clashes::day(3, &entries), place);
            seen[place.unwrap_or(0)] += 1;
        }
    }
    assert_eq!(seen.iter().sum::<usize>(), 5 * 216);
    assert!(seen.iter().all(|&count| count > 200), "{seen:?}");
}

/// The window is [40, 60); the others end where it begins, begin where it ends, or share a minute with it.
#[test]
fn windows_at_the_edges() {
    let given = (40, 60);
    for (other, shared) in [
        ((40, 60), true),
        ((0, 100), true),
        ((45, 50), true),
        ((40, 41), true),
        ((59, 60), true),
        ((40, 70), true),
        ((30, 60), true),
        ((0, 41), true),
        ((59, 100), true),
        ((0, 40), false),
        ((39, 40), false),
        ((60, 61), false),
        ((60, 100), false),
        ((0, 1), false),
        ((99, 100), false),
    ] {
        for serial in [0, 1, 0x8000_0000, u32::MAX] {
            told(&clashes::day(100, &[(serial, given), (serial, other)]), shared.then_some(1));
            told(&clashes::day(100, &[(serial, other), (serial, given)]), shared.then_some(1));
        }
    }
}

/// The shortest day has but one window, and the longest has minutes that do not fit in a byte.
#[test]
fn the_shortest_and_the_longest_day() {
    told(&clashes::day(1, &[(0, (0, 1)), (0, (0, 1))]), Some(1));
    told(&clashes::day(1, &[(0, (0, 1)), (1, (0, 1))]), None);
    for (first, second, shared) in [
        ((0, 1440), (0, 1440), true),
        ((0, 1440), (1439, 1440), true),
        ((0, 1439), (1439, 1440), false),
        ((0, 256), (255, 300), true),
        ((0, 256), (256, 512), false),
        ((1, 2), (257, 258), false),
        ((1, 258), (257, 300), true),
        ((1024, 1025), (0, 1024), false),
        ((1024, 1025), (0, 1025), true),
    ] {
        told(&clashes::day(1440, &[(9, first), (9, second)]), shared.then_some(1));
        told(&clashes::day(1440, &[(9, second), (9, first)]), shared.then_some(1));
    }
}

/// Serials are numbers of 32 bits, and all of these count.
#[test]
fn serials_that_differ_in_one_bit() {
    for serial in [0, 7, 0xAAAA_AAAA, u32::MAX] {
        told(&clashes::day(9, &[(serial, (0, 9)), (serial, (0, 9))]), Some(1));
        for bit in 0..32 {
            told(&clashes::day(9, &[(serial, (0, 9)), (serial ^ 1 << bit, (0, 9))]), None);
        }
    }
}

/// The third window shares a minute with the first one only. A header of 3 bytes, and entries of 9 and 9 bytes before
/// the third one's map: [0, 30) writes d alone, [30, 100) r alone.
#[test]
fn the_third_entry_with_the_first_only() {
    let entries = [(7, (0, 30)), (7, (30, 100)), (7, (29, 30))];
    let day = clashes::day(100, &entries);
    told(&day, Some(2));
    assert_eq!(abi::read(&writer::form(&day)).0.values, [21, 0, 0]);
    assert_eq!(abi::write(&flat::of_day(&day), ROOM).0.values, [2, 0, 0]);
    told(&clashes::day(100, &[(7, (0, 30)), (8, (0, 100)), (7, (29, 30))]), Some(2));
    told(&clashes::day(100, &entries[..2]), None);
}

/// Several entries share minutes with earlier ones. The first of them in list order is told, also if another shares
/// one with an entry that comes first.
#[test]
fn the_first_of_several_is_told() {
    let all_day = (0, 9);
    for (serials, place) in [
        (&[1, 2, 2, 1][..], 2),
        (&[1, 2, 1, 2], 2),
        (&[1, 1, 2, 2], 1),
        (&[1, 1, 1, 1], 1),
        (&[1, 2, 3, 3, 2, 1], 3),
        (&[1, 2, 3, 4, 4, 1], 4),
        (&[1, 2, 3, 4, 1, 4], 4),
    ] {
        let entries: Vec<_> = serials.iter().map(|&serial| (serial, all_day)).collect();
        assert_eq!(clashes::told(&entries), Some(place), "{serials:?}");
        told(&clashes::day(9, &entries), Some(place));
    }
    // places 2 and 4 share a minute, and 0 and 3
    let entries = [(7, (0, 3)), (8, (0, 9)), (7, (5, 9)), (7, (2, 4)), (7, (8, 9))];
    told(&clashes::day(9, &entries), Some(3));
}

/// "and carries its map's place": the entry before has 7, 11, 9, 13, 9, 13, 11 or 15 bytes, by the fields that are
/// written, and the map of the second comes after them and the header.
#[test]
fn the_place_in_the_bytes_after_an_entry_of_every_length() {
    let lengths = [7, 11, 9, 13, 9, 13, 11, 15];
    for (shape, length) in lengths.into_iter().enumerate() {
        let first = Written {
            serial: 77,
            seal: (shape & 1 != 0).then_some(5),
            r: (shape & 2 != 0).then_some(10),
            d: (shape & 4 != 0).then_some(90),
            p: 2,
            whole: false,
        };
        for whole in [false, true] {
            let first = Written { whole, ..first };
            let again = Written { serial: 77, ..SHORT };
            refused(&list(100, &[first, again]), 14, 3 + length);
            refused(&list(100, &[again, first]), 14, 10);
            refused(&list(100, &[SHORT, first, again]), 14, 10 + length);
            refused(&list(100, &[first, SHORT, again]), 14, 10 + length);
            refused(&list(100, &[first, Written { seal: Some(0), ..SHORT }, again]), 14, 14 + length);
        }
    }
}

/// Byte by byte: 3 of the header, an entry of 9 (d), of 15 (all fields), of 11 (seal), of 11 (r and d).
#[test]
fn the_place_in_the_bytes_after_entries_of_different_lengths() {
    let start = hex(
        "64 00 05 | 19 01000000 1400 0500 | 1F 02000000 07000000 0300 3200 0100 | 33 03000000 09000000 0400
         | 3D 01000000 1400 2800 0300",
    );
    assert_eq!(start.len(), 3 + 9 + 15 + 11 + 11);
    for (last, carries) in [
        ("11 01000000 0100", Some(49)),       // [0, 100), with [0, 20) and [20, 40)
        ("15 01000000 2800 0100", None),      // [40, 100), which only touches [20, 40)
        ("15 01000000 2700 0100", Some(49)),  // [39, 100)
        ("1D 02000000 0100 0300 0100", None), // [1, 3), which only touches [3, 50)
        ("1D 02000000 0100 0400 0100", Some(49)),
        ("17 03000000 08000000 6300 0100", Some(49)), // [99, 100), with another seal
        ("1F 04000000 07000000 0300 3200 0100", None),
    ] {
        let bytes = [start.clone(), hex(last)].concat();
        match carries {
            Some(place) => refused(&bytes, 14, place),
            None => assert_eq!(accepted(&bytes).entries.len(), 5),
        }
    }
}

/// The last of 64 entries: its map is at 3 + 63 * 7 after the shortest ones, and at 3 + 63 * 15 after the longest, two
/// further with an opening minute.
#[test]
fn the_last_of_sixty_four_entries() {
    let mut short = shorts(MOST_ENTRIES);
    short[63].serial = 9;
    refused(&list(1, &short), 14, 444);
    for (mut day, place) in [(samples::longest_from_0(), 948), (samples::longest(), 950)] {
        day.entries[63].serial = day.entries[62].serial;
        told(&day, None);
        day.entries[63].r -= 1;
        refused(&writer::form(&day), 14, place);
        not_written(&flat::of_day(&day), LONGEST_LIST, 14, 63);
        day.entries[63].serial = day.entries[0].serial;
        told(&day, None);
        day.entries[63].r = day.entries[0].d - 1;
        told(&day, Some(63));
    }
}

/// 64 entries of one serial, one after the other, are a list; with the last one a minute earlier they are not.
#[test]
fn sixty_four_entries_of_one_serial() {
    let mut entries = [(0, (0, 0)); MOST_ENTRIES];
    for (place, entry) in (0..).zip(&mut entries) {
        *entry = (u32::MAX, (22 * place, 22 * place + 22));
    }
    told(&clashes::day(LONGEST_DAY, &entries), None);
    entries.reverse();
    told(&clashes::day(LONGEST_DAY, &entries), None);
    entries[63].1 .1 = 23;
    told(&clashes::day(LONGEST_DAY, &entries), Some(63));
    entries[0].1 .0 = 0;
    told(&clashes::day(LONGEST_DAY, &entries), Some(1));
}

/// "after 8 when reading": bytes left over are told before it, whatever they are.
#[test]
fn bytes_left_over_come_first() {
    let bytes = list(100, &[SHORT, SHORT]);
    refused(&bytes, 14, 10);
    for more in [&[0][..], &[0x11], &[0xFF; 20], &bytes] {
        refused(&[&bytes[..], more].concat(), 8, 17);
    }
}

/// Every row of an entry is told before it, of the entry itself and of any other one.
#[test]
fn wrong_entries_come_first() {
    let again = SHORT;
    for (number, wrong) in [
        (5, Written { r: Some(0), ..SHORT }),
        (5, Written { d: Some(100), ..SHORT }),
        (6, Written { p: 0, ..SHORT }),
        (7, Written { p: 101, ..SHORT }),
        (7, Written { d: Some(101), ..SHORT }),
        (7, Written { r: Some(65_535), ..SHORT }),
    ] {
        let other = Written { serial: 4, ..wrong };
        let bytes = list(100, &[SHORT, again, wrong]);
        refused(&bytes, number, 17);
        refused(&list(100, &[SHORT, again, other, SHORT]), number, 17);
        refused(&list(100, &[SHORT, wrong]), number, 10);
        refused(&list(100, &[wrong, again, SHORT]), number, 3);
        let full = [vec![SHORT; 63], vec![other]].concat();
        refused(&list(100, &full), number, 3 + 63 * 7);
    }
}

/// A broken map byte, a missing one and a missing field of a later entry come first, too.
#[test]
fn what_is_missing_or_no_map_comes_first() {
    let bytes = list(100, &[SHORT, SHORT, SHORT]);
    refused(&bytes, 14, 10);
    for length in 0..bytes.len() {
        refused(&bytes[..length], 1, length);
    }
    for map in [0x00, 0x01, 0x10, 0x51, 0x91, 0xFF] {
        let mut wrong = bytes.clone();
        wrong[17] = map;
        refused(&wrong, 4, 17);
        wrong[10] = map;
        refused(&wrong, 4, 10);
    }
}

#[test]
fn the_header_comes_first() {
    let mut bytes = list(100, &[SHORT; MOST_ENTRIES]);
    refused(&bytes, 14, 10);
    bytes[2] = 65;
    refused(&bytes, 3, 2);
    (bytes[0], bytes[1]) = (0, 0);
    refused(&bytes, 2, 0);
    (bytes[0], bytes[1]) = (0xA1, 0x05);
    refused(&bytes, 2, 0);
}

/// A list that is wrong in every row of reading, mended row by row: 2, 3, 4, 5, 6, 7, 8, 14.
#[test]
fn the_rows_of_reading_in_their_order() {
    let mut bytes = [list(0, &[SHORT, SHORT, Written { d: Some(100), p: 0, ..SHORT }]), vec![0]].concat();
    bytes[2] = 65;
    bytes[17] |= 0x40;
    refused(&bytes, 2, 0);
    bytes[0] = 100;
    refused(&bytes, 3, 2);
    bytes[2] = 3;
    refused(&bytes, 4, 17);
    bytes[17] ^= 0x40;
    refused(&bytes, 5, 17);
    bytes[22] = 101;
    refused(&bytes, 6, 17);
    bytes[24] = 1;
    refused(&bytes, 7, 17);
    bytes[22] = 50;
    refused(&bytes, 8, 26);
    bytes.truncate(26);
    refused(&bytes, 14, 10);
    bytes[11] = 8;
    refused(&bytes, 14, 17);
    bytes[18] = 7;
    assert_eq!(accepted(&bytes).entries.len(), 3);
}

/// The same of a value: 2, 3, 15, then 16, 6 and 7 of all entries, 14, and then 12.
#[test]
fn the_rows_of_writing_in_their_order() {
    let wrong = value(0, 65, &[entry(1, 100, 1), entry(1, 100, 1), entry(0, 101, 0)]);
    let right = Mended { h: 100, opening: 1, r: 1, d: 100 };
    let right = values::mended(wrong, right, |fields, number, carries| {
        [0, 3, 5, 26, ROOM].iter().for_each(|&room| not_written(fields, room, number, carries));
    });
    not_written(&right, 25, 12, 26);
    assert_eq!(written(&right, 26).len(), 26);
}

/// Only the first n entries count: a box may stand again behind the list, and the list is written as it is.
#[test]
fn entries_from_place_n_on_are_not_looked_at() {
    let mut fields = value(100, MOST_ENTRIES as u32, &vec![entry(0, 100, 1); MOST_ENTRIES]);
    for n in 2..=MOST_ENTRIES {
        fields[1] = n as u32;
        not_written(&fields, ROOM, 14, 1);
    }
    fields[1] = 1;
    assert_eq!(written(&fields, ROOM), hex("64 00 01 | 11 09000000 0100"));
    fields[1] = 0;
    assert_eq!(written(&fields, ROOM), hex("64 00 00"));
    let two = value(100, 2, &samples::numbered(&[entry(0, 50, 1), entry(50, 100, 1)]));
    let form = written(&two, ROOM);
    for serial in [9, 10] {
        let mut fields = with_rest(&two, || 1);
        flat::put(&mut fields, 2, &Entry { serial, ..entry(0, 100, 1) });
        assert_eq!(written(&fields, ROOM), form, "serial {serial} behind the list");
        fields[1] = 3;
        not_written(&fields, ROOM, 14, 2);
    }
}

/// "n over 64" comes before any entry is looked at: there are only 64 places.
#[test]
fn more_than_64_entries_of_one_box_are_3() {
    let full = value(100, 64, &vec![entry(0, 100, 1); MOST_ENTRIES]);
    not_written(&full, ROOM, 14, 1);
    for n in [65, 66, 128, 255, 256, 258, u32::MAX] {
        let mut fields = full;
        fields[1] = n;
        not_written(&fields, ROOM, 3, 0);
    }
}

/// "A refusal writes nothing to any lent buffer", whatever stands in it.
#[test]
fn the_lent_fields_and_bytes_stay_as_they_were() {
    let day = clashes::day(100, &[(7, (0, 60)), (8, (0, 100)), (7, (59, 61))]);
    let (bytes, fields) = (writer::form(&day), flat::of_day(&day));
    let (answer, left) = abi::read(&bytes);
    assert_eq!((answer.number, answer.values), (14, [19, 0, 0]));
    assert!(left == abi::untouched_fields(), "fields changed by reading");
    for room in (0..=bytes.len() + 1).chain([SIZE, LONGEST_LIST, 5_000]) {
        let (answer, left) = abi::write(&fields, room);
        assert_eq!((answer.number, answer.values), (14, [2, 0, 0]), "{room} bytes");
        assert!(left == abi::untouched_bytes(room), "bytes changed by writing into {room}");
    }
}

/// The windows that count are those of the entry, not the minutes that it needs: with p 1 of 60 both boxes would
/// have their minute in time.
#[test]
fn the_window_counts_and_not_the_work() {
    for (p, other) in [(1, 1), (30, 30), (60, 60), (1, 60)] {
        let mut day = clashes::day(100, &[(7, (0, 60)), (7, (40, 100))]);
        (day.entries[0].p, day.entries[1].p) = (p, other);
        told(&day, Some(1));
        day.entries[1].r = 60 - u16::from(other == 60);
        day.entries[1].p = other.min(40);
        told(&day, (other == 60).then_some(1));
    }
}

/// Both kinds of either entry are alike.
#[test]
fn kinds_do_not_count() {
    for kinds in [[false, false], [false, true], [true, false], [true, true]] {
        for (window, place) in [((5, 9), None), ((4, 9), Some(1))] {
            let mut day = clashes::day(9, &[(7, (0, 5)), (7, window)]);
            (day.entries[0].whole, day.entries[1].whole) = (kinds[0], kinds[1]);
            told(&day, place);
        }
    }
}

/// Random lists of few serials, whose windows are told apart by their ends.
#[test]
fn ten_thousand_lists_of_few_serials() {
    let mut random = Random::new(7);
    let mut seen = [0; 2];
    for turn in 0..10_000 {
        let h = random.pick(&[5, 20, 300, LONGEST_DAY]);
        let n = if turn % 20 == 0 { MOST_ENTRIES } else { 1 + random.below(6) };
        let mut day = Day { h, opening: 0, entries: random::entries(&mut random, h, n) };
        let few = random.pick(&[1, 2, 4, 300]);
        day.entries.iter_mut().for_each(|entry| entry.serial = random.below(few) as u32);
        if turn % 2 == 0 {
            day = samples::told_apart(day);
        }
        let entries: Vec<_> = day.entries.iter().map(|entry| (entry.serial, (entry.r, entry.d))).collect();
        let place = clashes::told(&entries);
        told(&day, place);
        seen[usize::from(place.is_some())] += 1;
    }
    assert!(seen.iter().all(|&count| count > 2_000), "{seen:?}");
}

/// What can be written can be read, and the other way round: 14 is told by both or by none.
#[test]
fn reading_and_writing_agree() {
    let mut random = Random::new(8);
    let mut seen = [0; 2];
    for _ in 0..5_000 {
        let drawn = random::any_drawn_day(&mut random);
        let day = random::with_doubled_serials(&mut random, drawn, 20);
        let bytes = writer::form(&day);
        let read = check::number(&check::read(&bytes));
        let wrote = check::number(&check::write(&flat::of_day(&day), ROOM));
        assert_eq!(read, wrote, "{day:?}");
        assert!(read == 0 || read == 14, "{read} of {day:?}");
        seen[usize::from(read == 14)] += 1;
    }
    assert!(seen.iter().all(|&count| count > 500), "{seen:?}");
}

/// Two depots number their boxes alike. In other hours every entry is kept, with all its fields.
#[test]
fn two_depots_in_other_hours_make_one_list() {
    let (morning, noon) = (clashes::depot(0), clashes::depot(120));
    for depots in [[&morning, &noon], [&noon, &morning]] {
        let day = clashes::merged(&depots);
        let read = accepted(&writer::form(&day));
        assert_eq!(read.entries.len(), 8);
        assert_eq!(read.entries[..4], depots[0].entries);
        assert_eq!(read.entries[4..], depots[1].entries);
        told(&day, None);
    }
}

/// In the same hours the list is turned back by the place of the first box that stands twice; in another order that is
/// another place, and no entry is dropped in silence.
#[test]
fn two_depots_in_the_same_hours_are_turned_back() {
    let (one, other) = (clashes::depot(0), clashes::depot(60));
    told(&clashes::merged(&[&one]), None);
    told(&clashes::merged(&[&other]), None);
    // box 1 [0, 120) and again [60, 180)
    told(&clashes::merged(&[&one, &other]), Some(4));
    told(&clashes::merged(&[&other, &one]), Some(4));
    // box 2 [10, 70) and again [70, 130); box 3 [30, 60) and again [90, 120); box 4 [60, 120) and again [120, 180)
    let mut both = clashes::merged(&[&one, &other]);
    both.entries.remove(4);
    told(&both, None);
    both.entries.insert(0, one.entries[0].clone());
    told(&both, Some(1));
    // one after the other in turn: box 1 stands twice at once
    let in_turn = Day {
        h: one.h,
        opening: 0,
        entries: one.entries.iter().zip(&other.entries).flat_map(|(a, b)| [a.clone(), b.clone()]).collect(),
    };
    told(&in_turn, Some(1));
}
