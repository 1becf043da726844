//! The opening minute in the entries: "A missing r means the opening minute, and a written r equal to it is 5. .. and an
//! r before the opening minute as 16, directly after 5 .. carrying the place that 7 would."

use dock_tests::check::{self, accepted, refused};
use dock_tests::samples::{hex, list, opened_list, Written, SHORT};
use dock_tests::{abi, flat};

/// An entry with these minutes written.
fn minutes(r: Option<u16>, d: Option<u16>, p: u16) -> Written {
    Written { r, d, p, ..SHORT }
}

/// A day of 100 minutes in a room that opens at minute 7, with one entry, whose map byte is at 5.
fn one(r: Option<u16>, d: Option<u16>, p: u16) -> Vec<u8> {
    opened_list(100, 7, &[minutes(r, d, p)])
}

/// An entry for each rule that it can break in such a day, with the refusal's number.
fn wrong_entries() -> [(Written, u32); 6] {
    [
        (minutes(Some(7), None, 1), 5),
        (minutes(None, Some(100), 1), 5),
        (minutes(Some(0), None, 1), 16),
        (minutes(Some(6), Some(50), 1), 16),
        (minutes(None, None, 0), 6),
        (minutes(None, None, 94), 7),
    ]
}

#[track_caller]
fn window(bytes: &[u8]) -> (u16, u16, u16) {
    let day = accepted(bytes);
    (day.entries[0].r, day.entries[0].d, day.entries[0].p)
}

#[test]
fn a_missing_r_means_the_opening_minute() {
    assert_eq!(window(&one(None, None, 93)), (7, 100, 93));
    assert_eq!(window(&one(None, Some(50), 43)), (7, 50, 43));
    assert_eq!(window(&one(Some(8), None, 92)), (8, 100, 92));
    for opening in 1..100 {
        let bytes = opened_list(100, opening, &[minutes(None, None, 100 - opening)]);
        assert_eq!(window(&bytes), (opening, 100, 100 - opening));
        refused(&opened_list(100, opening, &[minutes(None, None, 101 - opening)]), 7, 5);
    }
}

/// The numbers that the library gives: the opening minute behind n, and the same as r of an entry that writes none.
#[test]
fn the_value_read_says_the_opening_minute() {
    let bytes = opened_list(1440, 258, &[minutes(None, None, 5), minutes(Some(259), Some(300), 3)]);
    refused(&bytes, 14, 12);
    let bytes = opened_list(1440, 258, &[Written { serial: 8, ..SHORT }, minutes(Some(259), Some(300), 3)]);
    accepted(&bytes);
    let (answer, fields) = abi::read(&bytes);
    assert_eq!(answer.number, 0);
    assert_eq!(fields[..3], [1440, 2, 258]);
    assert_eq!(fields[3..10], [8, 0, 0, 258, 1440, 1, 0]);
    assert_eq!(fields[10..17], [9, 0, 0, 259, 300, 3, 0]);
    assert!(fields[17..].iter().all(|&number| number == 0));
    assert_eq!((flat::OPENING, flat::SIZE), (2, 451));
}

/// Before the opening minute, at it, after it, and too late for the day.
#[test]
fn every_written_r() {
    for r in 0..=u16::MAX {
        let bytes = one(Some(r), None, 1);
        match r {
            0..=6 => refused(&bytes, 16, 5),
            7 => refused(&bytes, 5, 5),
            8..=99 => assert_eq!(window(&bytes), (r, 100, 1)),
            _ => refused(&bytes, 7, 5),
        }
    }
}

/// Under an opening minute 0 is no default, and without one the opening minute's number is none.
#[test]
fn a_written_r_of_0_is_16_and_without_an_opening_minute_5() {
    for d in [None, Some(50)] {
        refused(&one(Some(0), d, 1), 16, 5);
        refused(&list(100, &[minutes(Some(0), d, 1)]), 5, 3);
        assert_eq!(window(&list(100, &[minutes(Some(7), d, 1)])).0, 7);
    }
}

/// "A written .. d equal to H, is refused", whatever r is: 5 stands before 16.
#[test]
fn a_written_d_of_h_is_5_whatever_r_is() {
    for r in [None, Some(0), Some(6), Some(7), Some(8), Some(99), Some(100), Some(65_535)] {
        refused(&one(r, Some(100), 1), 5, 5);
        refused(&one(r, Some(100), 0), 5, 5);
    }
}

/// An entry that breaks two rules: 5 and 16, 5 and 6, 5 and 7, 16 and 6, 16 and 7, 6 and 7.
#[test]
fn each_row_of_an_entry_before_each_later_one() {
    refused(&one(Some(6), Some(100), 1), 5, 5);
    refused(&one(Some(7), None, 0), 5, 5);
    refused(&one(None, Some(100), 0), 5, 5);
    refused(&one(Some(7), Some(101), 1), 5, 5);
    refused(&one(Some(7), None, 94), 5, 5);
    refused(&one(Some(6), None, 0), 16, 5);
    refused(&one(Some(6), Some(101), 1), 16, 5);
    refused(&one(Some(6), None, 95), 16, 5);
    refused(&one(Some(6), Some(6), 1), 16, 5);
    refused(&one(Some(6), Some(101), 0), 16, 5);
    refused(&one(Some(8), Some(101), 0), 6, 5);
    refused(&one(Some(8), None, 0), 6, 5);
    refused(&one(Some(8), Some(101), 1), 7, 5);
}

#[test]
fn a_refusal_carries_the_place_of_its_entrys_map_byte() {
    let wide = Written { seal: Some(1), r: Some(8), d: Some(99), ..SHORT };
    for (entry, number) in wrong_entries() {
        refused(&opened_list(100, 7, &[entry, SHORT]), number, 5);
        refused(&opened_list(100, 7, &[SHORT, entry]), number, 12);
        refused(&opened_list(100, 7, &[wide, entry]), number, 20);
        refused(&opened_list(100, 7, &[SHORT, wide, entry, SHORT]), number, 27);
    }
}

#[test]
fn the_first_wrong_entry_is_told_whatever_its_number() {
    for (first, number) in wrong_entries() {
        for (second, _) in wrong_entries() {
            refused(&opened_list(100, 7, &[SHORT, first, second]), number, 12);
        }
    }
}

/// The last of 64 entries, after the shortest ones and after the longest.
#[test]
fn sixteen_in_the_last_of_sixty_four_entries() {
    let early = minutes(Some(6), None, 1);
    let numbered = |entry: Written| (9..).take(63).map(move |serial| Written { serial, ..entry });
    let after = |entry: Written| numbered(entry).chain([early]).collect::<Vec<_>>();
    refused(&opened_list(100, 7, &after(SHORT)), 16, 5 + 63 * 7);
    let wide = Written { seal: Some(1), r: Some(8), d: Some(99), ..SHORT };
    refused(&opened_list(100, 7, &after(wide)), 16, 5 + 63 * 15);
}

#[test]
fn an_r_before_the_opening_minute_comes_before_what_follows_its_entry() {
    let early = minutes(Some(6), None, 1);
    refused(&[opened_list(100, 7, &[early]), vec![0]].concat(), 16, 5); // 8
    refused(&opened_list(100, 7, &[early, SHORT]), 16, 5); // 14
    let mut bytes = opened_list(100, 7, &[early]);
    bytes[2] += 1;
    refused(&bytes, 16, 5); // 1
    bytes.push(0);
    refused(&bytes, 16, 5); // 4
}

#[test]
fn a_missing_field_comes_before_an_r_before_the_opening_minute() {
    refused(&hex("64 00 81 07 00 | 15 01000000 0600 01"), 1, 13);
    refused(&hex("64 00 81 07 00 | 15 01000000 0600 0100"), 16, 5);
    refused(&hex("64 00 81 07 00 | 55 01000000 0600 0100"), 4, 5);
    refused(&hex("64 00 82 07 00 | 15 01000000 0600 0100 | 11"), 16, 5);
}

/// 14 looks at windows that begin at the opening minute, and carries the later map's place.
#[test]
fn one_box_in_two_places_with_an_opening_minute() {
    let until = |d: u16| minutes(None, Some(d), 1);
    refused(&opened_list(100, 7, &[until(8), until(9)]), 14, 14);
    refused(&opened_list(100, 7, &[SHORT, minutes(Some(99), None, 1)]), 14, 12);
    let touching = accepted(&opened_list(100, 7, &[until(8), minutes(Some(8), None, 1)]));
    assert_eq!((touching.entries[0].d, touching.entries[1].r), (8, 8));
    assert_eq!(touching.entries[0].serial, touching.entries[1].serial);
}

/// Every combination of r, d and p at the edges of the day and of its opening minute, each of r and d also missing, after
/// a right entry or before one.
fn edges_of(h: u16, opening: u16) {
    let near = [opening.wrapping_sub(1), opening, opening.wrapping_add(1)];
    let edges = [&near[..], &[0, 1, h - 1, h, h + 1, 32_768, 65_535 - h, 65_534, 65_535]].concat();
    let maybe: Vec<_> = edges.iter().copied().map(Some).chain([None]).collect();
    for &r in &maybe {
        for &d in &maybe {
            for &p in &edges {
                let entry = Written { whole: p % 2 == 0, seal: r.map(u32::from), ..minutes(r, d, p) };
                let _ = check::read(&opened_list(h, opening, &[entry]));
                let _ =
                    check::read(&opened_list(h, opening, &[Written { serial: 8, ..SHORT }, entry, SHORT]));
            }
        }
    }
}

#[test]
fn every_combination_of_edges() {
    for (h, opening) in
        [(2, 1), (3, 1), (100, 7), (256, 255), (257, 256), (1440, 1), (1440, 258), (1440, 1439)]
    {
        edges_of(h, opening);
    }
}

#[test]
fn every_window_of_small_days_with_every_opening_minute() {
    for h in 1..=5 {
        let maybe: Vec<_> = (0..=h + 1).map(Some).chain([None]).collect();
        for opening in 0..=h + 1 {
            for &r in &maybe {
                for &d in &maybe {
                    for p in 0..=h + 1 {
                        let answer = check::read(&opened_list(h, opening, &[minutes(r, d, p)]));
                        assert_eq!(check::number(&answer) == 15, opening == 0 || opening >= h);
                    }
                }
            }
        }
    }
}
