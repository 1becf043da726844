//! The minutes of an entry: written defaults (5), no minutes needed (6), windows (7), in this order.

use dock_tests::check::{self, accepted, refused};
use dock_tests::samples::{list, Written, SHORT};

/// An entry with these minutes written.
fn minutes(r: Option<u16>, d: Option<u16>, p: u16) -> Written {
    Written { r, d, p, ..SHORT }
}

/// A day of 100 minutes with one entry, whose map byte is at 3.
fn one(r: Option<u16>, d: Option<u16>, p: u16) -> Vec<u8> {
    list(100, &[minutes(r, d, p)])
}

/// An entry for each rule that it can break in a day of 100 minutes, with the refusal's number.
fn wrong_entries() -> [(Written, u32); 3] {
    [(minutes(Some(0), None, 1), 5), (minutes(None, None, 0), 6), (minutes(None, None, 101), 7)]
}

#[track_caller]
fn window(bytes: &[u8]) -> (u16, u16, u16) {
    let day = accepted(bytes);
    (day.entries[0].r, day.entries[0].d, day.entries[0].p)
}

#[test]
fn missing_r_and_d_mean_0_and_h() {
    assert_eq!(window(&one(None, None, 100)), (0, 100, 100));
    assert_eq!(window(&one(Some(1), None, 99)), (1, 100, 99));
    assert_eq!(window(&one(None, Some(99), 99)), (0, 99, 99));
    assert_eq!(window(&one(Some(1), Some(99), 98)), (1, 99, 98));
}

#[test]
fn a_written_default_is_5() {
    refused(&one(Some(0), None, 1), 5, 3);
    refused(&one(None, Some(100), 1), 5, 3);
    refused(&one(Some(0), Some(100), 1), 5, 3);
    refused(&one(Some(0), Some(50), 1), 5, 3);
    refused(&one(Some(50), Some(100), 1), 5, 3);
}

#[test]
fn only_its_own_default_is_refused() {
    assert_eq!(window(&one(Some(99), None, 1)), (99, 100, 1));
    assert_eq!(window(&one(None, Some(1), 1)), (0, 1, 1));
    refused(&one(Some(100), None, 1), 7, 3);
    refused(&one(None, Some(0), 1), 7, 3);
}

#[test]
fn a_written_default_comes_before_no_minutes_and_windows() {
    refused(&one(Some(0), None, 0), 5, 3);
    refused(&one(None, Some(100), 0), 5, 3);
    refused(&one(Some(0), Some(101), 1), 5, 3);
    refused(&one(Some(100), Some(100), 1), 5, 3);
    refused(&one(Some(65_535), Some(100), 65_535), 5, 3);
}

#[test]
fn no_minutes_is_6_and_comes_before_windows() {
    refused(&one(None, None, 0), 6, 3);
    refused(&one(Some(50), Some(60), 0), 6, 3);
    refused(&one(None, Some(101), 0), 6, 3);
    refused(&one(Some(60), Some(50), 0), 6, 3);
}

#[test]
fn a_window_ends_with_the_day() {
    refused(&one(None, Some(101), 1), 7, 3);
    refused(&one(None, Some(65_535), 1), 7, 3);
    refused(&one(Some(65_534), Some(65_535), 1), 7, 3);
}

#[test]
fn a_window_holds_its_minutes() {
    assert_eq!(window(&one(Some(40), Some(50), 10)), (40, 50, 10));
    refused(&one(Some(40), Some(50), 11), 7, 3);
    refused(&one(Some(41), Some(50), 10), 7, 3);
    refused(&one(None, None, 101), 7, 3);
    refused(&one(Some(50), Some(50), 1), 7, 3);
    refused(&one(Some(51), Some(50), 1), 7, 3);
}

#[test]
fn a_sum_that_passes_65535_is_7() {
    refused(&one(Some(65_535), None, 1), 7, 3);
    refused(&one(Some(65_535), Some(99), 1), 7, 3);
    refused(&one(Some(65_535), None, 2), 7, 3);
    refused(&one(Some(1), None, 65_535), 7, 3);
    refused(&one(Some(2), None, 65_535), 7, 3);
    refused(&one(Some(50), None, 65_500), 7, 3);
    refused(&one(Some(32_768), None, 32_768), 7, 3);
    refused(&one(Some(65_535), Some(65_535), 65_535), 7, 3);
}

#[test]
fn one_entry_may_fill_the_longest_day() {
    let day = accepted(&list(1440, &[minutes(None, None, 1440)]));
    assert_eq!((day.entries[0].d, day.entries[0].p), (1440, 1440));
    refused(&list(1440, &[minutes(None, None, 1441)]), 7, 3);
    refused(&list(1440, &[minutes(None, Some(1440), 1440)]), 5, 3);
    refused(&list(1440, &[minutes(None, Some(1441), 1440)]), 7, 3);
}

#[test]
fn a_day_of_one_minute() {
    assert_eq!(window(&list(1, &[minutes(None, None, 1)])), (0, 1, 1));
    refused(&list(1, &[minutes(Some(1), None, 1)]), 7, 3);
    refused(&list(1, &[minutes(None, Some(1), 1)]), 5, 3);
    refused(&list(1, &[minutes(None, None, 2)]), 7, 3);
}

#[test]
fn a_refusal_carries_the_place_of_its_entrys_map_byte() {
    let wide = Written { seal: Some(1), r: Some(1), d: Some(99), ..SHORT };
    for (entry, number) in wrong_entries() {
        refused(&list(100, &[entry, SHORT]), number, 3);
        refused(&list(100, &[SHORT, entry]), number, 10);
        refused(&list(100, &[wide, entry]), number, 18);
        refused(&list(100, &[SHORT, wide, entry, SHORT]), number, 25);
    }
}

#[test]
fn the_first_wrong_entry_is_told_whatever_its_number() {
    for (first, number) in wrong_entries() {
        for (second, _) in wrong_entries() {
            refused(&list(100, &[SHORT, first, second]), number, 10);
        }
    }
}

#[test]
fn a_wrong_entry_comes_before_bytes_left_over() {
    for (entry, number) in wrong_entries() {
        refused(&[list(100, &[entry]), vec![0]].concat(), number, 3);
    }
}

/// Every combination of r, d and p at the edges, each of r and d also missing.
fn edges_of(h: u16) {
    let edges = [0, 1, 2, h - 1, h, h + 1, 32_767, 32_768, 65_535 - h, 65_534, 65_535];
    let maybe: Vec<_> = edges.into_iter().map(Some).chain([None]).collect();
    for &r in &maybe {
        for &d in &maybe {
            for p in edges {
                let entry = Written { whole: p % 2 == 0, seal: r.map(u32::from), ..minutes(r, d, p) };
                let _ = check::read(&list(h, &[entry]));
                let other = |serial| Written { serial, ..SHORT };
                let _ = check::read(&list(h, &[other(8), entry, other(10)]));
                let _ = check::read(&list(h, &[other(8), entry, other(9)]));
            }
        }
    }
}

#[test]
fn every_combination_of_edges() {
    [1, 2, 3, 100, 255, 256, 257, 1439, 1440].into_iter().for_each(edges_of);
}

#[test]
fn every_window_of_small_days() {
    for h in 1..=5 {
        let maybe: Vec<_> = (0..=h + 1).map(Some).chain([None]).collect();
        for &r in &maybe {
            for &d in &maybe {
                for p in 0..=h + 1 {
                    let _ = check::read(&list(h, &[minutes(r, d, p)]));
                }
            }
        }
    }
}
