//! The rules of document 02's "The room opens after midnight" for a value, each with the lists that break it: an opening
//! minute is refused as 15 "(0 for a value, where only H or more is wrong), and an r before the opening minute as 16 ..
//! for a value, before 6, carrying the place that 7 would".

use super::{day, list, Refused, Rule};
use crate::day::MOST_ENTRIES;

pub const RULES: [Rule; 11] = [
    ("an opening minute of H or more is 15", too_late),
    ("in a day of one minute every opening minute is 15", one_minute),
    ("an opening minute too large for its field is 15", too_large),
    ("2 and 3 before 15", header_first),
    ("15 before all rows of an entry, and 14", opening_first),
    ("an r before the opening minute is 16", before_opening),
    ("16 carries the entry's place", before_opening_at_each_place),
    ("16 before 6 and 7 of its entry", before_opening_first),
    ("the first wrong entry is told, with 16 too", first_wrong_entry),
    ("16 of any entry before 14", before_opening_before_clash),
    ("16 before 9 and 10", before_opening_before_windows),
];

fn too_late(refused: Refused) {
    for (h, opening) in
        [(2, 2), (100, 100), (100, 101), (100, 1439), (100, 65_535), (1440, 1440), (1440, 1441)]
    {
        refused(list(h, 0, &[]).opening(opening), 15, 0);
        refused(list(h, 1, &[[0, h, 1]]).opening(opening), 15, 0);
        refused(list(h, 2, &[[0, h, 1], [1, h, 1]]).opening(opening), 15, 0);
    }
}

fn one_minute(refused: Refused) {
    for opening in [1, 2, 255, 256, 1440, 65_535] {
        refused(list(1, 0, &[]).opening(opening), 15, 0);
        refused(list(1, 1, &[[0, 1, 1]]).opening(opening), 15, 0);
    }
}

/// Cut to two bytes 65,536 would be none, and 65,543 would be 7.
fn too_large(refused: Refused) {
    for more in [65_536, 65_537, 65_543, 131_072, 0x0100_0007, u32::MAX] {
        refused(list(1440, 0, &[]).opening(more), 15, 0);
        refused(day(&[[7, 100, 4]]).opening(more), 15, 0);
    }
}

fn header_first(refused: Refused) {
    for h in [0, 1441, 65_535] {
        for opening in [0, 1, 1440, 1441, 65_535, 65_536] {
            refused(list(h, 0, &[]).opening(opening), 2, 0);
            refused(list(h, 65, &[]).opening(opening), 2, 0);
        }
    }
    for n in [65, 127, 128, 129, 192, 255, 256] {
        for opening in [0, 1, 99, 100, 65_535] {
            refused(list(100, n, &[[0, 100, 1]; MOST_ENTRIES]).opening(opening), 3, 0);
        }
    }
}

fn opening_first(refused: Refused) {
    for wrong in [[0, 100, 1], [50, 100, 0], [0, 101, 1], [60, 50, 1]] {
        refused(day(&[wrong]).opening(100), 15, 0);
        refused(day(&[[0, 100, 1], wrong]).opening(65_535), 15, 0);
    }
    refused(day(&[[0, 100, 1]; 2]).opening(100).serials(&[7; 2]), 15, 0);
}

fn before_opening(refused: Refused) {
    for (r, opening) in [(0, 1), (0, 99), (6, 7), (0, 7), (49, 50), (98, 99)] {
        refused(day(&[[r, 100, 1]]).opening(opening), 16, 0);
        refused(day(&[[r, r + 1, 1]]).opening(opening), 16, 0);
    }
    for r in [0, 1, 255, 256, 257] {
        refused(list(1440, 1, &[[r, 1440, 1]]).opening(258), 16, 0);
    }
}

fn before_opening_at_each_place(refused: Refused) {
    for r in [0, 19] {
        for place in 0..MOST_ENTRIES {
            let mut entries = [[20, 100, 1]; MOST_ENTRIES];
            entries[place][0] = r;
            refused(day(&entries).opening(20), 16, place);
        }
    }
}

/// No minutes, a window past the day, too short, or empty.
fn before_opening_first(refused: Refused) {
    for (d, p) in [(100, 0), (101, 1), (50, 50), (6, 1), (0, 1), (0, 0), (65_535, 65_535), (65_536, 0)] {
        refused(day(&[[6, d, p]]).opening(7), 16, 0);
        refused(day(&[[7, 100, 1], [6, d, p]]).opening(7), 16, 1);
    }
    refused(day(&[[7, 100, 0]]).opening(7), 6, 0);
    refused(day(&[[7, 100, 94]]).opening(7), 7, 0);
}

fn first_wrong_entry(refused: Refused) {
    let (right, early, no_minutes, too_long) = ([7, 100, 1], [6, 100, 1], [7, 100, 0], [7, 100, 94]);
    refused(day(&[early, no_minutes]).opening(7), 16, 0);
    refused(day(&[no_minutes, early]).opening(7), 6, 0);
    refused(day(&[too_long, early]).opening(7), 7, 0);
    refused(day(&[right, early, too_long]).opening(7), 16, 1);
    refused(day(&[right, too_long, early]).opening(7), 7, 1);
    refused(day(&[right, right, early, early]).opening(7), 16, 2);
}

/// Entries 0 and 1 are one box in two places, and an r is before the opening minute: of an entry before them, of one of
/// the two, or of one after them.
fn before_opening_before_clash(refused: Refused) {
    let (right, early) = ([7, 100, 1], [6, 100, 1]);
    refused(day(&[early, right]).opening(7).serials(&[7; 2]), 16, 0);
    refused(day(&[right, early]).opening(7).serials(&[7; 2]), 16, 1);
    refused(day(&[early, right, right]).opening(7).serials(&[6, 7, 7]), 16, 0);
    refused(day(&[right, right, early]).opening(7).serials(&[7, 7, 8]), 16, 2);
    refused(day(&[right, right, right]).opening(7).serials(&[7, 7, 8]), 14, 1);
    let mut full = [right; MOST_ENTRIES];
    full[63] = early;
    refused(day(&full).opening(7).serials(&[7; MOST_ENTRIES]), 16, 63);
}

/// The list is overloaded as well, or a whole entry has no place.
fn before_opening_before_windows(refused: Refused) {
    refused(day(&[[0, 100, 100], [1, 100, 100]]).opening(1), 16, 0);
    refused(day(&[[1, 100, 99], [1, 100, 99], [0, 100, 1]]).opening(1), 16, 2);
    refused(day(&[[1, 7, 3], [3, 5, 2], [0, 100, 1]]).opening(1), 16, 2);
}
