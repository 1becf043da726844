//! The rules of document 01 and of document 02's "One box in two places", each with the lists that break it.

use super::{day, list, Refused, Rule};
use crate::day::MOST_ENTRIES;

pub const RULES: [Rule; 18] = [
    ("a day of 0 minutes or over 1,440 is 2", day_length),
    ("more than 64 entries are 3", too_many),
    ("3 whatever the entries", too_many_of_any_sort),
    ("2 before 3", day_length_first),
    ("2 and 3 before 6", header_first),
    ("6 and 7 carry the entry's place", wrong_at_each_place),
    ("6 before 7", no_minutes_first),
    ("a window lies in the day and holds the minutes, else 7", window),
    ("a sum over 65,535 is 7", large_sum),
    ("an empty window is 7", empty_window),
    ("the first wrong entry is told", first_wrong_entry),
    ("a number too large for its field is refused by its own row", too_large),
    ("windows of one serial that share a minute are 14", clash),
    ("14 carries the place of the later entry", clash_at_each_place),
    ("of several such entries the first is told", first_clash),
    ("2 and 3 before 14", header_before_clash),
    ("6 and 7 of any entry before 14", entries_before_clash),
    ("14 before 9 and 10", clash_before_windows),
];

fn day_length(refused: Refused) {
    for h in [0, 1441, 1442, 32_768, 65_535] {
        refused(list(h, 0, &[]), 2, 0);
        refused(list(h, 1, &[[0, 1, 1]]), 2, 0);
    }
}

fn too_many(refused: Refused) {
    refused(list(100, 65, &[]), 3, 0);
    for n in 65..=255 {
        refused(list(100, n, &[[0, 100, 1]; MOST_ENTRIES]), 3, 0);
    }
}

/// 3 is given before any entry is looked at: there are only 64 places.
fn too_many_of_any_sort(refused: Refused) {
    for entry in [[0, 100, 1], [0, 0, 0], [0, 101, 1], [0, 100, 100]] {
        refused(list(100, 255, &[entry; MOST_ENTRIES]), 3, 0);
    }
}

fn day_length_first(refused: Refused) {
    refused(list(0, 65, &[]), 2, 0);
    refused(list(1441, 255, &[]), 2, 0);
}

fn header_first(refused: Refused) {
    let wrong = [[0, 0, 0]; MOST_ENTRIES];
    refused(list(0, 64, &wrong), 2, 0);
    refused(list(0, 65, &wrong), 2, 0);
    refused(list(1441, 64, &wrong), 2, 0);
    refused(list(100, 65, &wrong), 3, 0);
    refused(list(100, 255, &wrong), 3, 0);
    refused(list(100, 64, &wrong), 6, 0);
    refused(list(0, 1, &[[0, 0, 1]]), 2, 0);
}

/// Full days in which one entry has no minutes, ends past the day or is too long for it.
fn wrong_at_each_place(refused: Refused) {
    for (number, wrong) in [(6, [0, 100, 0]), (7, [0, 101, 1]), (7, [0, 100, 101])] {
        for place in 0..MOST_ENTRIES {
            let mut entries = [[0, 100, 1]; MOST_ENTRIES];
            entries[place] = wrong;
            refused(day(&entries), number, place);
        }
    }
}

fn no_minutes_first(refused: Refused) {
    for (r, d) in [(0, 101), (60, 50), (65_535, 65_535), (0, 0)] {
        refused(day(&[[r, d, 0]]), 6, 0);
    }
}

fn window(refused: Refused) {
    for times in [[0, 101, 1], [100, 100, 1], [40, 50, 11], [41, 50, 10], [51, 50, 1], [0, 0, 1]] {
        refused(day(&[times]), 7, 0);
    }
}

/// r + p above 65,535 must not begin at 0 again: r 65,535 and p 1 is 7.
fn large_sum(refused: Refused) {
    for (r, p) in [(65_535, 1), (65_535, 2), (1, 65_535), (2, 65_535), (32_768, 32_768), (65_535, 65_535)] {
        refused(day(&[[r, 100, p]]), 7, 0);
        refused(day(&[[0, 100, 1], [r, 100, p]]), 7, 1);
    }
    refused(day(&[[65_535, 65_535, 65_535]]), 7, 0);
}

/// An empty window makes no interval and would pass the overload test, and no start could be tried in it. It
/// is 7, and never comes to 9 or 10.
fn empty_window(refused: Refused) {
    for times in [[50, 50, 1], [60, 50, 1]] {
        refused(day(&[times]), 7, 0);
        refused(day(&[[0, 100, 10], times]), 7, 1);
    }
    refused(day(&[[0, 10, 10], [5, 5, 1]]), 7, 1);
}

fn first_wrong_entry(refused: Refused) {
    let (right, no_minutes, too_long) = ([0, 100, 1], [0, 100, 0], [0, 100, 101]);
    refused(day(&[too_long, no_minutes]), 7, 0);
    refused(day(&[no_minutes, too_long]), 6, 0);
    refused(day(&[right, too_long]), 7, 1);
    refused(day(&[right, no_minutes]), 6, 1);
    refused(day(&[right, too_long, no_minutes]), 7, 1);
    refused(day(&[right, no_minutes, too_long]), 6, 1);
}

/// Numbers too large for their field get the refusal that the number itself would get.
fn too_large(refused: Refused) {
    for more in [65_536, 65_548, 65_536 + 100, 131_072, u32::MAX] {
        refused(list(more, 1, &[[0, 100, 4]]), 2, 0);
        refused(day(&[[more, 100, 4]]), 7, 0);
        refused(day(&[[0, more, 4]]), 7, 0);
        refused(day(&[[0, 100, more]]), 7, 0);
    }
    for n in [65, 256, 257, 256 + 3, 65_536 + 3, 0xFFFF_FF03] {
        refused(list(100, n, &[[0, 100, 4]]), 3, 0);
    }
}

/// Document 02, "One box in two places": the same window, one inside the other, a minute at either end, the day's
/// first and last minute; whichever of the two comes first, and whatever the serial is.
fn clash(refused: Refused) {
    let pairs = [
        [[0, 100, 1], [0, 100, 1]],
        [[40, 50, 10], [40, 50, 1]],
        [[0, 100, 1], [40, 50, 1]],
        [[40, 50, 1], [40, 60, 1]],
        [[40, 50, 1], [30, 50, 1]],
        [[0, 50, 1], [49, 100, 1]],
        [[0, 1, 1], [0, 100, 1]],
        [[99, 100, 1], [0, 100, 1]],
        [[10, 11, 1], [10, 11, 1]],
    ];
    for [one, other] in pairs {
        for serial in [0, 7, 255, 256, 65_536, u32::MAX] {
            refused(day(&[one, other]).serials(&[serial; 2]), 14, 1);
            refused(day(&[other, one]).serials(&[serial; 2]), 14, 1);
        }
    }
}

/// Full days of serials that differ, but for one entry that has an earlier one's.
fn clash_at_each_place(refused: Refused) {
    let entries = day(&[[0, 100, 1]; MOST_ENTRIES]).entries;
    for place in 1..MOST_ENTRIES {
        for earlier in [0, place / 2, place - 1] {
            let mut serials = Vec::from_iter(0..MOST_ENTRIES as u32);
            serials[place] = serials[earlier];
            refused(day(&entries).serials(&serials), 14, place);
        }
    }
}

/// The lowest later place, not that of the lowest pair: places 0 and 3 share a minute, and 1 and 2 do.
fn first_clash(refused: Refused) {
    let all_day = [0, 100, 1];
    refused(day(&[all_day; 4]).serials(&[1, 2, 2, 1]), 14, 2);
    refused(day(&[all_day; 4]).serials(&[1, 2, 1, 2]), 14, 2);
    refused(day(&[all_day; 5]).serials(&[1, 2, 3, 3, 1]), 14, 3);
    refused(day(&[all_day; MOST_ENTRIES]).serials(&[5; MOST_ENTRIES]), 14, 1);
    refused(day(&[[0, 30, 1], [30, 60, 1], [29, 30, 1]]).serials(&[7; 3]), 14, 2);
    refused(day(&[[0, 30, 1], [30, 60, 1], [30, 31, 1]]).serials(&[7; 3]), 14, 2);
    refused(day(&[[0, 30, 1], [60, 90, 1], [30, 60, 1], [0, 100, 1]]).serials(&[7; 4]), 14, 3);
}

fn header_before_clash(refused: Refused) {
    for h in [0, 1441] {
        refused(list(h, 2, &[[0, 1, 1]; 2]).serials(&[7; 2]), 2, 0);
    }
    for n in [65, 255] {
        refused(list(100, n, &[[0, 100, 1]; MOST_ENTRIES]).serials(&[7; MOST_ENTRIES]), 3, 0);
    }
}

/// Entries 0 and 1 are one box in two places, and another is wrong: one before them, the later of the two itself, or
/// one after them.
fn entries_before_clash(refused: Refused) {
    for (number, wrong) in [(6, [0, 100, 0]), (7, [0, 101, 1]), (7, [50, 100, 51])] {
        refused(day(&[[0, 100, 1], wrong]).serials(&[7; 2]), number, 1);
        refused(day(&[wrong, [0, 100, 1], [0, 100, 1]]).serials(&[6, 7, 7]), number, 0);
        refused(day(&[[0, 100, 1], [0, 100, 1], wrong]).serials(&[7, 7, 8]), number, 2);
        refused(day(&[[0, 100, 1], [0, 100, 1], wrong]).serials(&[7; 3]), number, 2);
        let mut full = [[0, 100, 1]; MOST_ENTRIES];
        full[63] = wrong;
        refused(day(&full).serials(&[7; MOST_ENTRIES]), number, 63);
    }
}

/// The list is overloaded as well, by the two of one serial or by others; or whole entries have no place.
fn clash_before_windows(refused: Refused) {
    refused(day(&[[0, 100, 100]; 2]).serials(&[7; 2]), 14, 1);
    refused(day(&[[0, 2, 2], [1, 2, 1], [50, 60, 1], [50, 60, 1]]).serials(&[1, 2, 3, 3]), 14, 3);
    refused(day(&[[0, 6, 3], [2, 4, 2], [10, 12, 1], [11, 13, 1]]).serials(&[1, 2, 3, 3]), 14, 3);
}
