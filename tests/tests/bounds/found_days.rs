//! Days that a search for slow ones found, planned with both programs: windows, moves, bounds, plan bytes and refusals.
//! Both plans of every sixteenth place are shown.

use dock_tests::check::accepted;
use dock_tests::check_bounds::ask_some;
use dock_tests::day::{LONGEST_DAY, MOST_ENTRIES};
use dock_tests::found;

/// Its file reads as a full day's list, and planning answers this number.
#[track_caller]
fn planned(name: &str, number: u64) {
    let day = accepted(&found::bytes(name));
    assert_eq!((day.h, day.entries.len()), (LONGEST_DAY, MOST_ENTRIES), "{name}");
    let (answer, _) = ask_some(&day, (0..MOST_ENTRIES).step_by(16));
    assert_eq!(answer.number, number, "{name}");
}

#[test]
fn the_slowest_day() {
    planned("slowest", 0);
}

#[test]
fn the_day_of_the_worst_ratio() {
    planned("worst-ratio", 0);
}

#[test]
fn the_busy_day_of_the_worst_ratio() {
    planned("worst-ratio-720", 0);
}
