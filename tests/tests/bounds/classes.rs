//! Classes of full days, planned with both programs: windows, moves, bounds, plan bytes, refusals and what these carry.
//! On the first day of a class both plans of every place are shown, on the others those of every sixteenth place.

use dock_tests::check_bounds::ask_some;
use dock_tests::classes::{self, Class};
use dock_tests::day::MOST_ENTRIES;

/// Plans the days of a class, and has plans shown.
#[track_caller]
fn planned(class: &Class) {
    for (turn, day) in class.days().enumerate() {
        let step = if turn == 0 { 1 } else { 16 };
        let (answer, _) = ask_some(&day, (turn..MOST_ENTRIES).step_by(step));
        assert_eq!(answer.number, class.number, "{}, seed {}", class.name, turn + 1);
    }
}

#[test]
fn loose_windows_around_a_plan() {
    planned(&classes::LOOSE);
}

#[test]
fn tight_windows_around_a_plan() {
    planned(&classes::TIGHT);
}

#[test]
fn tight_windows_of_whole_entries() {
    planned(&classes::ALL_WHOLE);
}

#[test]
fn many_rounds() {
    planned(&classes::MANY_ROUNDS);
}

#[test]
fn nested_windows() {
    planned(&classes::NESTED);
}

#[test]
fn a_comb_of_pause_entries() {
    planned(&classes::COMB);
}

#[test]
fn a_wall_of_short_deadlines() {
    planned(&classes::WALL);
}

#[test]
fn one_long_pause_entry() {
    planned(&classes::LONG_PAUSE);
}

#[test]
fn days_refused_by_9() {
    planned(&classes::REFUSED_BY_9);
}

#[test]
fn days_refused_by_10_late() {
    planned(&classes::REFUSED_BY_10);
}
