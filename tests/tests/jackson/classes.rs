//! Classes of full days: the schedule of the windows as given, byte for byte that of the rule minute by minute, or the
//! interval shown.

use dock_tests::check::{overloaded, planned};
use dock_tests::classes::{self, Class};
use dock_tests::rule;

/// The classes whose days have a plan in the windows given, or those whose days have none.
fn classes(overloaded: bool) -> impl Iterator<Item = &'static Class> {
    classes::ALL.iter().filter(move |class| (class.number == 9) == overloaded)
}

#[test]
fn each_schedule_is_jacksons() {
    let mut days = 0;
    for day in classes(false).flat_map(Class::days) {
        let plan = planned(&day);
        rule::follows(&day, &plan).unwrap_or_else(|broken| panic!("{broken}: {day:?}"));
        days += 1;
    }
    assert_eq!(days, 9 * classes::DAYS);
}

#[test]
fn each_overloaded_day_shows_its_interval() {
    for day in classes(true).flat_map(Class::days) {
        let interval = overloaded(&day);
        assert!(interval.work > u64::from(interval.b - interval.a), "{interval:?} of {day:?}");
    }
}
