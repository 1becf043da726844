//! Every day of at most 5 minutes and 3 entries of both kinds, held against all its plans, all sets of
//! windows inside those given and all lists of narrowing steps; those of 6 minutes against the second narrowing.

use dock_tests::check::number;
use dock_tests::day::Day;
use dock_tests::settled::{Plans, Windows};
use dock_tests::small::{days_up_to as days, NO_PLACE, OVERLOADED, SETTLED};
use dock_tests::told::Told;
use dock_tests::{brute, check_narrow, flat, jackson, small};

/// A day of h minutes can have 1, 4, 10 and 20 different entries, of two kinds each. With 0 to 2 of them in a
/// row that makes 2,142 days, and with 3 of them 72,520 more.
#[test]
fn there_are_74662_of_them() {
    assert_eq!(days(4, 2).count(), 2_142);
    assert_eq!(days(4, 3).count(), 2_142 + 2 * 2 * 2 * (1 + 64 + 1_000 + 8_000));
    let kinds = |day: &Day| Vec::from_iter(day.entries.iter().map(|entry| entry.whole));
    let of_two: Vec<_> = small::days_of_both_kinds(1, 2).map(|day| kinds(&day)).collect();
    assert_eq!(of_two, [[false, false], [true, false], [false, true], [true, true]]);
}

/// The windows answered are settled and the widest, a refusal is given exactly if there are none, all lists
/// of steps say the same, unbroken plans are kept, and the moves are those of the rounds.
#[test]
fn every_day_is_narrowed_as_trying_everything_says() {
    let mut seen = [0; 11];
    for day in days(4, 3) {
        seen[check_narrow::by_trying_everything(&day).number as usize] += 1;
    }
    assert_eq!([seen[0], seen[9], seen[10]], [SETTLED, OVERLOADED, NO_PLACE]);
}

/// One minute more, and as many entries.
#[test]
fn the_days_of_5_minutes() {
    let mut count = 0;
    for day in (0..=3).flat_map(|n| small::days_of_both_kinds(5, n)) {
        check_narrow::by_trying_everything(&day);
        count += 1;
    }
    assert_eq!(count, 1 + 70 + 70 * 70 + 70 * 70 * 70);
}

/// Two minutes more, against the second narrowing.
#[test]
fn the_days_of_6_minutes() {
    let mut told = Told::default();
    for day in (0..=3).flat_map(|n| small::days_of_both_kinds(6, n)) {
        told.count(number(&check_narrow::settle(&flat::of_day(&day))));
    }
    told.more_than(10_000, &[0, 9, 10]);
    assert_eq!(told.all(), 1 + 112 + 112 * 112 + 112 * 112 * 112);
}

/// The second narrowing says the same of every day.
#[test]
fn every_day_is_narrowed_as_the_second_narrowing_says() {
    for day in days(4, 3) {
        let _ = check_narrow::settle(&flat::of_day(&day));
    }
}

/// What the second narrowing asks of Jackson's schedule, from one arrival to the next, is whether there is a
/// plan.
#[test]
fn the_second_narrowings_test_is_whether_there_is_a_plan() {
    for day in small::pause_days_up_to(5, 3) {
        let schedule = jackson::schedule(&day);
        assert_eq!(jackson::is_plan(&day), brute::is_plan(&day, &schedule), "schedule of {day:?}");
        assert_eq!(jackson::is_plan(&day), brute::has_plan(&day), "plans of {day:?}");
    }
}

/// Trying everything is itself held against the definition: of all sets of windows, windows too short for
/// their entry too, exactly those found are settled.
#[test]
fn trying_everything_finds_exactly_the_settled_sets() {
    for day in days(3, 2) {
        let mut found = Plans::of(&day).settled_sets();
        let mut wanted = all_sets(&day);
        wanted.retain(|windows| is_settled(&day, windows));
        found.sort();
        wanted.sort();
        assert_eq!(found, wanted, "settled sets of {day:?}");
    }
}

/// All sets of windows inside the given ones.
fn all_sets(day: &Day) -> Vec<Windows> {
    let mut sets = vec![vec![]];
    for entry in &day.entries {
        let inside: Windows = (entry.r..=entry.d).flat_map(|r| (r..=entry.d).map(move |d| (r, d))).collect();
        sets = sets.iter().flat_map(|set| inside.iter().map(|&w| [&set[..], &[w]].concat())).collect();
    }
    sets
}

/// "a plan has every entry in its window, and .. each whole entry has such a plan with its minutes
/// consecutive from its r on, and one with them consecutive up to its d", minute by minute.
fn is_settled(day: &Day, windows: &Windows) -> bool {
    let narrowed = check_narrow::with_windows(day, windows);
    let plans = Vec::from_iter(brute::plans(day).into_iter().filter(|plan| brute::is_plan(&narrowed, plan)));
    let has = |place: usize, first: u16| {
        let minutes = Vec::from_iter(first..first + day.entries[place].p);
        plans.iter().any(|plan| brute::minutes_of(plan, place) == minutes)
    };
    !plans.is_empty()
        && narrowed
            .entries
            .iter()
            .enumerate()
            .all(|(place, entry)| !entry.whole || has(place, entry.r) && has(place, entry.d - entry.p))
}
