//! Days with an opening minute: it decides what a missing r means, and 15 and 16. The windows alone are planned.

use dock_tests::check::{overload, planned, schedule, shown, test_refused};
use dock_tests::day::{Day, Interval, IDLE};
use dock_tests::flat::{self, OPENING};
use dock_tests::opening::{later, possible, without};
use dock_tests::random::{self, Random};
use dock_tests::samples::{boxes, opened_document, plan};
use dock_tests::{abi, brute, check, small};

/// Both calls answer the same whenever the room opens.
#[track_caller]
fn same_whenever_it_opens(day: &Day) -> usize {
    let (fields, room) = (flat::of_day(day), usize::from(day.h));
    let wanted = (abi::overload(&fields), abi::schedule(&fields, room));
    for opening in possible(day) {
        let opened = flat::of_day(&Day { opening, ..day.clone() });
        assert_eq!((abi::overload(&opened), abi::schedule(&opened, room)), wanted, "{opening}, {day:?}");
    }
    possible(day).len() - 1
}

#[test]
fn every_small_day_with_every_opening_minute() {
    let opened: usize = small::pause_days_up_to(4, 3).map(|day| same_whenever_it_opens(&day)).sum();
    assert!(opened > 1_000, "{opened} with an opening minute");
}

/// Small days with an opening minute against all their plans.
#[test]
fn small_days_with_an_opening_minute_against_trying_everything() {
    let mut seen = [0; 2];
    for day in small::pause_days_up_to(3, 3).map(|day| later(&day, 2)) {
        assert!(day.opening > 0, "{day:?}");
        let interval = shown(&day);
        assert_eq!(interval.is_none(), brute::has_plan(&day), "{day:?}");
        if interval.is_none() {
            planned(&day);
        }
        seen[usize::from(interval.is_some())] += 1;
    }
    assert!(seen[0] > 200 && seen[1] > 500, "planned, overloaded: {seen:?}");
}

/// So many minutes later a day has the same plan after as many idle minutes, or the same interval.
#[test]
fn two_thousand_days_at_another_time() {
    let mut random = Random::new(31);
    let mut seen = [0; 2];
    for _ in 0..2_000 {
        let day = random::mixed_day(&mut random, 40, 8);
        let by = random.within(1, 300);
        let moved = later(&day, by);
        match shown(&day) {
            Some(Interval { a, b, work }) => {
                assert_eq!(shown(&moved), Some(Interval { a: a + by, b: b + by, work }));
                seen[1] += 1;
            }
            None => {
                assert_eq!(planned(&moved), [vec![IDLE; by.into()], planned(&day)].concat(), "{day:?}");
                seen[0] += 1;
            }
        }
    }
    assert!(seen.iter().all(|&count| count > 300), "planned, overloaded: {seen:?}");
}

/// A room that opens at the first r of a list gives it the same plan as one that is open all day.
#[test]
fn two_thousand_days_with_the_latest_opening_minute() {
    let mut random = Random::new(32);
    let mut opened = 0;
    for _ in 0..2_000 {
        let n = random.below(4) + 1;
        let day = random::unbroken_day(&mut random, 60, n, true, 10);
        opened += same_whenever_it_opens(&without(&day)).min(1);
    }
    assert!(opened > 500, "{opened} with an opening minute");
}

#[test]
fn the_sample_five_minutes_later() {
    let day = check::accepted(&opened_document());
    assert_eq!(planned(&day), plan("- - - - - 0 0 1 2 2 1 1 0 0 - - -"));
}

/// The minutes before the room opens are idle, and count for no interval.
#[test]
fn minutes_before_the_opening_minute_are_idle() {
    let day = Day { opening: 3, ..boxes(6, "p[3,6)2 p[3,6)1") };
    assert_eq!(planned(&day), plan("- - - 1 0 0"));
    let day = Day { opening: 3, ..boxes(6, "p[3,6)2 p[3,6)2") };
    assert_eq!(shown(&day), Some(Interval { a: 3, b: 6, work: 4 }));
}

#[test]
fn fifteen_and_sixteen_before_9_and_11() {
    let mut fields = flat::of_day(&boxes(6, "p[3,6)2 p[3,6)2"));
    for (opening, number) in [(6, 15), (65_536, 15), (4, 16), (5, 16)] {
        fields[OPENING] = opening;
        test_refused(&fields, number, 0);
        for room in [0, 5, 6] {
            assert_eq!(check::number(&schedule(&fields, room)), number as usize);
        }
    }
    fields[OPENING] = 3;
    assert_eq!(check::number(&overload(&fields)), 9);
    assert_eq!(check::number(&schedule(&fields, 5)), 11);
}
