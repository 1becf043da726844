//! The library's plans of the windows as given, held against the rule as facts, minute by minute; and these facts held
//! against all strings of places, of which they leave one.

use dock_tests::day::{Day, IDLE, LONGEST_DAY, MOST_ENTRIES};
use dock_tests::random::{self, Random};
use dock_tests::rule::{follows, Ties};
use dock_tests::samples::{boxes, plan};
use dock_tests::small::{days, pause_days_up_to};
use dock_tests::{abi, brute, flat, jackson, overload};

/// The ties of the library's plan of a list that has one, in which every minute must follow the rule.
#[track_caller]
fn ties(day: &Day) -> Ties {
    let (answer, bytes) = abi::schedule(&flat::of_day(day), day.h.into());
    assert_eq!(answer.number, 0, "{day:?}");
    assert!(brute::is_plan(day, &bytes), "{bytes:?} of {day:?}");
    follows(day, &bytes).unwrap_or_else(|broken| panic!("{broken}, {bytes:?} of {day:?}"))
}

/// How many of these days have a plan, and the ties of all of them.
#[track_caller]
fn all_ties(days: impl Iterator<Item = Day>) -> (usize, Ties) {
    let (mut planned, mut all) = (0, Ties::default());
    for day in days.filter(|day| overload::shown(day).is_none()) {
        planned += 1;
        all += ties(&day);
    }
    (planned, all)
}

/// Every day of at most 4 minutes and 3 entries, those of 5 minutes and 3 entries and of 4 minutes and 4 entries.
#[test]
fn every_small_days_plan_follows_the_rule() {
    all_ties(pause_days_up_to(4, 3).chain(days(5, 3)).chain(days(4, 4))).1.more_than(50);
}

#[test]
fn random_days_plans_follow_the_rule() {
    let mut random = Random::new(19);
    all_ties((0..20_000).map(|_| random::small_day(&mut random))).1.more_than(50);
    let grids = [&[60, 240, 720, 1440][..], &[1, 5, 15, 60]];
    let full = |turn: usize| {
        random::planned_day(&mut random, LONGEST_DAY, MOST_ENTRIES, [4, 0][turn % 2], grids[turn % 2])
    };
    all_ties((0..100).map(full)).1.more_than(100);
}

/// 1,440 minutes, 64 entries and few different d.
#[test]
fn full_days_with_many_equal_d_follow_the_rule() {
    let mut random = Random::new(20);
    let (planned, all) = all_ties((0..200).map(|_| random::crowded_day(&mut random)));
    assert!(planned > 100, "{planned} days with a plan");
    all.more_than(500);
}

/// Of all strings of places and 255 exactly one follows the rule, and it is the second planner's schedule, whether or
/// not the day has a plan.
#[test]
fn the_facts_leave_one_string() {
    for day in pause_days_up_to(4, 3) {
        let bytes: Vec<u8> = (0..day.entries.len() as u8).chain([IDLE]).collect();
        let string = |number: usize| -> Vec<u8> {
            let byte = |minute| bytes[number / bytes.len().pow(minute) % bytes.len()];
            (0..u32::from(day.h)).map(byte).collect()
        };
        let all = (0..bytes.len().pow(day.h.into())).map(string);
        let right: Vec<_> = all.filter(|string| follows(&day, string).is_ok()).collect();
        assert_eq!(right, [jackson::schedule(&day)], "{day:?}");
    }
}

/// This string breaks the rule so.
#[track_caller]
fn breaks(h: u16, entries: &str, minutes: &str, sentence: &str) {
    assert_eq!(
        follows(&boxes(h, entries), &plan(minutes)),
        Err(sentence.to_string()),
        "{minutes} of {entries}"
    );
}

#[test]
fn each_sentence_can_be_broken() {
    breaks(2, "p[0,2)1", "0", "1 bytes: a plan is H bytes");
    breaks(2, "p[0,2)1", "- 0", "minute 0: idle, and 0 is ready");
    breaks(2, "p[1,2)1", "0 -", "minute 0: 0 is not ready");
    breaks(2, "p[0,2)1", "0 0", "minute 1: 0 is not ready");
    breaks(2, "p[0,2)1", "1 0", "minute 0: 1 is not ready");
    breaks(3, "p[0,3)1 p[0,2)1", "0 1 -", "minute 0: \"take the smallest d\", 1 and not 0");
    breaks(3, "p[0,3)2 p[1,2)1", "0 0 1", "minute 1: \"take the smallest d\", 1 and not 0");
    let goes_on = "minute 1: \"goes on unless another d is strictly smaller\", 1 and not 0";
    breaks(3, "p[1,3)1 p[0,3)2", "1 0 1", goes_on);
    let fewest = "minute 0: \"take the one with the fewest minutes left\", 1 and not 0";
    breaks(3, "p[0,3)2 p[0,3)1", "0 0 1", fewest);
    breaks(2, "p[0,2)1 p[0,2)1", "1 0", "minute 0: \"then the lowest place\", 0 and not 1");
}

/// Each tie of a plan is told by the sentence that decided it.
#[test]
fn ties_are_told_by_what_decided_them() {
    let told = |h, entries, minutes| follows(&boxes(h, entries), &plan(minutes)).expect("a plan by the rule");
    let none = Ties::default();
    assert_eq!(told(3, "p[0,3)1 p[0,2)1", "1 0 -"), none, "no equal d");
    assert_eq!(told(2, "p[0,2)1 p[1,2)1", "0 1"), none, "never both ready");
    let fewest = Ties { fewest: 1, ..none };
    assert_eq!(told(3, "p[0,3)1 p[0,3)2", "0 1 1"), fewest);
    assert_eq!(told(3, "p[0,3)2 p[0,3)1", "1 0 0"), Ties { fewest_though_higher: 1, ..fewest });
    assert_eq!(told(2, "p[0,2)1 p[0,2)1", "0 1"), Ties { lowest: 1, ..none });
    let running = Ties { running: 1, ..none };
    assert_eq!(told(4, "p[1,4)2 p[0,4)2", "1 1 0 0"), running);
    assert_eq!(told(4, "p[1,4)1 p[0,4)3", "1 1 1 0"), Ties { running: 2, running_with_more: 1, ..none });
}
