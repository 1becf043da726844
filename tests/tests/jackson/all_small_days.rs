//! Every day of at most 4 minutes and 3 entries, held against all its plans and all its intervals.

use dock_tests::day::{Day, Interval, IDLE};
use dock_tests::small::{days, entries, pause_days_up_to};
use dock_tests::{abi, brute, check, flat, jackson, overload};
use std::collections::HashSet;

/// How many of the days have a plan, and how many do not.
const PLANNED: usize = 2_340;
const OVERLOADED: usize = 7_281;

/// Every day of at most 4 minutes and 3 entries.
fn small_days() -> impl Iterator<Item = Day> {
    pause_days_up_to(4, 3)
}

/// A day of h minutes can have h (h + 1) (h + 2) / 6 different entries: 1, 4, 10 and 20. With 0 to 3 of them
/// in a row that makes 4, 85, 1,111 and 8,421 days.
#[test]
fn there_are_9621_of_them() {
    assert_eq!([1, 2, 3, 4].map(|h| entries(h).len()), [1, 4, 10, 20]);
    let mut seen = HashSet::new();
    let mut count = [0; 5];
    for day in small_days() {
        let windows: Vec<_> = day.entries.iter().map(|entry| (entry.r, entry.d, entry.p)).collect();
        assert!(windows.iter().all(|&(r, d, p)| p >= 1 && r + p <= d && d <= day.h));
        assert!(seen.insert((day.h, windows)), "twice: {day:?}");
        count[usize::from(day.h)] += 1;
    }
    assert_eq!(count, [0, 4, 85, 1_111, 8_421]);
    assert_eq!(seen.len(), 9_621);
}

/// "A plan exists exactly when no interval is overloaded": both calls accept a day exactly if trying
/// everything finds a plan.
#[test]
fn a_day_is_accepted_exactly_if_it_has_a_plan() {
    let mut seen = [0; 2];
    for day in small_days() {
        let fields = flat::of_day(&day);
        let number = if brute::has_plan(&day) { 0 } else { 9 };
        assert_eq!(abi::overload(&fields).number, number, "overload test of {day:?}");
        assert_eq!(abi::schedule(&fields, usize::from(day.h)).0.number, number, "planning {day:?}");
        seen[usize::from(number == 9)] += 1;
    }
    assert_eq!(seen, [PLANNED, OVERLOADED]);
}

/// The schedule is, byte for byte, that of "Jackson's minute", and "entry i has exactly p minutes, all in
/// [r, d)": it is one of the plans that trying everything finds.
#[test]
fn the_schedule_is_jacksons_and_one_of_the_days_plans() {
    let mut planned = 0;
    for day in small_days() {
        let plans = brute::plans(&day);
        if plans.is_empty() {
            continue;
        }
        let (answer, bytes) = abi::schedule(&flat::of_day(&day), usize::from(day.h));
        assert_eq!((answer.number, answer.values), (0, [0; 3]), "answer to {day:?}");
        assert_eq!(bytes, jackson::schedule(&day), "schedule of {day:?}");
        assert!(plans.contains(&bytes), "{bytes:?} is no plan of {day:?}");
        planned += 1;
    }
    assert_eq!(planned, PLANNED);
}

/// "The interval shown has the smallest b, and with it the largest a": it is among all the overloaded
/// intervals of the day, none of them has a smaller b, and none with that b has a larger a.
#[test]
fn the_interval_shown_has_the_smallest_b_and_with_it_the_largest_a() {
    let mut overloaded = 0;
    for day in small_days() {
        let all = brute::overloaded_intervals(&day);
        let fields = flat::of_day(&day);
        let answer = abi::overload(&fields);
        if all.is_empty() {
            assert_eq!((answer.number, answer.values), (0, [0; 3]), "answer to {day:?}");
            assert_eq!(overload::shown(&day), None);
            continue;
        }
        let Interval { a, b, work } = overload::shown(&day).expect("an interval");
        assert_eq!(answer.number, 9, "answer to {day:?}");
        assert_eq!(answer.values, [u64::from(a), u64::from(b), work], "interval of {day:?}");
        assert_eq!(abi::schedule(&fields, usize::from(day.h)).0, answer, "by the other call");
        assert!(all.contains(&Interval { a, b, work }), "[{a}, {b}) of {day:?}");
        assert!(all.iter().all(|other| b <= other.b), "a smaller b in {day:?}");
        assert!(all.iter().all(|other| b != other.b || other.a <= a), "a larger a in {day:?}");
        overloaded += 1;
    }
    assert_eq!(overloaded, OVERLOADED);
}

/// One minute or one entry more: 35 different entries in a day of 5 minutes, 20 in one of 4.
#[test]
fn the_days_of_5_minutes_and_3_entries_and_of_4_minutes_and_4_entries() {
    let mut count = 0;
    for day in days(5, 3).chain(days(4, 4)) {
        let fields = flat::of_day(&day);
        let planned = brute::has_plan(&day);
        assert_eq!(check::overload(&fields).is_ok(), planned, "overload test of {day:?}");
        assert_eq!(check::schedule(&fields, 6).is_ok(), planned, "planning {day:?}");
        count += 1;
    }
    assert_eq!(count, 35 * 35 * 35 + 20 * 20 * 20 * 20);
}

/// Row 11, "plan buffer under H bytes", before 9: the same days with fewer bytes than minutes, as many, and more.
#[test]
fn in_buffers_of_every_length() {
    for day in small_days() {
        let fields = flat::of_day(&day);
        let test = check::number(&check::overload(&fields));
        for room in 0..=6 {
            let wanted = if room < usize::from(day.h) { 11 } else { test };
            assert_eq!(check::number(&check::schedule(&fields, room)), wanted, "{room} bytes, {day:?}");
        }
    }
}

/// Trying everything is itself held against the definition of a plan: of all strings of places, 255 and one
/// number that is neither, exactly the plans found are plans.
#[test]
fn trying_everything_finds_exactly_the_plans() {
    for day in (1..=3).flat_map(|h| (0..=2).flat_map(move |n| days(h, n))) {
        let plans: HashSet<_> = brute::plans(&day).into_iter().collect();
        assert_eq!(plans.is_empty(), !brute::has_plan(&day));
        let n = day.entries.len();
        let bytes: Vec<u8> = (0..=n as u8).chain([IDLE]).collect();
        let mut right = 0;
        for number in 0..bytes.len().pow(u32::from(day.h)) {
            let byte = |minute| bytes[number / bytes.len().pow(minute) % bytes.len()];
            let string: Vec<u8> = (0..u32::from(day.h)).map(byte).collect();
            assert_eq!(brute::is_plan(&day, &string), plans.contains(&string), "{string:?}, {day:?}");
            right += usize::from(plans.contains(&string));
        }
        assert_eq!(right, plans.len());
    }
}
