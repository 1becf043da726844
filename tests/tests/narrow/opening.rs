//! Days with an opening minute: narrowing answers the windows and moves of the same day without it, and keeps it.

use dock_tests::check_narrow::{
    by_trying_everything, not_settled, rounds_leave, settle, settled, windows_in,
};
use dock_tests::day::{Day, Refusal, LONGEST_DAY, MOST_ENTRIES};
use dock_tests::flat::{self, OPENING};
use dock_tests::narrow::Narrowed;
use dock_tests::opening::{later, possible, small_days, without};
use dock_tests::random::{self, Random};
use dock_tests::samples::{boxes, opened_document};
use dock_tests::{abi, check, small};

/// Whenever the room opens, the answer is the same, and so is the row but for the opening minute. How often it opens
/// after 0.
#[track_caller]
fn same_whenever_it_opens(day: &Day) -> usize {
    let (answer, mut wanted) = abi::settle(&flat::of_day(day));
    for opening in possible(day) {
        let (found, row) = abi::settle(&flat::of_day(&Day { opening, ..day.clone() }));
        assert_eq!(found, answer, "opening minute {opening} of {day:?}");
        if answer.number == 0 {
            wanted[OPENING] = opening.into();
        }
        assert!(row == wanted, "opening minute {opening} of {day:?}");
    }
    possible(day).len() - 1
}

#[test]
fn every_small_day_with_every_opening_minute() {
    let opened: usize = small::days_up_to(4, 3).map(|day| same_whenever_it_opens(&day)).sum();
    assert!(opened > 5_000, "{opened} with an opening minute");
}

/// Against all plans, all sets of windows and all lists of steps.
#[test]
fn small_days_with_an_opening_minute_against_trying_everything() {
    let mut seen = [0; 11];
    for day in small_days() {
        let answer = by_trying_everything(&day);
        seen[answer.number as usize] += 1;
    }
    assert!(seen[0] > 2_000 && seen[9] > 3_000 && seen[10] > 20, "{seen:?}");
}

/// So many minutes later the windows are so much later, the moves as many, the interval of 9 so much later, and the
/// place of 10 the same.
#[test]
fn two_thousand_days_at_another_time() {
    let mut random = Random::new(111);
    let mut seen = [0; 3];
    for _ in 0..2_000 {
        let day = random::mixed_day(&mut random, 30, 8);
        let by = random.within(1, 300);
        let found = settle(&flat::of_day(&later(&day, by)));
        match settle(&flat::of_day(&day)) {
            Ok(Narrowed { day, moves }) => {
                assert_eq!(found, Ok(Narrowed { day: later(&day, by), moves }));
                seen[0] += 1;
            }
            Err(Refusal::Overloaded(mut shown)) => {
                (shown.a, shown.b) = (shown.a + by, shown.b + by);
                assert_eq!(found, Err(Refusal::Overloaded(shown)), "{day:?}");
                seen[1] += 1;
            }
            Err(refusal) => {
                assert_eq!(found, Err(refusal), "{day:?}");
                seen[2] += 1;
            }
        }
    }
    assert!(seen[0] > 500 && seen[1] > 300 && seen[2] > 20, "settled, 9, 10: {seen:?}");
}

#[test]
fn a_thousand_days_with_every_opening_minute() {
    let mut random = Random::new(112);
    let mut opened = 0;
    for _ in 0..1_000 {
        let n = random.below(5) + 1;
        let mut day = random::unbroken_day(&mut random, 40, n, true, 8);
        day.entries.iter_mut().for_each(|entry| entry.whole = true);
        opened += same_whenever_it_opens(&day);
    }
    assert!(opened > 1_000, "{opened} with an opening minute");
}

#[test]
fn full_days_with_an_opening_minute() {
    let mut random = Random::new(113);
    for turn in 0..5 {
        let mut day = random::unbroken_day(&mut random, LONGEST_DAY - 40, MOST_ENTRIES, turn % 2 == 0, 40);
        day.entries.iter_mut().for_each(|entry| entry.whole = true);
        let day = later(&day, 40);
        let (wanted, moves) = settled(&without(&day));
        for opening in [1, 39, 40] {
            let opened = Day { opening, ..day.clone() };
            assert_eq!(settled(&opened), (Day { opening, ..wanted.clone() }, moves));
        }
    }
}

/// Document 01's (a) seven minutes later.
#[test]
fn example_a_in_a_room_that_opens_at_7() {
    let day = Day { opening: 7, ..boxes(11, "w[7,10)2 w[7,11)2") };
    rounds_leave(&day, &[("w[7,10)2 w[9,11)2", 1), ("w[7,9)2 w[9,11)2", 1), ("w[7,9)2 w[9,11)2", 0)]);
    assert_eq!(by_trying_everything(&day).values, [2, 0, 0]);
    let (answer, row) = abi::settle(&flat::of_day(&day));
    assert_eq!((answer.number, answer.values), (0, [2, 0, 0]));
    assert_eq!(row[..3], [11, 2, 7]);
    assert_eq!(windows_in(&row, 2), [(7, 9), (9, 11)]);
}

/// A settled list is a list: an r that was missing and is moved is written, the opening minute stays.
#[test]
fn a_settled_list_can_be_written_and_read() {
    let day = Day { opening: 7, ..boxes(11, "w[7,10)2 w[7,11)2") };
    assert_eq!(check::written(&flat::of_day(&day), 1_000).len(), 5 + 9 + 7);
    let (windows, _) = settled(&day);
    let form = check::written(&flat::of_day(&windows), 1_000);
    assert_eq!((form.len(), form[2], &form[3..5]), (5 + 9 + 9, 128 + 2, &[7, 0][..]));
    assert_eq!(check::accepted(&form), windows);
}

#[test]
fn the_sample_five_minutes_later() {
    let (_, fields) = abi::read(&opened_document());
    let (answer, narrowed) = abi::settle(&fields);
    assert_eq!((answer.number, answer.values), (0, [1, 0, 0]));
    assert_eq!(narrowed[..3], [17, 3, 5]);
    assert_eq!(narrowed[3..10], [501, 0, 0, 5, 17, 4, 0]);
    assert_eq!(narrowed[10..17], [502, 1, 77, 10, 13, 3, 1]);
    assert_eq!(narrowed[17..24], [503, 1, 78, 8, 11, 2, 0]);
    assert!(narrowed[24..].iter().all(|&number| number == 0), "zeros after the list");
}

#[test]
fn fifteen_and_sixteen_before_9_and_10() {
    for entries in ["w[3,6)2 p[3,6)2", "w[3,9)3 p[5,7)2"] {
        let mut fields = flat::of_day(&boxes(9, entries));
        for (opening, number) in [(9, 15), (65_535, 15), (65_540, 15), (4, 16), (8, 16)] {
            fields[OPENING] = opening;
            not_settled(&fields, number, 0);
        }
        fields[OPENING] = 3;
        let refusal = settle(&fields).expect_err("must be refused by its windows");
        assert!(matches!(refusal.code().0, 9 | 10), "{refusal:?}");
    }
}
