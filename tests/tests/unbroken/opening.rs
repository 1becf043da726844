//! Days with an opening minute: the search answers what the same day without it has, and keeps it in the row.

use dock_tests::abi;
use dock_tests::check_unbroken::{by_trying_everything, search, searched, ANY, FOUND, NONE};
use dock_tests::day::{Day, IDLE};
use dock_tests::flat::{self, OPENING};
use dock_tests::opening::{later, possible, small_days};
use dock_tests::random::{self, Random};
use dock_tests::{overload, small, torn};

/// Whenever the room opens, the search answers the same, with the same plan and starts, and the same row but for the
/// opening minute.
#[test]
fn every_small_day_with_every_opening_minute() {
    let mut opened = 0;
    for day in small::days_up_to(4, 3).filter(|day| overload::shown(day).is_none()) {
        let room = usize::from(day.h);
        let (answer, mut wanted) = abi::unbroken(&flat::of_day(&day), ANY, room);
        for opening in possible(&day) {
            let (found, lent) = abi::unbroken(&flat::of_day(&Day { opening, ..day.clone() }), ANY, room);
            assert_eq!(found, answer, "opening minute {opening} of {day:?}");
            if answer.number == 0 {
                wanted.narrowed[OPENING] = opening.into();
            }
            assert!(lent == wanted, "opening minute {opening} of {day:?}");
        }
        opened += possible(&day).len() - 1;
    }
    assert!(opened > 100, "{opened} with an opening minute");
}

/// Against all plans.
#[test]
fn small_days_with_an_opening_minute_against_trying_everything() {
    let mut seen = [0; 11];
    for day in small_days().filter(|day| overload::shown(day).is_none()) {
        match by_trying_everything(&day) {
            Ok((ending, _)) => seen[ending as usize] += 1,
            Err(number) => seen[number as usize] += 1,
        }
    }
    assert!(seen[FOUND as usize] > 1_000 && seen[10] > 10, "{seen:?}");
}

/// So many minutes later the starts are so much later, the plan comes after as many idle minutes, and the trials are as
/// many.
#[test]
fn five_hundred_days_at_another_time() {
    let mut random = Random::new(841);
    let mut seen = [0; 4];
    for turn in 0..500 {
        let day = match turn % 2 {
            0 => random::small_day(&mut random),
            _ => random::gapped_day(&mut random, 9),
        };
        let by = random.within(1, 100);
        let (answer, lent) = search(&flat::of_day(&day), 300, day.h.into());
        let (found, moved) = search(&flat::of_day(&later(&day, by)), 300, usize::from(day.h + by));
        assert_eq!(found.number, answer.number, "{day:?}");
        if answer.number != 0 {
            continue;
        }
        assert_eq!(found.values, answer.values, "{day:?}");
        seen[answer.values[1] as usize] += 1;
        if answer.values[1] == FOUND {
            assert_eq!(moved.plan, [vec![IDLE; by.into()], lent.plan].concat(), "{day:?}");
            for (place, entry) in day.entries.iter().enumerate().filter(|(_, entry)| entry.whole) {
                assert_eq!(moved.starts[place], lent.starts[place] + u32::from(by), "{entry:?} of {day:?}");
            }
        }
    }
    assert!(seen[FOUND as usize] > 100 && seen[NONE as usize] > 5, "{seen:?}");
}

#[test]
fn the_torn_day_after_its_opening() {
    let (answer, lent) = searched(&later(&torn::smallest(), 5), ANY);
    assert_eq!((answer.number, answer.values), (0, [0, NONE, 78]));
    assert_eq!(lent.narrowed[..3], [12, 4, 5]);
}
