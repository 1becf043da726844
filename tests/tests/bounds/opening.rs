//! Days with an opening minute: planning and shown plans answer what the same day without it has, and keep it in the row.

use dock_tests::abi::{self, Call};
use dock_tests::check_bounds::{ask, ask_all, asked, by_trying_everything, calls, refused};
use dock_tests::day::{Day, IDLE, LONGEST_DAY, MOST_ENTRIES};
use dock_tests::flat::{self, OPENING};
use dock_tests::opening::{later, possible, small_days};
use dock_tests::random::{self, Random};
use dock_tests::samples::{boxes, longest, opened_document, plan};
use dock_tests::{check, small};

/// Whenever the room opens, all calls answer the same, with the same plan and bounds, and the same row but for the opening
/// minute. How often it opens after 0.
#[track_caller]
fn same_whenever_it_opens(day: &Day) -> usize {
    let room = usize::from(day.h);
    for call in calls(day.entries.len()) {
        let (answer, mut wanted) = abi::ask(call, &flat::of_day(day), room);
        for opening in possible(day) {
            let (found, lent) = abi::ask(call, &flat::of_day(&Day { opening, ..day.clone() }), room);
            assert_eq!(found, answer, "{call:?}, opening minute {opening} of {day:?}");
            if answer.number == 0 {
                wanted.narrowed[OPENING] = opening.into();
            }
            assert!(lent == wanted, "{call:?}, opening minute {opening} of {day:?}");
        }
    }
    possible(day).len() - 1
}

#[test]
fn every_small_day_with_every_opening_minute() {
    let days = small::days_up_to(3, 3).chain(small::days_of_both_kinds(4, 2));
    let opened: usize = days.map(|day| same_whenever_it_opens(&day)).sum();
    assert!(opened > 500, "{opened} with an opening minute");
}

/// Against all plans.
#[test]
fn small_days_with_an_opening_minute_against_trying_everything() {
    let mut seen = [0; 11];
    for day in small_days() {
        seen[by_trying_everything(&day) as usize] += 1;
    }
    assert!(seen[0] > 2_000 && seen[9] > 3_000 && seen[10] > 20, "{seen:?}");
}

/// So many minutes later plans come after as many idle minutes, ends and starts are so much later, and moves and broken
/// entries as many.
#[test]
fn five_hundred_days_at_another_time() {
    let mut random = Random::new(151);
    let mut planned = 0;
    for _ in 0..500 {
        let day = random::mixed_day(&mut random, 30, 6);
        let by = random.within(1, 100);
        let (answer, lent) = ask_all(&day);
        let (found, moved) = ask_all(&later(&day, by));
        assert_eq!(found.number, answer.number, "{day:?}");
        if answer.number != 0 {
            continue;
        }
        assert_eq!(found.values, answer.values, "moves and broken entries of {day:?}");
        let (h, by) = (usize::from(day.h), usize::from(by));
        assert_eq!(moved.plan[..h + by], [&vec![IDLE; by], &lent.plan[..h]].concat(), "{day:?}");
        for place in (0..day.entries.len()).flat_map(|place| [place, MOST_ENTRIES + place]) {
            assert_eq!(moved.bounds[place], lent.bounds[place] + by as u32, "bound {place} of {day:?}");
        }
        planned += 1;
    }
    assert!(planned > 200, "{planned} planned");
}

#[test]
fn five_hundred_days_with_every_opening_minute() {
    let mut random = Random::new(152);
    let mut opened = 0;
    for _ in 0..500 {
        let n = random.below(5) + 1;
        let day = random::unbroken_day(&mut random, 30, n, true, 8);
        opened += same_whenever_it_opens(&day);
    }
    assert!(opened > 300, "{opened} with an opening minute");
}

/// The latest minute at which a room of the longest day may open, and a longest list.
#[test]
fn the_limits() {
    let last = Day { opening: 1439, ..boxes(LONGEST_DAY, "w[1439,1440)1") };
    for call in calls(1) {
        let (_, lent) = asked(call, &last);
        assert_eq!(lent.narrowed[..flat::at(1)], [1440, 1, 1439, 101, 0, 0, 1439, 1440, 1, 1], "{call:?}");
        assert_eq!(lent.plan, [vec![IDLE; 1439], vec![0]].concat(), "{call:?}");
    }
    let longest = longest();
    for call in [Call::Plan, Call::Early(0), Call::Late(63)] {
        let (_, lent) = asked(call, &longest);
        assert_eq!(lent.narrowed[..3], [1440, 64, 300], "{call:?}");
        assert!(lent.narrowed == flat::of_day(&longest), "{call:?}: its windows are settled");
    }
}

#[test]
fn the_sample_five_minutes_later() {
    let day = check::accepted(&opened_document());
    let (answer, lent) = asked(Call::Plan, &day);
    assert_eq!(answer.values, [1, 0, 0]);
    assert_eq!(lent.plan, plan("- - - - - 0 0 0 2 2 1 1 1 0 - - -"));
    assert_eq!(lent.bounds[..3], [14, 13, 10]);
    assert_eq!(lent.bounds[MOST_ENTRIES..][..3], [13, 10, 8]);
    assert_eq!(lent.narrowed[..3], [17, 3, 5]);
    assert_eq!(lent.narrowed[flat::at(1)..][..7], [502, 1, 77, 10, 13, 3, 1]);
}

/// "the mirrored list has opening minute 0": in the mirror this entry's window begins before minute 4, and its late plan
/// is shown all the same.
#[test]
fn the_late_plan_of_a_window_that_ends_with_the_day() {
    let day = Day { opening: 4, ..boxes(6, "p[4,6)1 w[4,6)1") };
    let (answer, lent) = asked(Call::Late(0), &day);
    assert_eq!(answer.values, [0, 5, 0]);
    assert_eq!(lent.plan, plan("- - - - 1 0"));
    let (answer, lent) = asked(Call::Late(1), &day);
    assert_eq!(answer.values, [0, 5, 0]);
    assert_eq!(lent.plan, plan("- - - - 0 1"));
    assert_eq!(lent.narrowed[OPENING], 4);
}

#[test]
fn fifteen_and_sixteen_before_13_11_9_and_10() {
    for entries in ["w[3,6)2 p[3,6)2", "w[3,9)3 p[5,7)2"] {
        let mut fields = flat::of_day(&boxes(9, entries));
        for call in [Call::Plan, Call::Early(1), Call::Late(2), Call::Early(255)] {
            for (opening, number) in [(9, 15), (65_535, 15), (65_540, 15), (4, 16), (8, 16)] {
                fields[OPENING] = opening;
                [0, 8, 9].iter().for_each(|&room| refused(call, &fields, room, number, 0));
            }
            fields[OPENING] = 3;
            assert!(matches!(ask(call, &fields, 9).0.number, 9 | 10 | 13), "{call:?}");
        }
    }
}
