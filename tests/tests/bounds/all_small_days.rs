//! Every day of at most 5 minutes and 3 entries of both kinds: its plan, its bounds and both plans of every
//! place, held against all plans in its settled windows. Windows, moves and bounds are found from all plans, by no rule
//! for ties: "Settled windows, least ends and greatest starts keep their values" (document 02). Those of 6 minutes
//! against the second planner.

use dock_tests::abi::Call;
use dock_tests::check_bounds::{ask, ask_all, by_trying_everything, calls, refused};
use dock_tests::settled::Plans;
use dock_tests::small::{days_of_both_kinds, days_up_to, NO_PLACE, OVERLOADED, SETTLED};
use dock_tests::told::Told;
use dock_tests::{brute, flat};

#[test]
fn every_day_is_planned_as_trying_everything_says() {
    let mut seen = [0; 14];
    for day in days_up_to(4, 3) {
        seen[by_trying_everything(&day) as usize] += 1;
    }
    assert_eq!([seen[0], seen[9], seen[10]], [SETTLED, OVERLOADED, NO_PLACE]);
}

/// One minute more, and as many entries.
#[test]
fn the_days_of_5_minutes() {
    let mut seen = [0; 14];
    for day in (0..=3).flat_map(|n| days_of_both_kinds(5, n)) {
        seen[by_trying_everything(&day) as usize] += 1;
    }
    assert_eq!(seen[0] + seen[9] + seen[10], 1 + 70 + 70 * 70 + 70 * 70 * 70);
}

/// Two minutes more, planned as the second planner says.
#[test]
fn the_days_of_6_minutes() {
    let mut told = Told::default();
    for day in (0..=3).flat_map(|n| days_of_both_kinds(6, n)) {
        told.count(ask(Call::Plan, &flat::of_day(&day), 6).0.number as usize);
    }
    told.more_than(10_000, &[0, 9, 10]);
    assert_eq!(told.all(), 1 + 112 + 112 * 112 + 112 * 112 * 112);
}

/// The second planner says the same of every day, by all calls.
#[test]
fn every_day_is_planned_as_the_second_planner_says() {
    let mut planned = 0;
    for day in days_up_to(4, 3) {
        planned += usize::from(ask_all(&day).0.number == 0);
    }
    assert_eq!(planned, SETTLED);
}

/// Rows 13 and 11 before 9 and 10: every place up to n + 1, with fewer bytes than minutes, as many, and more.
#[test]
fn every_place_and_buffers_of_every_length() {
    for day in days_up_to(3, 2) {
        let (fields, n) = (flat::of_day(&day), day.entries.len());
        for room in 0..=4 {
            for call in calls(n) {
                let (answer, _) = ask(call, &fields, room);
                assert_eq!(answer.number == 11, room < day.h.into(), "{call:?} in {room} bytes of {day:?}");
            }
            for place in [n, n + 1] {
                for call in [Call::Early(place as u64), Call::Late(place as u64)] {
                    refused(call, &fields, room, 13, place as u64);
                }
            }
        }
    }
}

/// The bounds found from all plans are themselves held against the definition, minute by minute: "Its end is
/// its last minute plus 1, its start its first minute."
#[test]
fn bounds_over_all_plans_are_those_of_their_minutes() {
    let mut held = 0;
    for day in days_up_to(4, 2).filter(brute::has_plan) {
        let plans = brute::plans(&day);
        for place in (0..day.entries.len()).filter(|&place| !day.entries[place].whole) {
            let last = plans.iter().map(|plan| plan.iter().rposition(|&byte| byte == place as u8));
            let first = plans.iter().map(|plan| plan.iter().position(|&byte| byte == place as u8));
            let wanted = (last.min().flatten(), first.max().flatten());
            let (end, start) = Plans::of(&day).bounds(place);
            assert_eq!((Some(usize::from(end) - 1), Some(usize::from(start))), wanted, "{place} of {day:?}");
            held += 1;
        }
    }
    assert!(held > 500, "{held} entries");
}
