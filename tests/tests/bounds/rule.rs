//! The library's plans and shown plans, held against the rule as facts, minute by minute: an early plan in the windows
//! with k's d set, a late plan in the mirror of those with k's r set. "Plans, shown plans and the broken count follow
//! Jackson's rule under this tie from now on."

use dock_tests::abi::{self, Call};
use dock_tests::check_bounds::calls;
use dock_tests::day::{Day, MOST_ENTRIES};
use dock_tests::random::{self, Random};
use dock_tests::rule::{follows, Ties};
use dock_tests::small::{of_both_kinds, pause_days_up_to, SETTLED};
use dock_tests::{bounds, brute, flat, mirror, overload};

/// The ties of the plan that the library gives, in which every minute must follow the rule; none of a refusal. Windows
/// and bounds are those that it answers.
#[track_caller]
fn ties(call: Call, day: &Day) -> Option<Ties> {
    let (answer, lent) = abi::ask(call, &flat::of_day(day), day.h.into());
    if answer.number != 0 {
        return None;
    }
    let entries = flat::value(&lent.narrowed).places[..day.entries.len()].to_vec();
    let settled = Day { h: day.h, opening: day.opening, entries };
    let bound = answer.values[1] as u16;
    let (windows, plan) = match call {
        Call::Plan => (settled, lent.plan),
        Call::Early(place) => (bounds::with_end(&settled, place as usize, bound), lent.plan),
        Call::Late(place) => {
            let windows = bounds::with_start(&settled, place as usize, bound);
            (mirror::day(&windows), mirror::plan(&lent.plan))
        }
    };
    assert!(brute::is_plan(&windows, &plan), "{plan:?}, {call:?} of {day:?}");
    Some(follows(&windows, &plan).unwrap_or_else(|broken| panic!("{broken}, {plan:?}, {call:?} of {day:?}")))
}

/// The ties of all plans, of the early ones and of the late ones.
#[derive(Default)]
struct Seen {
    days: usize,
    plans: Ties,
    early: Ties,
    late: Ties,
}

impl Seen {
    /// Makes these calls for a day, all of which are refused or none.
    #[track_caller]
    fn count(&mut self, day: &Day, calls: &[Call]) {
        let all: Vec<Option<Ties>> = calls.iter().map(|&call| ties(call, day)).collect();
        let planned = all.iter().flatten().count();
        assert!(planned == 0 || planned == calls.len(), "{planned} of {} calls plan {day:?}", calls.len());
        for (&call, ties) in calls.iter().zip(all.into_iter().flatten()) {
            let seen = match call {
                Call::Plan => &mut self.plans,
                Call::Early(_) => &mut self.early,
                Call::Late(_) => &mut self.late,
            };
            *seen += ties;
            self.days += usize::from(call == Call::Plan);
        }
    }

    #[track_caller]
    fn more_than(&self, often: usize) {
        [self.plans, self.early, self.late].iter().for_each(|ties| ties.more_than(often));
    }
}

/// Every day of at most 4 minutes and 3 entries of both kinds.
#[test]
fn every_small_days_plans_follow_the_rule() {
    let mut seen = Seen::default();
    for day in pause_days_up_to(4, 3).filter(|day| overload::shown(day).is_none()).flat_map(of_both_kinds) {
        seen.count(&day, &calls(day.entries.len()));
    }
    assert_eq!(seen.days, SETTLED);
    seen.plans.more_than(3);
    for shown in [seen.early, seen.late] {
        let Ties { running, fewest, fewest_though_higher, lowest, .. } = shown;
        assert!(
            [running, fewest, fewest_though_higher, lowest].iter().all(|&often| often > 300),
            "{shown:?}"
        );
    }
}

#[test]
fn random_days_plans_follow_the_rule() {
    let mut seen = Seen::default();
    let mut random = Random::new(141);
    for turn in 0..4_000 {
        let day = match turn % 2 {
            0 => random::nested_day(&mut random, 30, 8),
            _ => random::mixed_day(&mut random, 40, 8),
        };
        seen.count(&day, &calls(day.entries.len()));
    }
    assert!(seen.days > 500, "{} days", seen.days);
    seen.more_than(100);
}

/// 1,440 minutes and 64 entries with few different d, pause so that nothing is narrowed: the plans of every eighth
/// place.
#[test]
fn full_days_plans_follow_the_rule() {
    let mut seen = Seen::default();
    let mut random = Random::new(142);
    for turn in 0..16 {
        let mut day = random::crowded_day(&mut random);
        day.entries.iter_mut().for_each(|entry| entry.whole = false);
        let places = (turn % 8..MOST_ENTRIES as u64).step_by(8);
        let shown = places.flat_map(|place| [Call::Early(place), Call::Late(place)]);
        seen.count(&day, &Vec::from_iter([Call::Plan].into_iter().chain(shown)));
    }
    assert!(seen.days > 8, "{} days", seen.days);
    seen.more_than(50);
}
