//! Random days, fixed by their seeds: small ones against trying everything, full ones against the second
//! planner, and values that may break any rule.

use dock_tests::bounds::is_consecutive;
use dock_tests::brute;
use dock_tests::check::{self, number};
use dock_tests::day::{Day, IDLE, LONGEST_DAY, MOST_ENTRIES};
use dock_tests::random::{self, Random};
use dock_tests::samples::told_apart;
use dock_tests::told::Told;
use dock_tests::{flat, values};

/// How many entries a plan breaks, pause entries too.
fn broken(day: &Day, plan: &[u8]) -> usize {
    let is_broken = |place: &usize| !is_consecutive(&brute::minutes_of(plan, *place));
    (0..day.entries.len()).filter(is_broken).count()
}

/// Whether there is a whole entry, and whether there is a pause entry.
fn kinds(day: &Day) -> (bool, bool) {
    (day.entries.iter().any(|entry| entry.whole), day.entries.iter().any(|entry| !entry.whole))
}

/// "A plan exists exactly when no interval is overloaded", with up to 8 minutes and 5 entries of both kinds:
/// trying everything finds a plan exactly if both calls accept. The schedule is a plan and the second
/// planner's; the interval shown is the second planner's too, and the right one of all overloaded ones.
#[test]
fn twenty_thousand_small_days_against_trying_everything() {
    let mut random = Random::new(11);
    let (mut planned, mut overloaded, mut broke, mut both) = (0, 0, 0, 0);
    for _ in 0..20_000 {
        let day = random::small_day(&mut random);
        if brute::has_plan(&day) {
            broke += usize::from(broken(&day, &check::planned(&day)) > 0);
            planned += 1;
        } else {
            let shown = check::overloaded(&day);
            let all = brute::overloaded_intervals(&day);
            let right = all.iter().min_by_key(|interval| (interval.b, u16::MAX - interval.a));
            assert_eq!(right, Some(&shown), "interval of {day:?}");
            overloaded += 1;
        }
        both += usize::from(kinds(&day) == (true, true));
    }
    assert!(planned > 5_000 && overloaded > 5_000, "{planned} planned, {overloaded} overloaded");
    assert!(broke > 500 && both > 5_000, "{broke} with a broken entry, {both} with both kinds");
}

/// All plans of a day, with at most 6 minutes and 4 entries: the schedule is one of them.
#[test]
fn the_schedule_is_one_of_all_the_plans_of_a_small_day() {
    let mut random = Random::new(12);
    let mut several = 0;
    for _ in 0..1_000 {
        let h = random.within(1, 6);
        let n = random.below(5);
        let day = random::planned_day(&mut random, h, n, 3, &[1, 2, 6]);
        let plans = brute::plans(&day);
        assert!(plans.iter().all(|plan| brute::is_plan(&day, plan)));
        assert!(plans.contains(&check::planned(&day)), "schedule of {day:?}");
        several += usize::from(plans.len() > 1);
    }
    assert!(several > 200, "{several} days with more than one plan");
}

/// A full day: 1,440 minutes and 64 entries.
fn full_day(random: &mut Random, idle: usize, grids: &[u16]) -> Day {
    random::planned_day(random, LONGEST_DAY, MOST_ENTRIES, idle, grids)
}

#[test]
fn full_loose_days_against_the_second_planner() {
    let mut random = Random::new(13);
    for _ in 0..200 {
        let idle = random.pick(&[1, 2, 4]);
        let day = full_day(&mut random, idle, &[60, 240, 720, 1440]);
        let plan = check::planned(&day);
        assert!(plan.contains(&IDLE), "a loose day has an idle minute");
        assert_eq!(day.entries.len(), MOST_ENTRIES);
    }
}

#[test]
fn full_tight_days_against_the_second_planner() {
    let mut random = Random::new(14);
    let mut broke = 0;
    for _ in 0..200 {
        let day = full_day(&mut random, 0, &[1, 5, 15, 60]);
        let plan = check::planned(&day);
        assert!(!plan.contains(&IDLE), "a tight day has no idle minute");
        broke += broken(&day, &plan);
    }
    assert!(broke > 1_000, "{broke} broken entries");
}

/// A tight day with more work than minutes: in all, and often in an interval inside it too.
#[test]
fn full_overloaded_days_against_the_second_planner() {
    let mut random = Random::new(15);
    let mut inner = 0;
    for _ in 0..200 {
        let mut day = full_day(&mut random, 0, &[1, 5, 15, 60]);
        for _ in 0..=random.below(20) {
            random::work_more(&mut random, &mut day);
        }
        let shown = check::overloaded(&day);
        inner += usize::from(shown.b - shown.a < LONGEST_DAY);
    }
    assert!(inner > 100, "{inner} intervals shorter than the day");
}

/// Windows drawn without a plan in mind: with this seed each day is overloaded, with much work.
#[test]
fn full_days_of_any_windows_against_the_second_planner() {
    let mut random = Random::new(16);
    for _ in 0..200 {
        let entries = random::entries(&mut random, LONGEST_DAY, MOST_ENTRIES);
        let shown = check::overloaded(&told_apart(Day { h: LONGEST_DAY, opening: 0, entries }));
        assert!(shown.work > u64::from(shown.b - shown.a));
    }
}

/// Small days and full ones of which some serials are doubled: 14 before 11 and 9, and where it is not told the days
/// are planned or overloaded as ever.
#[test]
fn days_with_doubled_serials_against_the_second_planner() {
    let mut random = Random::new(18);
    let mut told = Told::default();
    for turn in 0..6_000 {
        let day = match turn % 200 {
            0 => full_day(&mut random, 4, &[1, 60]),
            _ => random::small_day(&mut random),
        };
        let day = random::with_doubled_serials(&mut random, day, 3);
        let (fields, h) = (flat::of_day(&day), usize::from(day.h));
        let test = number(&check::overload(&fields));
        for (room, wanted) in [(h - 1, 11), (h, test), (h + 3, test)] {
            let wanted = if test == 14 { 14 } else { wanted };
            assert_eq!(number(&check::schedule(&fields, room)), wanted, "{room} bytes, {day:?}");
        }
        told.count(test);
    }
    told.more_than(500, &[0, 9, 14]);
}

/// The rows in their order, 2, 3, 15, 16, 6, 7, 14, 11, 9, on values that may break any of them.
#[test]
fn thirty_thousand_wild_values() {
    let seen = values::wild(17, 30_000, |random, fields| {
        let h = fields[0].min(2_000) as usize;
        let any = random.below(2_000);
        let room = random.pick(&[0, h.saturating_sub(1), h, h, h + 1, 2_000, any]);
        let test = number(&check::overload(fields));
        let plan = number(&check::schedule(fields, room));
        assert!(plan == test || plan == 11 && (test == 0 || test == 9), "{plan} and {test}");
        plan
    });
    seen.more_than(300, &[0, 2, 3, 6, 7, 9, 11, 14, 15, 16]);
}
