//! The smallest days on which document 02's "Clear the nearly finished box first" gives another plan, another early or
//! late plan, or another broken count than the former rule, by trying all days: those of fewer minutes first, and of as
//! many minutes those of fewer entries. "Plans, shown plans and the broken count follow Jackson's rule under this tie
//! from now on. Settled windows, least ends and greatest starts keep their values."

use crate::tie_traps::lowest_place;
use dock_tests::abi::Call;
use dock_tests::check_bounds::{asked, by_trying_everything};
use dock_tests::day::Day;
use dock_tests::narrow::Narrowed;
use dock_tests::samples::{boxes, plan};
use dock_tests::{bounds, brute, jackson, mirror, narrow, overload, small};

/// A schedule of a day's windows.
type Rule = fn(&Day) -> Vec<u8>;

/// The schedule of settled windows that a call gives, by either rule. Bounds are those of both.
fn answered(rule: Rule, call: Call, settled: &Day) -> Vec<u8> {
    match call {
        Call::Plan => rule(settled),
        Call::Early(place) => {
            let end = bounds::least_end(settled, place as usize);
            rule(&bounds::with_end(settled, place as usize, end))
        }
        Call::Late(place) => {
            let start = bounds::greatest_start(settled, place as usize);
            mirror::plan(&rule(&mirror::day(&bounds::with_start(settled, place as usize, start))))
        }
    }
}

/// Whether a call gives another plan by the former rule.
fn changed(call: Call, settled: &Day) -> bool {
    answered(lowest_place, call, settled) != answered(jackson::schedule, call, settled)
}

/// The broken entries of a day's plan by the former rule, and by this one.
fn broken(settled: &Day) -> (u64, u64) {
    let by = |rule: Rule| bounds::broken(settled, &rule(settled));
    (by(lowest_place), by(jackson::schedule))
}

/// All sizes in their order, minutes and entries. A day with more entries than minutes has no plan.
fn sizes() -> impl Iterator<Item = (u16, u32)> {
    (1..=5).flat_map(|h| (0..=u32::from(h)).map(move |n| (h, n)))
}

/// The days of a size that can be planned and whose settled windows are so.
fn days(h: u16, n: u32, is_so: impl Fn(&Day) -> bool) -> Vec<Day> {
    let planned = small::days(h, n).filter(|day| overload::shown(day).is_none());
    let all = planned.flat_map(small::of_both_kinds);
    let found = all.filter(|day| match narrow::rounds(day).outcome_after(0) {
        Ok(Narrowed { day: settled, .. }) => is_so(&settled),
        Err(_) => false,
    });
    found.collect()
}

/// The smallest size that has days whose settled windows are so, and all of them. Windows, moves and bounds of each are
/// what trying everything says, and the library gives the plans of this rule.
#[track_caller]
fn smallest(is_so: impl Fn(&Day) -> bool) -> ((u16, u32), Vec<Day>) {
    let mut all = sizes().map(|(h, n)| ((h, n), days(h, n, &is_so)));
    let (size, days) = all.find(|(_, days)| !days.is_empty()).expect("a day");
    for day in &days {
        assert_eq!(by_trying_everything(day), 0, "{day:?}");
    }
    (size, days)
}

/// The days are these in short, where `?` stands for either kind, in any order.
#[track_caller]
fn are(days: &[Day], h: u16, wanted: &[&str]) {
    let kinds = |text: &str| -> Vec<Day> {
        let mut texts = vec![text.to_string()];
        while texts[0].contains('?') {
            let either = |text: &String| ["p", "w"].map(|kind| text.replacen('?', kind, 1));
            texts = texts.iter().flat_map(either).collect();
        }
        texts.iter().map(|text| boxes(h, text)).collect()
    };
    let wanted: Vec<Day> = wanted.iter().flat_map(|text| kinds(text)).collect();
    assert_eq!(days.len(), wanted.len(), "{days:?}");
    for day in &wanted {
        assert!(days.contains(day), "{day:?}");
    }
}

/// On this day, whose windows are settled, a call gives the first plan by the former rule and the second one by this.
#[track_caller]
fn becomes(h: u16, text: &str, call: Call, former: &str, now: &str) {
    let day = boxes(h, text);
    assert_eq!(narrow::rounds(&day).moves(), [0], "{text} is settled");
    assert_eq!(answered(lowest_place, call, &day), plan(former), "{call:?} of {text} by the former rule");
    assert_eq!(asked(call, &day).1.plan, plan(now), "{call:?} of {text}");
}

/// Two boxes at any time: the shorter one goes first.
#[test]
fn another_plan() {
    let (size, days) = smallest(|settled| changed(Call::Plan, settled));
    assert_eq!(size, (3, 2));
    are(&days, 3, &["?[0,3)2 ?[0,3)1"]);
    becomes(3, "p[0,3)2 p[0,3)1", Call::Plan, "0 0 1", "1 0 0");
    becomes(3, "w[0,3)2 w[0,3)1", Call::Plan, "0 0 1", "1 0 0");
}

/// The smallest days that have another early plan, or another late one, have 4 minutes and 3 entries, and there are 580
/// of that size. These are among them, and the plan of place 2 becomes so.
#[track_caller]
fn another_shown(shown: fn(u64) -> Call, texts: [&str; 2], former: &str, now: &str) {
    let places = |settled: &Day| 0..settled.entries.len() as u64;
    let (size, days) = smallest(|settled| places(settled).any(|place| changed(shown(place), settled)));
    assert_eq!((size, days.len()), ((4, 3), 580));
    for text in texts {
        assert!(days.contains(&boxes(4, text)), "{text}");
        becomes(4, text, shown(2), former, now);
    }
}

/// A third box is shown, and the tie is between the two others.
#[test]
fn another_early_plan() {
    another_shown(Call::Early, ["p[0,4)2 p[0,4)1 p[0,1)1", "w[0,4)2 w[0,4)1 w[0,4)1"], "2 0 0 1", "2 1 0 0");
}

/// The same from the last minute back, where the minutes left are those not yet placed. A day has another early plan
/// exactly if its mirror has another late one, so that there are as many.
#[test]
fn another_late_plan() {
    another_shown(Call::Late, ["p[0,4)2 p[0,4)1 p[0,1)1", "w[1,4)2 w[1,4)1 w[0,1)1"], "2 1 0 0", "2 0 0 1");
}

/// The short box goes first, so that the long one is not done when a third box interrupts it.
#[test]
fn more_entries_are_broken() {
    let (size, days) = smallest(|settled| broken(settled).0 < broken(settled).1);
    assert_eq!(size, (5, 3));
    let wanted = [
        "?[2,3)1 w[0,5)2 ?[0,5)1",
        "w[0,5)2 ?[2,3)1 ?[0,5)1",
        "w[0,5)2 ?[0,5)1 ?[2,3)1",
        "?[2,4)1 w[0,5)2 ?[0,5)1",
        "w[0,5)2 ?[2,4)1 ?[0,5)1",
        "w[0,5)2 ?[0,5)1 ?[2,4)1",
    ];
    are(&days, 5, &wanted);
    becomes(5, "w[0,5)2 w[0,5)1 w[2,4)1", Call::Plan, "0 0 2 1 -", "1 0 2 0 -");
    assert_eq!(broken(&boxes(5, "w[0,5)2 w[0,5)1 w[2,4)1")), (0, 1));
}

/// The short box goes first, so that the long one is not begun when a third box would interrupt it.
#[test]
fn fewer_entries_are_broken() {
    let (size, days) = smallest(|settled| broken(settled).0 > broken(settled).1);
    assert_eq!(size, (4, 3));
    are(&days, 4, &["?[1,3)1 w[0,4)2 ?[0,4)1", "w[0,4)2 ?[1,3)1 ?[0,4)1", "w[0,4)2 ?[0,4)1 ?[1,3)1"]);
    becomes(4, "w[1,3)1 w[0,4)2 w[0,4)1", Call::Plan, "1 0 1 2", "2 0 1 1");
    assert_eq!(broken(&boxes(4, "w[1,3)1 w[0,4)2 w[0,4)1")), (1, 0));
}

/// Windows and bounds ask only whether a plan exists, and by either rule the schedule is one exactly if there is one.
#[test]
fn by_either_rule_the_schedule_is_a_plan_exactly_if_one_exists() {
    let mut other = 0;
    for day in small::pause_days_up_to(4, 3).chain(small::days(5, 3)) {
        let [former, now] = [lowest_place(&day), jackson::schedule(&day)];
        let exists = brute::has_plan(&day);
        assert_eq!(brute::is_plan(&day, &former), exists, "{former:?} of {day:?}");
        assert_eq!(brute::is_plan(&day, &now), exists, "{now:?} of {day:?}");
        other += usize::from(former != now);
    }
    assert!(other > 500, "{other} days with another schedule");
}
