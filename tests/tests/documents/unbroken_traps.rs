//! Wrong readings of document 02's "A plan with no box torn apart", each with a day and a limit on which it answers
//! otherwise than the rule. Where `differs` is used, it is the first such day of at most 3 entries, by minutes, then by
//! entries, in the order of `small::days_up_to`, and the least such limit.

use dock_tests::check_unbroken::{self, by_trying_everything, searched, FOUND, NONE, SPENT};
use dock_tests::day::{Day, Entry};
use dock_tests::narrow::{self, Narrowed};
use dock_tests::random::{self, Random};
use dock_tests::samples::{boxes, plan};
use dock_tests::{bounds, brute, flat, jackson, overload, small, torn, unbroken};
use std::sync::OnceLock;

/// A way to search. A trap is one that differs from the right way in one of these.
#[derive(Clone, Copy)]
struct Way {
    /// The windows in which it searches, of the given and of the settled ones.
    windows: fn(&Day, &Day) -> Day,
    /// The places whose starts it searches, in their order.
    places: fn(&Day) -> Vec<usize>,
    /// The starts of an entry in the order in which they are tried.
    starts: fn(&Entry) -> Vec<u16>,
    /// A trial of windows in which the starts at these places are fixed: the windows in which it goes on, if it may.
    trial: fn(Day, &[usize]) -> Option<Day>,
    /// Where an entry has no start left: the number of the start that is next, of the last entry that is then fixed no more.
    back: fn(&mut Vec<usize>) -> Option<usize>,
    /// The first start of an entry, of the number that was next when it was left.
    first: fn(usize) -> usize,
    /// Whether a trial counts, of which it is known if it succeeded.
    counts: fn(bool) -> bool,
    /// Whether no trial may be made, after so many, and so many of the entry since the last one was fixed.
    is_spent: fn(u32, u32, u32) -> bool,
    /// Whether that is asked before it is known that a trial is needed.
    asks_first: bool,
    /// The plan of a day that is found, of the settled windows and those with the starts fixed.
    plan: fn(&Day, &Day) -> Vec<u8>,
    /// What is written where none is found.
    no_plan: fn(&Day) -> Option<Vec<u8>>,
}

/// The right way.
const RIGHT: Way = Way {
    windows: |_, settled| settled.clone(),
    places: unbroken::wholes,
    starts: |entry| (entry.r..=entry.d - entry.p).collect(),
    trial: |fixed, _| jackson::is_plan(&fixed).then_some(fixed),
    back: |fixed| fixed.pop().map(|number| number + 1),
    first: |_| 0,
    counts: |_| true,
    is_spent: |trials, _, limit| trials >= limit,
    asks_first: false,
    plan: |_, fixed| jackson::schedule(fixed),
    no_plan: |_| None,
};

/// What a search says: how it ended, its trials, the starts of the whole entries, and what it wrote as a plan, if it did.
#[derive(Clone, Debug, PartialEq, Eq)]
struct Said {
    ending: u64,
    trials: u32,
    starts: Vec<u16>,
    plan: Option<Vec<u8>>,
}

/// A day was found with these trials, starts and this plan.
fn found(trials: u32, starts: &[u16], minutes: &str) -> Said {
    Said { ending: FOUND, trials, starts: starts.to_vec(), plan: Some(plan(minutes)) }
}

/// None was found, or the trials were spent.
fn not_found(ending: u64, trials: u32) -> Said {
    Said { ending, trials, starts: vec![], plan: None }
}

/// What this way says.
fn by_way(way: &Way, given: &Day, settled: &Day, limit: u32) -> Said {
    let windows = (way.windows)(given, settled);
    let places = (way.places)(&windows);
    let mut days = vec![windows]; // with one more start fixed each
    let mut fixed = vec![]; // the numbers of the starts
    let mut left = vec![0; places.len() + 1]; // where each entry was left
    let (mut next, mut trials, mut of_entry) = (0, 0, 0);
    let no_day = |ending, trials| Said { plan: (way.no_plan)(settled), ..not_found(ending, trials) };
    loop {
        if way.asks_first && (way.is_spent)(trials, of_entry, limit) {
            return no_day(SPENT, trials);
        }
        days.truncate(fixed.len() + 1);
        let day = days[fixed.len()].clone();
        let Some(&place) = places.get(fixed.len()) else {
            let starts = unbroken::wholes(&day).into_iter().map(|place| day.entries[place].r);
            let plan = Some((way.plan)(settled, &day));
            return Said { ending: FOUND, trials, starts: starts.collect(), plan };
        };
        let starts = (way.starts)(&day.entries[place]);
        left[fixed.len()] = next;
        if next >= starts.len() {
            match (way.back)(&mut fixed) {
                Some(number) => next = number,
                None => return no_day(NONE, trials),
            }
            continue;
        }
        if (way.is_spent)(trials, of_entry, limit) {
            return no_day(SPENT, trials);
        }
        let mut tried = day.clone();
        let entry = &mut tried.entries[place];
        (entry.r, entry.d) = (starts[next], starts[next] + entry.p);
        let went = (way.trial)(tried, &places[..=fixed.len()]);
        let counted = u32::from((way.counts)(went.is_some()));
        (trials, of_entry) = (trials + counted, of_entry + counted);
        match went {
            Some(day) => {
                left[fixed.len()] = next + 1;
                fixed.push(next);
                days.truncate(fixed.len());
                days.push(day);
                next = (way.first)(left[fixed.len()]);
                of_entry = 0;
            }
            None => next += 1,
        }
    }
}

/// The settled windows of a day that has them.
fn settled(day: &Day) -> Option<Day> {
    if overload::shown(day).is_some() {
        return None;
    }
    narrow::rounds(day).outcome_after(0).ok().map(|Narrowed { day, .. }| day)
}

/// All days of at most 5 minutes and 3 entries that have settled windows, with these and the trials that they need.
fn all_days() -> &'static [(Day, Day, u32)] {
    static ALL: OnceLock<Vec<(Day, Day, u32)>> = OnceLock::new();
    ALL.get_or_init(|| {
        let planned = (1..=5).flat_map(|h| (0..=3).flat_map(move |n| small::days(h, n)));
        let days = planned.filter(|day| overload::shown(day).is_none()).flat_map(small::of_both_kinds);
        let searched = days.filter_map(|day| {
            let settled = settled(&day)?;
            let trials = unbroken::search(&settled, u32::MAX).trials;
            Some((day, settled, trials))
        });
        searched.collect()
    })
}

/// What the library says, which the second search says too.
#[track_caller]
fn by_library(day: &Day, limit: u32) -> Said {
    let (answer, lent) = searched(day, limit);
    let [_, ending, trials] = answer.values;
    let starts = unbroken::wholes(day).into_iter().map(|place| lent.starts[place] as u16);
    let is_found = ending == FOUND;
    let starts = if is_found { starts.collect() } else { vec![] };
    Said { ending, trials: trials as u32, starts, plan: is_found.then_some(lent.plan) }
}

/// On this day and with this limit the first is what must be said and the library says, the second what the trap's way
/// says.
#[track_caller]
fn tells_apart(way: &Way, day: &Day, limit: u32, right: &Said, wrong: &Said) {
    let settled = settled(day).expect("settled windows");
    assert_ne!(right, wrong);
    assert_eq!(by_way(way, day, &settled, limit), *wrong, "the trap's way, {day:?}");
    assert_eq!(by_way(&RIGHT, day, &settled, limit), *right, "the right way, {day:?}");
    assert_eq!(by_library(day, limit), *right, "the library, {day:?}");
}

/// The same, and it is the first day and limit that do.
#[track_caller]
fn differs(way: Way, h: u16, entries: &str, limit: u32, right: Said, wrong: Said) {
    let first = all_days().iter().find_map(|(day, settled, trials)| {
        let is_so = |&limit: &u32| by_way(&way, day, settled, limit) != by_way(&RIGHT, day, settled, limit);
        (0..=trials + 1).find(is_so).map(|limit| (day, limit))
    });
    let day = boxes(h, entries);
    assert_eq!(first, Some((&day, limit)), "the first day and limit");
    tells_apart(&way, &day, limit, &right, &wrong);
}

/// With nothing changed the form of a way gives the rule's search, so that only what a trap changes makes it one.
#[test]
fn only_what_is_changed_makes_a_trap() {
    let mut random = Random::new(851);
    let mut seen = [0; 4];
    for turn in 0..1_500 {
        let day = match turn % 3 {
            0 => random::small_day(&mut random),
            1 => random::mixed_day(&mut random, 20, 6),
            _ => random::gapped_day(&mut random, 9),
        };
        let limit = random.pick(&[0, 3, 30, 300]);
        if let Some(settled) = settled(&day) {
            let right = by_way(&RIGHT, &day, &settled, limit);
            assert_eq!(right, by_library(&day, limit), "limit {limit} of {day:?}");
            seen[right.ending as usize] += 1;
        }
    }
    assert!(seen[1..].iter().all(|&times| times > 10), "{seen:?}");
}

/// "starts upward"
#[test]
fn starts_downward() {
    let way = Way { starts: |entry| (entry.r..=entry.d - entry.p).rev().collect(), ..RIGHT };
    differs(way, 2, "w[0,2)1", 1, found(1, &[0], "0 -"), found(1, &[1], "- 0"));
}

/// "whole entries by place"
#[test]
fn the_last_entry_first() {
    let places = |day: &Day| Vec::from_iter(unbroken::wholes(day).into_iter().rev());
    let way = Way { places, ..RIGHT };
    differs(way, 2, "w[0,2)1 w[0,2)1", 3, found(3, &[0, 1], "0 1"), found(3, &[1, 0], "1 0"));
}

/// "whole entries by place", and not by their windows.
#[test]
fn the_smallest_d_first() {
    let places = |day: &Day| {
        let mut places = unbroken::wholes(day);
        places.sort_by_key(|&place| day.entries[place].d);
        places
    };
    let way = Way { places, ..RIGHT };
    differs(way, 3, "w[0,3)1 w[0,2)1", 3, found(3, &[0, 1], "0 1 -"), found(3, &[1, 0], "1 0 -"));
}

/// "whole entries": a pause entry has no start to be tried.
#[test]
fn pause_entries_searched_too() {
    let way = Way { places: |day| (0..day.entries.len()).collect(), ..RIGHT };
    differs(way, 1, "p[0,1)1", 0, found(0, &[], "0"), not_found(SPENT, 0));
    let day = boxes(2, "p[0,2)1 w[0,2)1");
    tells_apart(&way, &day, 3, &found(1, &[0], "1 0"), &found(3, &[1], "0 1"));
    let broken = boxes(3, "p[0,3)2 w[1,2)1");
    tells_apart(&way, &broken, 9, &found(1, &[1], "0 1 0"), &not_found(NONE, 2));
}

/// "Search inside the settled windows": the given ones have the same unbroken days, and more trials.
#[test]
fn the_given_windows_searched() {
    let way = Way { windows: |given, _| given.clone(), ..RIGHT };
    differs(way, 2, "w[0,2)1 p[0,1)1", 1, found(1, &[1], "1 0"), not_found(SPENT, 1));
    let day = boxes(4, "w[0,3)2 w[0,4)2");
    tells_apart(&way, &day, 4, &found(2, &[0, 2], "0 0 1 1"), &found(4, &[0, 2], "0 0 1 1"));
}

/// The search narrows no more: what narrowing would take away after a start is fixed is tried all the same.
#[test]
fn windows_narrowed_after_each_start() {
    let way = Way { trial: |fixed, _| settled(&fixed), ..RIGHT };
    differs(way, 2, "w[0,2)1 w[0,2)1", 2, not_found(SPENT, 2), found(2, &[0, 1], "0 1"));
}

/// "going back to the previous entry's next start": at the same start it comes back for ever.
#[test]
fn going_back_to_the_same_start() {
    let way = Way { back: |fixed| fixed.pop(), ..RIGHT };
    let right = found(5, &[2, 0], "1 1 0 -");
    differs(way, 4, "w[1,4)1 w[0,3)2", 5, right.clone(), not_found(SPENT, 5));
    tells_apart(&way, &boxes(4, "w[1,4)1 w[0,3)2"), 10_000, &right, &not_found(SPENT, 10_000));
}

/// "going back": else a day is overlooked, since the first start that has a plan need not belong to an unbroken day.
#[test]
fn not_going_back() {
    let way = Way { back: |_| None, ..RIGHT };
    differs(way, 4, "w[1,4)1 w[0,3)2", 3, not_found(SPENT, 3), not_found(NONE, 3));
    let day = boxes(4, "w[1,4)1 w[0,3)2");
    tells_apart(&way, &day, 5, &found(5, &[2, 0], "1 1 0 -"), &not_found(NONE, 3));
}

/// "to the previous entry's next start", and not to the first one's.
#[test]
fn going_back_to_the_first_entry() {
    let back = |fixed: &mut Vec<usize>| {
        let next = fixed.first().map(|number| number + 1);
        fixed.clear();
        next
    };
    let way = Way { back, ..RIGHT };
    let entries = "w[1,4)1 w[0,5)1 w[0,3)2";
    let wrong = found(13, &[2, 3, 0], "2 2 0 1 -");
    differs(way, 5, entries, 13, not_found(SPENT, 13), wrong.clone());
    tells_apart(&way, &boxes(5, entries), 99, &found(16, &[2, 3, 0], "2 2 0 1 -"), &wrong);
    assert_eq!(by_trying_everything(&boxes(5, entries)), Ok((FOUND, 16)), "as many are counted");
}

/// "starts upward": after going back an entry begins with its first start again.
#[test]
fn an_entry_goes_on_where_it_was_left() {
    let way = Way { first: |left| left, ..RIGHT };
    differs(way, 4, "w[1,4)1 w[0,3)2", 5, found(5, &[2, 0], "1 1 0 -"), not_found(NONE, 5));
}

/// "one trial is one start of one entry", whatever comes of it.
#[test]
fn trials_counted_where_they_fail() {
    let way = Way { counts: |succeeded| !succeeded, ..RIGHT };
    differs(way, 1, "w[0,1)1", 1, found(1, &[0], "0"), found(0, &[0], "0"));
}

#[test]
fn trials_counted_where_they_succeed() {
    let way = Way { counts: |succeeded| succeeded, ..RIGHT };
    differs(way, 2, "w[0,2)1 w[0,2)1", 2, not_found(SPENT, 2), found(2, &[0, 1], "0 1"));
}

/// "only when one more trial is needed and all were used": not where a day is found, or no start is left, with the last.
#[test]
fn spent_when_all_were_used() {
    let way = Way { asks_first: true, ..RIGHT };
    differs(way, 1, "", 0, found(0, &[], "-"), not_found(SPENT, 0));
    tells_apart(&way, &boxes(1, "p[0,1)1"), 0, &found(0, &[], "0"), &not_found(SPENT, 0));
    tells_apart(&way, &boxes(1, "w[0,1)1"), 1, &found(1, &[0], "0"), &not_found(SPENT, 1));
    tells_apart(&way, &torn::smallest(), 78, &not_found(NONE, 78), &not_found(SPENT, 78));
}

/// "all were used": and not one more.
#[test]
fn spent_one_late() {
    let way = Way { is_spent: |trials, _, limit| trials > limit, ..RIGHT };
    differs(way, 1, "w[0,1)1", 0, not_found(SPENT, 0), found(1, &[0], "0"));
    tells_apart(&way, &torn::smallest(), 77, &not_found(SPENT, 77), &not_found(NONE, 78));
}

/// "a limit of trials": of all of them, and not of each entry's.
#[test]
fn a_limit_for_each_entry() {
    let way = Way { is_spent: |_, of_entry, limit| of_entry >= limit, ..RIGHT };
    differs(way, 2, "w[0,2)1 w[0,1)1", 1, not_found(SPENT, 1), found(2, &[1, 0], "1 0"));
}

/// "tested by whether a plan still exists": the entries that are not fixed need their minutes, too.
#[test]
fn only_fixed_entries_held_against_each_other() {
    let trial = |fixed: Day, places: &[usize]| {
        let (&last, before) = places.split_last().expect("a place");
        let window = |place: usize| (fixed.entries[place].r, fixed.entries[place].d);
        let apart = |&place: &usize| window(place).1 <= window(last).0 || window(last).1 <= window(place).0;
        before.iter().all(apart).then(|| fixed.clone())
    };
    let way = Way { trial, ..RIGHT };
    let entries = "w[0,3)1 w[0,3)1 p[0,2)1";
    let wrong = found(3, &[0, 1], "0 1 2");
    differs(way, 3, entries, 3, not_found(SPENT, 3), wrong.clone());
    tells_apart(&way, &boxes(3, entries), 4, &found(4, &[0, 2], "0 2 1"), &wrong);
    assert!(!brute::is_plan(&boxes(3, entries), &plan("0 1 2")), "the pause entry is late");
}

/// "the plan is Jackson's with the starts fixed"
#[test]
fn the_plan_of_the_settled_windows() {
    let way = Way { plan: |settled, _| jackson::schedule(settled), ..RIGHT };
    differs(way, 2, "p[0,2)1 w[0,2)1", 1, found(1, &[0], "1 0"), found(1, &[0], "0 1"));
    let day = boxes(4, "w[0,4)2 w[1,3)1");
    tells_apart(&way, &day, 3, &found(3, &[0, 2], "0 0 1 -"), &found(3, &[0, 2], "0 1 0 -"));
    assert_eq!(bounds::broken(&day, &plan("0 1 0 -")), 1);
}

/// "its list of whole entries' starts is the least": a day's plan that breaks no entry is an unbroken day, but not the
/// one that is found.
#[test]
fn the_days_plan_where_it_breaks_nothing() {
    let plan = |settled: &Day, fixed: &Day| {
        let plan = jackson::schedule(settled);
        if bounds::broken(settled, &plan) == 0 {
            return plan;
        }
        jackson::schedule(fixed)
    };
    let way = Way { plan, ..RIGHT };
    differs(way, 2, "p[0,2)1 w[0,2)1", 1, found(1, &[0], "1 0"), found(1, &[0], "0 1"));
}

/// "compared from place 0 on": the starts with the least sum, or in the order of time, are others. Day by day, these are
/// the first that tell them apart.
#[test]
fn the_least_starts_otherwise_compared() {
    type Key = fn(&[u16]) -> Vec<u16>;
    let least = |day: &Day, key: Key| {
        let lists = unbroken::lists_of_starts(day, unbroken::wholes(day).len()).into_iter();
        lists.filter(|starts| brute::has_plan(&unbroken::fixed(day, starts))).min_by_key(|starts| key(starts))
    };
    let by_sum = |starts: &[u16]| vec![starts.iter().sum()];
    let by_time = |starts: &[u16]| {
        let mut starts = starts.to_vec();
        starts.sort_unstable();
        starts
    };
    let other_ways: [Key; 2] = [by_sum, by_time];
    for key in other_ways {
        let differs =
            |(day, _, _): &&(Day, Day, u32)| least(day, key) != least(day, |starts| starts.to_vec());
        let (day, _, _) = all_days().iter().find(differs).expect("a day");
        assert_eq!(*day, boxes(3, "w[0,3)2 w[0,3)1"));
        assert_eq!(least(day, key), Some(vec![1, 0]));
        assert_eq!(by_library(day, 99), found(4, &[0, 2], "0 0 1"));
    }
}

/// "None and spent leave the plan buffer as it was."
#[test]
fn the_days_plan_where_none_is_found() {
    let way = Way { no_plan: |settled| Some(jackson::schedule(settled)), ..RIGHT };
    let wrong = |right: &Said, minutes: &str| Said { plan: Some(plan(minutes)), ..right.clone() };
    let spent = not_found(SPENT, 0);
    differs(way, 1, "w[0,1)1", 0, spent.clone(), wrong(&spent, "0"));
    for right in [not_found(NONE, 78), not_found(SPENT, 77)] {
        tells_apart(&way, &torn::smallest(), right.trials, &right, &wrong(&right, "0 0 1 3 1 2 2"));
    }
}

/// "None: said, where 9 and 10 were not given": a search of such a list finds none, too, but it is refused.
#[test]
fn none_where_a_list_is_refused() {
    for (h, entries, number, values, trials) in
        [(1, "w[0,1)1 w[0,1)1", 9, [0, 1, 2], 1), (3, "w[0,3)2 w[1,2)1", 10, [0, 0, 0], 2)]
    {
        let day = boxes(h, entries);
        let searched = by_way(&RIGHT, &day, &day, 99);
        assert_eq!(searched, not_found(NONE, trials), "{entries}, without 9 and 10");
        let (answer, _) = check_unbroken::search(&flat::of_day(&day), 99, h.into());
        assert_eq!((answer.number, answer.values), (number, values), "{entries}");
    }
}
