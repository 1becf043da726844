//! Random days of both kinds, fixed by their seeds: small ones against trying everything, longer ones against
//! the second planner, and others against their mirror.

use dock_tests::abi::{self, Call, Lent};
use dock_tests::check_bounds::{ask, ask_all, by_trying_everything};
use dock_tests::day::{Day, MOST_ENTRIES};
use dock_tests::random::{self, each_of, Count, Random};
use dock_tests::{flat, mirror};

/// A day of at most `most` minutes and `n` entries: one of those on which narrowing is tried, one with as many
/// pause entries as whole ones, or one of wide entries and short ones that interrupt them.
fn day(random: &mut Random, most: u16, n: usize) -> Day {
    let sort = random.below(3);
    if sort == 0 {
        let h = random.within(3, most);
        let n = 1 + random.below(n);
        return random::nested_day(random, h, n);
    }
    let mut day = random::mixed_day(random, most, n);
    if sort == 1 {
        day.entries.iter_mut().for_each(|entry| entry.whole = random.once_in(2));
    }
    day
}

/// How often each number was answered, and how often days were planned with moves, with broken entries, and
/// with a pause entry that cannot have the first minutes of its window or the last ones.
#[derive(Debug, Default)]
struct Seen {
    numbers: [usize; 15],
    moved: usize,
    broken: usize,
    held_up: usize,
}

impl Count for Seen {
    fn count(&mut self, day: &Day) {
        let (answer, lent) = abi::ask(Call::Plan, &flat::of_day(day), day.h.into());
        self.numbers[answer.number as usize] += 1;
        if answer.number == 0 {
            self.moved += usize::from(answer.values[0] > 0);
            self.broken += usize::from(answer.values[1] > 0);
            let bounds = lent.bounds[..MOST_ENTRIES].iter().zip(&lent.bounds[MOST_ENTRIES..]);
            let held_up = bounds.zip(&day.entries).any(|((&end, &start), entry)| {
                let (end, start) = (end as u16, start as u16);
                !entry.whole && (end > entry.r + entry.p || start + entry.p < entry.d)
            });
            self.held_up += usize::from(held_up);
        }
    }
}

#[test]
fn ten_thousand_small_days_against_trying_everything() {
    let seen: Seen = each_of(10_000, 131, |random| day(random, 7, 4), by_trying_everything);
    assert!(seen.moved > 1_000 && seen.broken > 20 && seen.held_up > 500, "{seen:?}");
    assert!(seen.numbers[9] > 1_000 && seen.numbers[10] > 50, "{seen:?}");
}

#[test]
fn late_refusals_against_trying_everything() {
    let seen: Seen = each_of(1_000, 132, random::crossed_day, by_trying_everything);
    assert!(seen.numbers[0] > 200 && seen.numbers[10] > 100, "{seen:?}");
}

#[test]
fn five_thousand_days_of_up_to_12_minutes_against_the_second_planner() {
    let seen: Seen = each_of(5_000, 133, |random| day(random, 12, 6), ask_all);
    assert!(seen.moved > 500 && seen.broken > 50 && seen.held_up > 500, "{seen:?}");
    assert!(seen.numbers[9] > 500 && seen.numbers[10] > 50, "{seen:?}");
}

#[test]
fn one_thousand_days_of_up_to_60_minutes_against_the_second_planner() {
    let seen: Seen = each_of(1_000, 134, |random| day(random, 60, 12), ask_all);
    assert!(seen.moved > 100 && seen.broken > 100 && seen.held_up > 100, "{seen:?}");
    assert!(seen.numbers[9] > 100 && seen.numbers[10] > 20, "{seen:?}");
}

/// Days of which some serials are doubled: 14 by every call, or an answer as ever.
#[test]
fn days_with_doubled_serials_against_the_second_planner() {
    let make = |random: &mut Random| {
        let day = day(random, 20, 6);
        random::with_doubled_serials(random, day, 4)
    };
    let seen: Seen = each_of(2_000, 139, make, ask_all);
    assert!([0, 9, 14].iter().all(|&number| seen.numbers[number] > 200), "{seen:?}");
    assert!(seen.numbers[10] > 20 && seen.moved > 100, "{seen:?}");
}

/// A call on the mirrored day: an end is H minus a start there, and an early plan the mirror of a late one.
fn through_the_mirror(call: Call, day: &Day) -> Option<(u64, Vec<u8>, Day)> {
    let (h, n) = (u64::from(day.h), day.entries.len());
    let there = match call {
        Call::Plan => Call::Plan,
        Call::Early(place) => Call::Late(place),
        Call::Late(place) => Call::Early(place),
    };
    let (answer, lent) = abi::ask(there, &flat::of_day(&mirror::day(day)), day.h.into());
    (answer.number == 0).then(|| {
        let entries = flat::value(&lent.narrowed).places[..n].to_vec();
        let turned = mirror::day(&Day { h: day.h, opening: 0, entries });
        (h - answer.values[1], mirror::plan(&lent.plan), Day { opening: day.opening, ..turned })
    })
}

/// "Late: the mirror .. of Jackson's schedule of the mirrored list": the late plan of a day is the mirror of the
/// mirrored day's early plan, the early plan the mirror of its late plan, and the bounds are mirrored too.
#[test]
fn shown_plans_of_the_mirror_are_the_mirrored_ones() {
    let seen: Seen = each_of(
        3_000,
        135,
        |random| day(random, 20, 8),
        |day| {
            let fields = flat::of_day(day);
            for place in 0..day.entries.len() as u64 {
                for call in [Call::Early(place), Call::Late(place)] {
                    let (answer, lent) = abi::ask(call, &fields, day.h.into());
                    let here = (answer.number == 0).then_some((answer.values[1], lent.plan, lent.narrowed));
                    let there = through_the_mirror(call, day)
                        .map(|(bound, plan, narrowed)| (bound, plan, flat::of_day(&narrowed)));
                    assert!(here == there, "{call:?} of {day:?} through its mirror");
                }
            }
        },
    );
    assert!(seen.numbers[0] > 1_000 && seen.held_up > 300, "{seen:?}");
}

/// Planning answers the mirrored bounds, and as many moves.
#[test]
fn bounds_of_the_mirror_are_the_mirrored_ones() {
    let seen: Seen = each_of(
        3_000,
        136,
        |random| day(random, 20, 8),
        |day| {
            let (answer, lent) = abi::ask(Call::Plan, &flat::of_day(day), day.h.into());
            let (turned, mirrored) = abi::ask(Call::Plan, &flat::of_day(&mirror::day(day)), day.h.into());
            assert_eq!(answer.number, turned.number, "{day:?}");
            if answer.number == 0 {
                assert_eq!(answer.values[0], turned.values[0], "moves of {day:?}");
                for place in 0..day.entries.len() {
                    let (start, end) = (mirrored.bounds[MOST_ENTRIES + place], mirrored.bounds[place]);
                    let wanted = (u32::from(day.h) - start, u32::from(day.h) - end);
                    let found = (lent.bounds[place], lent.bounds[MOST_ENTRIES + place]);
                    assert_eq!(found, wanted, "place {place} of {day:?}");
                }
            }
        },
    );
    assert!(seen.numbers[0] > 1_000 && seen.held_up > 300, "{seen:?}");
}

/// Planning and showing say the same bounds, windows and moves.
#[test]
fn planning_and_showing_agree() {
    let seen: Seen = each_of(
        2_000,
        137,
        |random| day(random, 30, 8),
        |day| {
            let fields = flat::of_day(day);
            let room = usize::from(day.h);
            let (planned, Lent { narrowed, bounds, .. }) = abi::ask(Call::Plan, &fields, room);
            for place in 0..day.entries.len() {
                let calls = [Call::Early(place as u64), Call::Late(place as u64)];
                for (call, at) in calls.into_iter().zip([place, MOST_ENTRIES + place]) {
                    let (shown, lent) = abi::ask(call, &fields, room);
                    if planned.number == 0 {
                        let wanted = [planned.values[0], u64::from(bounds[at]), 0];
                        assert_eq!((shown.number, shown.values), (0, wanted), "{call:?} of {day:?}");
                    } else {
                        assert_eq!(shown, planned, "{call:?} of {day:?}");
                    }
                    assert!(lent.narrowed == narrowed, "{call:?} of {day:?}");
                }
            }
        },
    );
    assert!(seen.numbers[0] > 500 && seen.moved > 200 && seen.numbers[10] > 50, "{seen:?}");
}

/// The settled list answered is settled: planned once more it gives the same without a move.
#[test]
fn a_settled_list_is_planned_alike() {
    let seen: Seen = each_of(
        2_000,
        138,
        |random| day(random, 30, 8),
        |day| {
            let room = usize::from(day.h);
            for call in [Call::Plan, Call::Early(0), Call::Late(0)] {
                let (answer, lent) = abi::ask(call, &flat::of_day(day), room);
                if answer.number == 0 {
                    let (again, same) = ask(call, &lent.narrowed, room);
                    assert_eq!(
                        (again.number, again.values),
                        (0, [0, answer.values[1], 0]),
                        "{call:?} of {day:?}"
                    );
                    assert!(same == lent, "{call:?} of {day:?} once more");
                }
            }
        },
    );
    assert!(seen.moved > 200, "{seen:?}");
}
