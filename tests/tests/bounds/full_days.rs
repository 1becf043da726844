//! Full days, 1,440 minutes and 64 entries, against the second planner. Narrowing a full day takes long,
//! so there are not many of each sort; where many plans are shown, it is in windows that are settled already.

use dock_tests::abi::{Call, Lent};
use dock_tests::check_bounds::{ask, ask_all, asked};
use dock_tests::day::{Day, Entry, LONGEST_DAY, MOST_ENTRIES};
use dock_tests::flat::{self, Fields};
use dock_tests::random::{self, Random};
use dock_tests::samples::{whole, windows};

/// The bytes of the longest day's plan.
const LONGEST: usize = LONGEST_DAY as usize;

/// Plans a full day, and has the plans of every eighth place shown in the windows that it then has. Gives what
/// planning answers.
#[track_caller]
fn planned(day: &Day) -> ([u64; 3], Lent) {
    let (answer, lent) = asked(Call::Plan, day);
    some_shown(&lent.narrowed, answer.values[0] as usize % 8);
    (answer.values, lent)
}

#[track_caller]
fn some_shown(fields: &Fields, first: usize) {
    for place in (first..MOST_ENTRIES).step_by(8) {
        for call in [Call::Early(place as u64), Call::Late(place as u64)] {
            assert_eq!(ask(call, fields, LONGEST + 7).0.number, 0, "{call:?}");
        }
    }
}

/// With minutes to spare, all entries whole or one in two or four pause.
#[test]
fn full_loose_days() {
    let mut random = Random::new(161);
    for turn in 0..5 {
        let wider = random.pick(&[15, 30, 60]);
        let day = random::full_day(&mut random, true, wider, [0, 2, 4][turn % 3]);
        let (values, lent) = planned(&day);
        let place = random.below(MOST_ENTRIES) as u64;
        for call in [Call::Early(place), Call::Late(place)] {
            let (answer, shown) = asked(call, &day);
            assert_eq!(answer.values[0], values[0], "{call:?}");
            assert!(shown.narrowed == lent.narrowed, "{call:?}");
        }
    }
}

/// Without an idle minute there is much to narrow.
#[test]
fn full_tight_days() {
    let mut random = Random::new(162);
    let mut moves = 0;
    for (wider, pause) in [(10, 0), (20, 2), (40, 4)] {
        let day = random::full_day(&mut random, false, wider, pause);
        moves += planned(&day).0[0];
    }
    assert!(moves > 100, "{moves} moves");
}

/// Pause entries alone, with windows on a grid: many of them end together.
#[test]
fn full_days_of_pause_entries() {
    let mut random = Random::new(163);
    for idle in [0, 4, 20] {
        let mut day = random::planned_day(&mut random, LONGEST_DAY, MOST_ENTRIES, idle, &[1, 5, 15, 60]);
        day.entries.iter_mut().for_each(|entry| entry.whole = false);
        let (values, lent) = planned(&day);
        assert_eq!(values, [0, 0, 0], "nothing to move or to break");
        let held_up = |(place, entry): (usize, &Entry)| {
            lent.bounds[place] > u32::from(entry.r + entry.p)
                || lent.bounds[MOST_ENTRIES + place] < u32::from(entry.d - entry.p)
        };
        assert!(day.entries.iter().enumerate().any(held_up), "bounds that the others move");
    }
}

/// Windows drawn around a plan that breaks entries, of which a quarter is whole: plans break them too.
#[test]
fn full_days_with_broken_entries() {
    let mut random = Random::new(164);
    let (mut planned_days, mut broken) = (0, 0);
    for _ in 0..8 {
        let mut day = random::planned_day(&mut random, LONGEST_DAY, MOST_ENTRIES, 3, &[1, 5, 15, 60]);
        day.entries.iter_mut().for_each(|entry| entry.whole = random.once_in(4));
        let (answer, lent) = ask(Call::Plan, &flat::of_day(&day), LONGEST);
        if answer.number == 0 {
            planned_days += 1;
            broken += answer.values[1];
            some_shown(&lent.narrowed, 3);
        }
    }
    assert!(planned_days > 3 && broken > 3, "{planned_days} days, {broken} broken entries");
}

/// Every place of a full day of both kinds, in its settled windows.
#[test]
fn every_place_of_a_full_day() {
    let mut random = Random::new(165);
    let day = random::full_day(&mut random, false, 40, 2);
    let (_, lent) = asked(Call::Plan, &day);
    let places = flat::value(&lent.narrowed).places;
    let (answer, again) = ask_all(&Day { h: LONGEST_DAY, opening: 0, entries: places });
    assert_eq!((answer.number, answer.values[0]), (0, 0));
    assert!(again.narrowed == lent.narrowed && again.bounds == lent.bounds, "settled once more");
}

#[test]
fn full_overloaded_days() {
    let mut random = Random::new(166);
    for _ in 0..20 {
        let mut day = random::full_day(&mut random, false, 60, 2);
        random::work_more(&mut random, &mut day);
        for call in [Call::Plan, Call::Early(63), Call::Late(0)] {
            assert_eq!(ask(call, &flat::of_day(&day), LONGEST).0.number, 9, "{call:?}");
        }
    }
}

/// A pause entry that fills the first 1,300 minutes, and 63 entries of one minute at any time.
fn long_block() -> Day {
    let mut entries = vec![(0, LONGEST_DAY, 1); MOST_ENTRIES];
    entries[0] = (0, 1300, 1300);
    windows(LONGEST_DAY, &entries)
}

/// The plans of such a day: the block, then the place shown and the others by place, then idle minutes; and
/// late the same from the last minute back.
#[track_caller]
fn around_the_block(fields: &Fields, place: u8) {
    let others = (1..64).filter(|&other| other != place);
    let order = Vec::from_iter([place].into_iter().chain(others));
    let (block, idle) = (vec![0; 1300], vec![255; 77]);
    let (answer, lent) = ask(Call::Early(place.into()), fields, LONGEST);
    assert_eq!((answer.number, answer.values[1]), (0, 1301), "early plan of {place}");
    assert_eq!(lent.plan, [&block[..], &order, &idle].concat(), "early plan of {place}");
    let backwards = Vec::from_iter(order.into_iter().rev());
    let (answer, lent) = ask(Call::Late(place.into()), fields, LONGEST);
    assert_eq!((answer.number, answer.values[1]), (0, 1439), "late plan of {place}");
    assert_eq!(lent.plan, [block, idle, backwards].concat(), "late plan of {place}");
}

/// Each of the whole entries is moved behind the block: 63 moves.
#[test]
fn whole_entries_behind_a_long_block() {
    let day = whole(long_block(), &Vec::from_iter(1..MOST_ENTRIES));
    let (answer, lent) = asked(Call::Plan, &day);
    assert_eq!(answer.values, [63, 0, 0]);
    let mut settled = day.clone();
    settled.entries[1..].iter_mut().for_each(|entry| entry.r = 1300);
    assert!(lent.narrowed == flat::of_day(&settled), "settled behind the block");
    assert_eq!((lent.bounds[0], lent.bounds[MOST_ENTRIES]), (1300, 0));
    assert!(lent.bounds[1..MOST_ENTRIES].iter().all(|&end| end == 1301), "least ends");
    assert!(lent.bounds[MOST_ENTRIES + 1..].iter().all(|&start| start == 1439), "greatest starts");
    [1, 2, 40, 63].into_iter().for_each(|place| around_the_block(&lent.narrowed, place));
}

/// Pause entries are not moved, and their least ends are found behind the block all the same.
#[test]
fn pause_entries_behind_a_long_block() {
    let day = long_block();
    let (answer, lent) = asked(Call::Plan, &day);
    assert_eq!(answer.values, [0, 0, 0]);
    assert!(lent.narrowed == flat::of_day(&day), "pause entries are passed over");
    assert_eq!((lent.bounds[0], lent.bounds[MOST_ENTRIES]), (1300, 0));
    assert!(lent.bounds[1..MOST_ENTRIES].iter().all(|&end| end == 1301), "least ends");
    assert!(lent.bounds[MOST_ENTRIES + 1..].iter().all(|&start| start == 1439), "greatest starts");
    [1, 2, 40, 63].into_iter().for_each(|place| around_the_block(&flat::of_day(&day), place));
}

/// Between small days and full ones, every place of them.
#[test]
fn large_days_of_any_size() {
    let mut random = Random::new(167);
    let mut moved = 0;
    for turn in 0..12 {
        let h = random.within(100, 600);
        let n = 8 + random.below(17);
        let wider = random.within(1, h / 10);
        let mut day = random::unbroken_day(&mut random, h, n, turn % 3 == 0, wider);
        day.entries.iter_mut().for_each(|entry| entry.whole = !random.once_in(3));
        moved += usize::from(ask_all(&day).0.values[0] > 0);
    }
    assert!(moved > 5, "{moved} days with moves");
}
