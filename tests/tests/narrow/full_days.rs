//! Full days, 1,440 minutes and 64 entries, against the second narrowing, and long days that are put together
//! from small ones. A search over many starts takes its time, so there are not many days of each sort.

use dock_tests::check::{self, number};
use dock_tests::check_narrow::{by_trying_everything, rounds, settle, settled};
use dock_tests::day::{Day, Entry, Refusal, LONGEST_DAY, MOST_ENTRIES};
use dock_tests::narrow::{self, Narrowed};
use dock_tests::random::{self, Random};
use dock_tests::samples::{all_whole, boxes};
use dock_tests::{abi, brute, chains, flat};

/// With minutes to spare there is little to narrow.
#[test]
fn full_loose_days() {
    let mut random = Random::new(121);
    let mut moved = 0;
    for turn in 0..30 {
        let wider = random.pick(&[15, 30, 60, 1440]);
        let day = random::full_day(&mut random, true, wider, [0, 2, 4][turn % 3]);
        moved += usize::from(settled(&day).1 > 0);
    }
    assert!(moved > 5, "{moved} days with moves");
}

/// Without an idle minute there is much to narrow.
#[test]
fn full_tight_days() {
    let mut random = Random::new(122);
    let mut all = 0;
    for turn in 0..20 {
        let wider = [10, 30, 60, 200][turn % 4];
        let day = random::full_day(&mut random, false, wider, [0, 2, 4, 8, 16][turn % 5]);
        let narrowed = settle(&flat::of_day(&day)).expect("there is an unbroken plan");
        let cut = narrow::minutes_cut(&day, &narrowed.day);
        assert!(narrowed.moves <= cut, "{} moves cut {cut} minutes", narrowed.moves);
        all += narrowed.moves;
    }
    assert!(all > 500, "{all} moves");
}

/// Between small days and full ones.
#[test]
fn large_days_of_any_size() {
    let mut random = Random::new(129);
    let mut moved = 0;
    for turn in 0..30 {
        let h = random.within(100, LONGEST_DAY);
        let n = 8 + random.below(MOST_ENTRIES - 7);
        let wider = random.within(1, h / 10);
        let mut day = random::unbroken_day(&mut random, h, n, turn % 3 == 0, wider);
        day.entries.iter_mut().for_each(|entry| entry.whole = !random.once_in(5));
        moved += usize::from(settled(&day).1 > 0);
    }
    assert!(moved > 15, "{moved} days with moves");
}

/// "each whole entry has such a plan with its minutes consecutive from its r on, and one with them
/// consecutive up to its d": the library itself plans these.
#[test]
fn settled_windows_have_the_plans_that_make_them_so() {
    let mut random = Random::new(128);
    for wider in [30, 200] {
        let day = random::full_day(&mut random, false, wider, 4);
        let Narrowed { day, .. } = settle(&flat::of_day(&day)).expect("there is an unbroken plan");
        for place in (0..MOST_ENTRIES).filter(|&place| day.entries[place].whole) {
            let Entry { r, d, p, .. } = day.entries[place];
            for start in [r, d - p] {
                let mut fixed = day.clone();
                (fixed.entries[place].r, fixed.entries[place].d) = (start, start + p);
                let plan = check::planned(&fixed);
                assert!(brute::is_plan(&day, &plan), "place {place} from {start} on");
                assert_eq!(brute::minutes_of(&plan, place), Vec::from_iter(start..start + p));
            }
        }
    }
}

/// The rounds of a tight day, settled from the windows that each leaves.
#[test]
fn a_full_tight_day_round_by_round() {
    let mut random = Random::new(123);
    for wider in [10, 20, 30] {
        let day = random::full_day(&mut random, false, wider, 0);
        let moves = rounds(&day).moves();
        assert!(moves.len() > 2, "rounds with {wider} minutes more at either side: {moves:?}");
    }
}

/// Windows drawn around a plan that breaks entries, all of which are whole.
#[test]
fn full_days_around_a_broken_plan() {
    let mut random = Random::new(124);
    let mut seen = [0; 11];
    for _ in 0..24 {
        let day = random::planned_day(&mut random, LONGEST_DAY, MOST_ENTRIES, 0, &[1, 5, 15, 60]);
        let answer = settle(&flat::of_day(&all_whole(day)));
        seen[number(&answer)] += 1;
    }
    assert!(seen[0] > 10, "{seen:?}");
}

#[test]
fn full_overloaded_days() {
    let mut random = Random::new(125);
    for _ in 0..100 {
        let mut day = random::full_day(&mut random, false, 60, 2);
        random::work_more(&mut random, &mut day);
        let refusal = settle(&flat::of_day(&day)).expect_err("must be overloaded");
        assert!(matches!(refusal, Refusal::Overloaded(_)), "{refusal:?}");
    }
}

#[test]
fn full_days_without_a_place_for_an_entry() {
    let mut random = Random::new(126);
    let mut places = vec![];
    for _ in 0..24 {
        let day = random::blocked_day(&mut random);
        if let Err(Refusal::NoPlace { place }) = settle(&flat::of_day(&day)) {
            places.push(place);
        }
    }
    assert!(places.len() > 10 && places.iter().any(|&place| place > 20), "places refused: {places:?}");
}

/// 32 entries of 45 minutes, settled in 33 rounds that cut 25,004 minutes.
#[test]
fn a_full_day_settled_entry_by_entry() {
    let (day, wanted) = chains::settled_one_by_one(32, 45);
    assert_eq!((day.h, narrow::minutes_cut(&day, &wanted)), (LONGEST_DAY, 25_004));
    assert_eq!(narrow::rounds(&day).done.len(), 33);
    let (answer, narrowed) = abi::settle(&flat::of_day(&day));
    assert_eq!((answer.number, answer.values), (0, [62, 0, 0]));
    assert!(narrowed == flat::of_day(&wanted), "settled windows");
}

/// A day put together from parts, one after the other in time, their places taken in turn.
fn side_by_side(parts: &[Day]) -> Day {
    let h = parts.iter().map(|part| part.h).sum();
    let most = parts.iter().map(|part| part.entries.len()).max().unwrap_or(0);
    let mut entries = vec![];
    for place in 0..most {
        let mut first = 0;
        for part in parts {
            if let Some(entry) = part.entries.get(place) {
                entries.push(Entry { r: first + entry.r, d: first + entry.d, ..entry.clone() });
            }
            first += part.h;
        }
    }
    Day { h, opening: 0, entries }
}

/// A small day that is settled, as trying everything says, with its settled windows and moves.
fn settled_part(random: &mut Random) -> (Day, Narrowed) {
    loop {
        let h = random.within(3, 6);
        let n = 1 + random.below(4.min(h.into()));
        let idle = random.pick(&[0, 2, 9]);
        let mut day = random::planned_day(random, h, n, idle, &[1, 2, 4, 8]);
        day.entries.iter_mut().for_each(|entry| entry.whole |= random.once_in(2));
        if by_trying_everything(&day).number == 0 {
            let narrowed = settle(&flat::of_day(&day)).expect("settled");
            return (day, narrowed);
        }
    }
}

/// Parts that have no minute in common are settled each for itself: the windows are those of the parts, and
/// the moves are all of theirs. So trying everything says what a long day must come to.
#[test]
fn long_days_of_small_parts_tried_in_full() {
    let mut random = Random::new(127);
    let mut most = 0;
    for _ in 0..60 {
        let (given, narrowed): (Vec<_>, Vec<_>) = (0..16).map(|_| settled_part(&mut random)).unzip();
        let moves = narrowed.iter().map(|part| part.moves).sum();
        let windows = Vec::from_iter(narrowed.into_iter().map(|part| part.day));
        let day = side_by_side(&given);
        let (answer, fields) = abi::settle(&flat::of_day(&day));
        assert_eq!((answer.number, answer.values), (0, [moves, 0, 0]), "{day:?}");
        assert!(fields == flat::of_day(&side_by_side(&windows)), "windows of {day:?}");
        most = most.max(day.entries.len());
    }
    assert!(most > 40, "{most} entries at most");
}

/// One part that is refused with 10 among others that are not: all of the day is refused, at that part's
/// place.
#[test]
fn long_days_with_one_part_that_is_refused() {
    let bad = boxes(6, "w[0,6)3 p[2,4)2");
    let good = boxes(8, "w[1,5)2 w[2,7)2 w[0,6)2 w[0,8)2");
    for at in 0..16 {
        let mut parts = vec![good.clone(); 15];
        parts.insert(at, bad.clone());
        let day = side_by_side(&parts);
        let (answer, narrowed) = abi::settle(&flat::of_day(&day));
        assert_eq!((answer.number, answer.values), (10, [at as u64, 0, 0]), "part {at}");
        assert!(narrowed == abi::untouched_fields(), "a refusal writes nothing");
    }
}
