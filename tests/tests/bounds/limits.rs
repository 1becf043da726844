//! The limits: no entries and 64, 1 minute and 1,440, one entry filling the day, windows without a choice, and
//! more moves than a byte counts.

use dock_tests::abi::Call;
use dock_tests::check::written;
use dock_tests::check_bounds::{ask, asked, calls, refused};
use dock_tests::day::{Day, IDLE, LONGEST_DAY, LONGEST_LIST, MOST_ENTRIES};
use dock_tests::samples::{self, all_whole, boxes, plan, whole, windows};
use dock_tests::{chains, flat};

/// The same list with its entries all pause, and all whole.
fn of_either_kind(day: Day) -> [Day; 2] {
    [day.clone(), all_whole(day)]
}

/// The least end and the greatest start of each entry, as planning answers them. Both plans of the first and
/// the last place are checked too.
#[track_caller]
fn bounds(day: &Day) -> Vec<(u32, u32)> {
    let (_, lent) = asked(Call::Plan, day);
    for place in [0, day.entries.len() as u64 - 1] {
        asked(Call::Early(place), day);
        asked(Call::Late(place), day);
    }
    (0..day.entries.len()).map(|place| (lent.bounds[place], lent.bounds[MOST_ENTRIES + place])).collect()
}

#[test]
fn no_entries_make_h_idle_minutes() {
    for h in [1, 2, 63, 64, 65, 255, 256, 257, 1439, 1440] {
        let (answer, lent) = asked(Call::Plan, &windows(h, &[]));
        assert_eq!(answer.values, [0, 0, 0]);
        assert_eq!(lent.plan, vec![IDLE; h.into()]);
        assert_eq!(lent.bounds, [0; 2 * MOST_ENTRIES]);
    }
}

#[test]
fn a_day_of_one_minute() {
    for day in of_either_kind(windows(1, &[(0, 1, 1)])) {
        assert_eq!(bounds(&day), [(1, 0)]);
        for call in calls(1) {
            assert_eq!(asked(call, &day).1.plan, [0], "{call:?}");
            refused(call, &flat::of_day(&day), 0, 11, 1);
        }
    }
    for day in of_either_kind(windows(1, &[(0, 1, 1); 2])) {
        for call in calls(2) {
            let (answer, _) = ask(call, &flat::of_day(&day), 1);
            assert_eq!((answer.number, answer.values), (9, [0, 1, 2]), "{call:?}");
        }
    }
}

#[test]
fn one_entry_fills_the_day() {
    for h in [1, 2, 255, 256, 1439, 1440] {
        for day in of_either_kind(windows(h, &[(0, h, h)])) {
            assert_eq!(bounds(&day), [(h.into(), 0)]);
            for call in calls(1) {
                let (answer, lent) = asked(call, &day);
                let second = if call == Call::Early(0) { h.into() } else { 0 };
                assert_eq!(answer.values, [0, second, 0], "{call:?}");
                assert_eq!(lent.plan, vec![0; h.into()], "{call:?}");
                refused(call, &flat::of_day(&day), usize::from(h) - 1, 11, h.into());
            }
        }
    }
}

/// One minute more than fills the day is 7, a day of one minute more 2.
#[test]
fn one_entry_is_too_long_for_the_day() {
    let mut fields = flat::of_day(&windows(LONGEST_DAY, &[(0, 1440, 1440)]));
    fields[flat::at(0) + 5] = 1441;
    calls(1).into_iter().for_each(|call| refused(call, &fields, 1440, 7, 0));
    fields[0] = 1441;
    calls(1).into_iter().for_each(|call| refused(call, &fields, 1441, 2, 0));
}

/// A single entry has its window's first minutes early and its last ones late, of either kind.
#[test]
fn one_entry_alone() {
    for (r, d, p) in [(0, 1440, 1), (0, 1440, 720), (1, 1439, 1437), (255, 257, 1), (1439, 1440, 1)] {
        for day in of_either_kind(windows(LONGEST_DAY, &[(r, d, p)])) {
            assert_eq!(bounds(&day), [(u32::from(r + p), u32::from(d - p))]);
            let minutes = |first: u16| {
                let mut plan = vec![IDLE; LONGEST_DAY.into()];
                plan[usize::from(first)..][..usize::from(p)].fill(0);
                plan
            };
            assert_eq!(asked(Call::Plan, &day).1.plan, minutes(r));
            assert_eq!(asked(Call::Early(0), &day).1.plan, minutes(r));
            assert_eq!(asked(Call::Late(0), &day).1.plan, minutes(d - p));
        }
    }
}

/// All of 64 entries may have the first minute or the last one.
#[test]
fn sixty_four_entries_that_may_have_any_minutes() {
    for day in of_either_kind(windows(64, &[(0, 64, 1); MOST_ENTRIES])) {
        assert_eq!(bounds(&day), [(1, 63); MOST_ENTRIES]);
        let in_turn: Vec<u8> = (0..64).collect();
        assert_eq!(asked(Call::Plan, &day).1.plan, in_turn);
        for place in [0, 1, 31, 62, 63] {
            let others = Vec::from_iter((0..64).filter(|&other| other != place));
            let early = [vec![place], others.clone()].concat();
            assert_eq!(asked(Call::Early(place.into()), &day).1.plan, early);
            let late = Vec::from_iter([vec![place], others].concat().into_iter().rev());
            assert_eq!(asked(Call::Late(place.into()), &day).1.plan, late);
        }
    }
}

/// A longest list: each of its entries may have the first three minutes of its window or the last three.
#[test]
fn sixty_four_entries_with_all_their_fields() {
    for mut day in of_either_kind(windows(LONGEST_DAY, &[(2, 1439, 3); MOST_ENTRIES])) {
        day.entries.iter_mut().for_each(|entry| entry.seal = Some(77));
        for (opening, bytes) in [(0, 963), (1, LONGEST_LIST)] {
            day.opening = opening;
            assert_eq!(written(&flat::of_day(&day), LONGEST_LIST).len(), bytes);
            assert_eq!(bounds(&day), [(5, 1436); MOST_ENTRIES]);
            assert_eq!(asked(Call::Plan, &day).0.values, [0, 0, 0]);
        }
    }
}

/// None of 64 entries has a choice.
#[test]
fn sixty_four_entries_without_a_choice() {
    let entries = Vec::from_iter((0..64).rev().map(|turn| (22 * turn, 22 * turn + 22, 22)));
    let fixed = Vec::from_iter(entries.iter().map(|&(r, d, _)| (u32::from(d), u32::from(r))));
    for day in of_either_kind(windows(1408, &entries)) {
        assert_eq!(bounds(&day), fixed);
        let minutes = Vec::from_iter((0..1408_u16).map(|minute| 63 - (minute / 22) as u8));
        for call in [Call::Plan, Call::Early(0), Call::Early(63), Call::Late(0), Call::Late(63)] {
            assert_eq!(asked(call, &day).1.plan, minutes, "{call:?}");
        }
    }
}

/// A full day without an idle minute: 63 entries before the last minute, and one that can have only that.
#[test]
fn the_last_minute_of_the_longest_day() {
    let mut entries = vec![(0, 1439, 22); 63];
    entries[0].2 = 75;
    entries.push((0, 1440, 1));
    let day = windows(LONGEST_DAY, &entries);
    let found = bounds(&day);
    assert_eq!((found[63], found[0]), ((1440, 1439), (75, 1439 - 75)));
    let settled = asked(Call::Plan, &whole(day, &[63]));
    assert_eq!(settled.1.narrowed[3 + 7 * 63 + 3..][..2], [1439, 1440]);
    assert_eq!((settled.0.values, settled.1.plan[1439]), ([1, 0, 0], 63));
}

/// Ends and starts around 256, 512 and 1,024 are minutes like any others.
#[test]
fn minutes_are_not_reckoned_in_bytes() {
    for minute in [254, 255, 256, 257, 511, 512, 1023, 1024] {
        let day =
            windows(LONGEST_DAY, &[(0, 1440, 3), (0, minute, minute), (minute + 3, 1440, 1437 - minute)]);
        assert_eq!(bounds(&day)[0], (u32::from(minute) + 3, minute.into()));
        let day = windows(LONGEST_DAY, &[(0, 1440, 3), (0, minute, minute)]);
        assert_eq!(bounds(&day)[0], (u32::from(minute) + 3, 1437));
    }
}

/// A pause entry may be spread over the whole day, of which the first minute and the last are free.
#[test]
fn a_pause_entry_around_one_that_leaves_two_minutes() {
    let day = boxes(LONGEST_DAY, "p[0,1440)2 w[1,1439)1438");
    assert_eq!(bounds(&day), [(1440, 0), (1439, 1)]);
    for call in calls(2) {
        let plan = asked(call, &day).1.plan;
        assert_eq!((plan[0], plan[1439]), (0, 0), "{call:?}");
        assert!(plan[1..1439].iter().all(|&byte| byte == 1), "{call:?}");
    }
}

/// The work of 9 passes 65,535.
#[test]
fn the_greatest_work_is_92160() {
    let fields = flat::of_day(&windows(LONGEST_DAY, &[(0, 1440, 1440); MOST_ENTRIES]));
    for call in [Call::Plan, Call::Early(0), Call::Late(63)] {
        let (answer, _) = ask(call, &fields, 1440);
        assert_eq!((answer.number, answer.values), (9, [0, 1440, 92_160]), "{call:?}");
    }
}

/// More moves than a byte counts, and all of them carried.
#[test]
fn more_than_255_moves() {
    let day = samples::four_of(&samples::many_moves());
    for call in [Call::Plan, Call::Early(63), Call::Late(0)] {
        assert_eq!(asked(call, &day).0.values[0], 272, "{call:?}");
    }
}

/// More than 63 broken entries cannot be; of 64 whole ones each is interrupted but the last.
#[test]
fn sixty_three_broken_entries() {
    let entries = Vec::from_iter((0..64).map(|place| (place, 320 - place, 2)));
    let day = all_whole(windows(320, &entries));
    let (answer, lent) = asked(Call::Plan, &day);
    assert_eq!(answer.values, [0, 63, 0]);
    let wanted = Vec::from_iter((0..64).chain([63]).chain((0..63).rev()));
    assert_eq!(lent.plan[..128], wanted);
}

/// Days of many rounds: the bounds are those of the windows that the last one leaves, which are fixed.
#[test]
fn days_of_many_rounds() {
    for (n, p) in [(2, 2), (5, 2), (9, 3), (17, 7)] {
        let (day, settled) = chains::settled_one_by_one(n, p);
        let fixed = settled.entries.iter().map(|entry| (u32::from(entry.d), u32::from(entry.r)));
        assert_eq!(bounds(&day), Vec::from_iter(fixed), "{n} entries of {p} minutes");
    }
    let refused_late = flat::of_day(&chains::refused_in_the_end(20));
    calls(20).into_iter().for_each(|call| refused(call, &refused_late, 1440, 10, 2));
}

/// In a short day too the first and the last place can be asked for.
#[test]
fn the_first_and_the_last_of_three_places() {
    let day = boxes(5, "p[0,5)1 p[0,5)1 p[0,5)1");
    assert_eq!(asked(Call::Early(2), &day).1.plan, plan("2 0 1 - -"));
    assert_eq!(asked(Call::Late(2), &day).1.plan, plan("- - 1 0 2"));
    assert_eq!(asked(Call::Early(0), &day).1.plan, plan("0 1 2 - -"));
    assert_eq!(asked(Call::Late(0), &day).1.plan, plan("- - 2 1 0"));
}
