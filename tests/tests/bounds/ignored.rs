//! What the calls that plan do not look at: seals, and all places from n on; and serials, of a list in which no box is
//! in two places. Entries are known by their place, and the same serial may stand twice where its given windows share
//! no minute.

use dock_tests::abi::{self, Answer, Call, Lent};
use dock_tests::check_bounds::{ask, asked, calls, refused};
use dock_tests::check_narrow::windows_in;
use dock_tests::clashes;
use dock_tests::day::{Day, MOST_ENTRIES};
use dock_tests::flat::{self, Fields, SIZE};
use dock_tests::ignored::{self, SEAL, SERIAL, STANDS};
use dock_tests::random::{self, Random};
use dock_tests::samples::{boxes, plan, with_serials};
use dock_tests::settled::Windows;
use dock_tests::told::Told;

/// What a call says of a value: its answer, the windows, the plan and the bounds.
type Said = (Answer, Windows, Vec<u8>, Vec<u32>);

fn said((answer, lent): (Answer, Lent), n: usize) -> Said {
    let windows = if answer.number == 0 { windows_in(&lent.narrowed, n) } else { vec![] };
    (answer, windows, lent.plan, lent.bounds.to_vec())
}

/// Planning, and both plans of one place.
fn some_calls(random: &mut Random, n: usize) -> [Call; 3] {
    let place = random.below(n.max(1)) as u64;
    [Call::Plan, Call::Early(place), Call::Late(place)]
}

/// Random days that are planned, with moves and without, or refused with 9 or 10.
fn days(random: &mut Random, mut each: impl FnMut(&mut Random, &Day)) {
    for turn in 0..400 {
        let mut day = match turn % 3 {
            0 => random::mixed_day(random, 30, 8),
            1 => random::nested_day(random, 12, 6),
            _ => random::unbroken_day(random, 60, 12, turn % 2 == 0, 15),
        };
        if turn % 5 == 0 {
            random::work_more(random, &mut day);
        }
        each(random, &day);
    }
}

/// Changes these numbers of every entry of random days, to any value that passes the value check: the calls say the
/// same as before, and the answered list has what was given, as the second planner says.
fn travels_along(seed: u64, numbers: &[usize]) {
    let mut told = Told::default();
    let mut twice = 0;
    days(&mut Random::new(seed), |random, day| {
        let (fields, n, room) = (flat::of_day(day), day.entries.len(), usize::from(day.h));
        let other = ignored::with_any(random, &fields, numbers);
        twice += usize::from(ignored::has_a_serial_twice(&other));
        for call in some_calls(random, n) {
            let before = said(abi::ask(call, &fields, room), n);
            told.count(before.0.number as usize);
            assert!(said(ask(call, &other, room), n) == before, "{numbers:?}, {call:?} of {day:?}");
        }
    });
    told.more_than(20, &[0, 9, 10]);
    assert!(twice > 40, "{twice} lists with a serial that stands twice");
}

#[test]
fn serials_that_do_not_clash_travel_along() {
    travels_along(151, &[SERIAL]);
}

#[test]
fn seals_travel_along() {
    travels_along(152, &[STANDS, SEAL]);
}

#[test]
fn places_from_n_on_are_never_looked_at() {
    let mut told = Told::default();
    days(&mut Random::new(153), |random, day| {
        let (fields, room) = (flat::of_day(day), usize::from(day.h) + 2);
        for call in some_calls(random, day.entries.len()) {
            let before = abi::ask(call, &fields, room);
            told.count(before.0.number as usize);
            for other in ignored::with_junk(random, &fields) {
                assert!(abi::ask(call, &other, room) == before, "junk, {call:?} of {day:?}");
            }
        }
    });
    told.more_than(20, &[0, 9, 10]);
}

/// A right entry behind the list is none of it: it would have changed the bounds, or the answer.
#[test]
fn a_right_entry_at_place_n_is_none_of_the_list() {
    for (behind, number) in [("w[0,4)2", 0), ("p[0,1)1", 0), ("p[1,2)1", 10), ("p[0,3)2", 9)] {
        let mut fields = flat::of_day(&boxes(4, &format!("w[0,3)2 {behind}")));
        assert_eq!(abi::ask(Call::Plan, &fields, 4).0.number, number, "with {behind} in the list");
        fields[1] = 1;
        for call in calls(1) {
            let alone = ask(call, &flat::of_day(&boxes(4, "w[0,3)2")), 4);
            assert!(ask(call, &fields, 4) == alone, "{behind} behind the list, {call:?}");
        }
    }
}

#[test]
fn an_empty_list_before_sixty_four_places_of_junk() {
    for junk in [1, 3, 65_535, u32::MAX] {
        let mut fields = [junk; SIZE];
        fields[..3].copy_from_slice(&[3, 0, 0]);
        let (answer, lent) = ask(Call::Plan, &fields, 3);
        assert_eq!((answer.number, answer.values), (0, [0, 0, 0]));
        assert_eq!(lent.plan, plan("- - -"));
        assert_eq!(lent.bounds, [0; 2 * MOST_ENTRIES]);
        [Call::Early(0), Call::Late(0)].iter().for_each(|&call| refused(call, &fields, 3, 13, 0));
    }
}

/// What the calls say of these fields, but for the serials answered.
fn all_said(fields: &Fields, n: usize, room: usize) -> Vec<Said> {
    calls(n).into_iter().map(|call| said(ask(call, fields, room), n)).collect()
}

/// The same serial at places whose windows share no minute: they stay two entries, and the calls say the same of them
/// as of entries with serials that differ.
#[test]
fn entries_with_one_serial_are_different_entries() {
    for (entries, serials) in [
        ("p[1,5)2 p[5,9)3 p[0,12)2", [7, 7, 8]),
        ("w[4,8)2 p[1,5)1 p[0,4)2", [7, 8, 7]),
        ("p[0,12)4 w[2,6)3 p[6,9)2", [8, 7, 7]),
        ("p[8,12)4 w[0,4)3 p[4,8)2", [7, 7, 7]),
    ] {
        let day = boxes(12, entries);
        let n = day.entries.len();
        let before = all_said(&flat::of_day(&day), n, 12);
        assert_eq!(before[0].0.number, 0, "{entries}");
        for serial in [0, 1, 101, 102, u32::MAX - 1] {
            let same = with_serials(day.clone(), &serials.map(|number| number - 7 + serial));
            assert!(all_said(&flat::of_day(&same), n, 12) == before, "{entries}, one serial {serial}");
        }
        let serials = Vec::from_iter((0..n as u32).rev());
        let places = with_serials(day.clone(), &serials);
        assert!(all_said(&flat::of_day(&places), n, 12) == before, "{entries}, serials like other places");
    }
}

/// The same serial at places whose windows overlap: all calls turn the list back by the later place.
#[test]
fn entries_with_one_serial_that_overlap_are_turned_back() {
    for (entries, place) in [
        ("p[1,5)2 p[0,6)3", 1),
        ("w[0,4)2 p[1,2)1 p[0,4)1", 1),
        ("p[0,12)4 w[2,8)3 p[3,6)2", 1),
        ("p[0,3)2 w[3,8)3 p[7,9)2", 2),
    ] {
        let day = boxes(12, entries);
        let n = day.entries.len();
        for serial in [0, 1, 101, 102, u32::MAX] {
            let same = flat::of_day(&with_serials(day.clone(), &vec![serial; n]));
            for call in calls(n).into_iter().chain([Call::Early(n as u64), Call::Late(64)]) {
                [0, 11, 12, 13].iter().for_each(|&room| refused(call, &same, room, 14, place));
            }
        }
    }
}

/// With one serial for all its entries a day is refused with 14 if two given windows share a minute; else the same is
/// said as before.
#[test]
fn one_serial_for_all_entries_is_14_or_changes_nothing() {
    let mut seen = [0; 2];
    days(&mut Random::new(154), |random, day| {
        let (fields, n, room) = (flat::of_day(day), day.entries.len(), usize::from(day.h));
        let all: Vec<_> = day.entries.iter().map(|entry| (7, (entry.r, entry.d))).collect();
        let place = clashes::told(&all);
        let same = ignored::with_one_serial(&fields, 7);
        for call in some_calls(random, n) {
            match place {
                Some(place) => refused(call, &same, room, 14, place as u64),
                None => {
                    let before = said(abi::ask(call, &fields, room), n);
                    assert!(said(ask(call, &same, room), n) == before, "{call:?}, one serial in {day:?}");
                }
            }
        }
        seen[usize::from(place.is_some())] += 1;
    });
    assert!(seen[0] > 20 && seen[1] > 100, "the same, 14: {seen:?}");
}

/// The seal's number 0 is a number, and a missing seal stays missing.
#[test]
fn a_seal_of_0_is_not_a_missing_seal() {
    let mut day = boxes(4, "w[0,3)2 w[0,4)2");
    day.entries[0].seal = Some(0);
    for call in calls(2) {
        let (_, lent) = asked(call, &day);
        assert_eq!((lent.narrowed[flat::at(0) + 1], lent.narrowed[flat::at(1) + 1]), (1, 0), "{call:?}");
    }
}

/// Kinds are looked at: document 01's (a) and (b) differ in one.
#[test]
fn kinds_are_looked_at() {
    for (entries, moves, ends, starts) in [
        ("w[0,3)2 w[0,4)2", 2, [2, 4], [0, 2]),
        ("w[0,3)2 p[0,4)2", 0, [2, 4], [1, 2]),
        ("p[0,3)2 w[0,4)2", 1, [2, 4], [0, 2]),
        ("p[0,3)2 p[0,4)2", 0, [2, 4], [1, 2]),
    ] {
        let (answer, lent) = asked(Call::Plan, &boxes(4, entries));
        assert_eq!(answer.values, [moves, 0, 0], "{entries}");
        assert_eq!(
            (&lent.bounds[..2], &lent.bounds[MOST_ENTRIES..][..2]),
            (&ends[..], &starts[..]),
            "{entries}"
        );
    }
}
