//! What planning does not look at: seals, kinds, and all places from n on; and serials, of a list in which no box is in
//! two places. Only H, n and the windows and minutes of the first n entries make the plan and the interval.

use dock_tests::abi::{self, Answer};
use dock_tests::check::planned;
use dock_tests::clashes;
use dock_tests::day::Day;
use dock_tests::flat::{self, Fields};
use dock_tests::ignored::{self, SEAL, SERIAL, STANDS, WHOLE};
use dock_tests::random::{self, Random};
use dock_tests::samples::{all_whole, plan, windows};

/// What both calls say of a value, and what the plan's buffer then holds.
fn said(fields: &Fields) -> (Answer, Answer, Vec<u8>) {
    let (answer, bytes) = abi::schedule(fields, fields[0] as usize + 5);
    (abi::overload(fields), answer, bytes)
}

/// Random days with a plan and without: small ones and long ones.
fn days(random: &mut Random, mut each: impl FnMut(&mut Random, &Day)) {
    for turn in 0..600 {
        let mut day = match turn % 3 {
            0 => random::small_day(random),
            1 => random::any_day(random),
            _ => random::planned_day(random, 300, 20, 5, &[1, 10, 60]),
        };
        if turn % 2 == 0 {
            random::work_more(random, &mut day);
        }
        each(random, &day);
    }
}

/// Changes these numbers of every entry of random days, to any value that passes the value check: both calls must
/// say the same as before.
fn never_looked_at(seed: u64, numbers: &[usize]) {
    let mut seen = [0; 2];
    let mut twice = 0;
    days(&mut Random::new(seed), |random, day| {
        let fields = flat::of_day(day);
        let before = said(&fields);
        seen[usize::from(before.0.number == 9)] += 1;
        for _ in 0..3 {
            let other = ignored::with_any(random, &fields, numbers);
            assert!(said(&other) == before, "{numbers:?} of {day:?}");
            twice += usize::from(ignored::has_a_serial_twice(&other));
        }
    });
    assert!(seen[0] > 100 && seen[1] > 100, "planned, overloaded: {seen:?}");
    assert!(twice > 100, "{twice} lists with a serial that stands twice");
}

#[test]
fn serials_that_do_not_clash_are_never_looked_at() {
    never_looked_at(21, &[SERIAL]);
}

/// With one serial for all its entries a day is refused with 14 if two windows share a minute, and nothing is written;
/// else the same is said as before.
#[test]
fn one_serial_for_all_entries_is_14_or_changes_nothing() {
    let mut seen = [0; 2];
    days(&mut Random::new(26), |random, day| {
        let fields = flat::of_day(day);
        let before = said(&fields);
        let all: Vec<_> = day.entries.iter().map(|entry| (7, (entry.r, entry.d))).collect();
        let wanted = match clashes::told(&all) {
            Some(place) => {
                let clash = Answer { number: 14, values: [place as u64, 0, 0] };
                (clash, clash, abi::untouched_bytes(usize::from(day.h) + 5))
            }
            None => before,
        };
        for serial in [0, random.any() as u32, u32::MAX] {
            let found = said(&ignored::with_one_serial(&fields, serial));
            assert!(found == wanted, "serial {serial} in all of {day:?}");
        }
        seen[usize::from(wanted.0.number == 14)] += 1;
    });
    assert!(seen[0] > 100 && seen[1] > 100, "the same, 14: {seen:?}");
}

#[test]
fn seals_are_never_looked_at() {
    never_looked_at(22, &[STANDS, SEAL]);
}

#[test]
fn kinds_are_never_looked_at() {
    never_looked_at(23, &[WHOLE]);
}

#[test]
fn serials_that_do_not_clash_seals_and_kinds_together_are_never_looked_at() {
    never_looked_at(24, &[SERIAL, STANDS, SEAL, WHOLE]);
}

#[test]
fn places_from_n_on_are_never_looked_at() {
    let mut seen = [0; 2];
    days(&mut Random::new(25), |random, day| {
        let fields = flat::of_day(day);
        let before = said(&fields);
        seen[usize::from(before.0.number == 9)] += 1;
        for other in ignored::with_junk(random, &fields) {
            assert!(said(&other) == before, "junk after {day:?}");
        }
    });
    assert!(seen[0] > 100 && seen[1] > 100, "planned, overloaded: {seen:?}");
}

/// A right entry behind the list is none of it: it would have had minutes, or made an overload.
#[test]
fn a_right_entry_at_place_n_is_not_planned() {
    let mut fields = flat::of_day(&windows(4, &[(0, 4, 2), (1, 3, 1), (0, 1, 1)]));
    fields[1] = 2;
    let (answer, bytes) = abi::schedule(&fields, 4);
    assert_eq!((answer.number, bytes), (0, plan("0 1 0 -")));
    let mut fields = flat::of_day(&windows(10, &[(2, 5, 2), (2, 5, 2)]));
    assert_eq!(abi::overload(&fields).number, 9);
    fields[1] = 1;
    assert_eq!(abi::overload(&fields).number, 0);
    let (answer, bytes) = abi::schedule(&fields, 10);
    assert_eq!((answer.number, bytes), (0, plan("- - 0 0 - - - - - -")));
}

#[test]
fn an_empty_list_before_sixty_four_places_of_junk() {
    for junk in [1, 3, 65_535, u32::MAX] {
        let mut fields = [junk; flat::SIZE];
        fields[..3].copy_from_slice(&[3, 0, 0]);
        assert_eq!(abi::overload(&fields), Answer { number: 0, values: [0; 3] });
        let (answer, bytes) = abi::schedule(&fields, 3);
        assert_eq!((answer.number, bytes), (0, plan("- - -")));
    }
}

/// "A plan may break a whole entry": a whole entry is interrupted like any other.
#[test]
fn a_whole_entry_is_interrupted_too() {
    assert_eq!(planned(&all_whole(windows(4, &[(0, 4, 2), (1, 3, 1)]))), plan("0 1 0 -"));
    assert_eq!(planned(&all_whole(windows(6, &[(1, 5, 2), (0, 6, 3)]))), plan("1 0 0 1 1 -"));
}

/// The windows are planned as they are given: no whole entry's window is narrowed first, and a list that
/// narrowing would refuse has its plan.
#[test]
fn windows_of_whole_entries_are_not_narrowed() {
    assert_eq!(planned(&all_whole(windows(5, &[(1, 5, 2), (1, 3, 1), (0, 5, 2)]))), plan("2 1 2 0 0"));
    assert_eq!(planned(&all_whole(windows(3, &[(0, 3, 2), (1, 2, 1)]))), plan("0 1 0"));
}
