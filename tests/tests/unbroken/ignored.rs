//! What the search does not look at: seals, and all places from n on; and serials, of a list in which no box is in two
//! places. Kinds are looked at.

use dock_tests::abi::{self, Answer, SearchLent, Starts};
use dock_tests::check_narrow::windows_in;
use dock_tests::check_unbroken::{refused, search, searched, ANY, FOUND, NONE};
use dock_tests::day::Day;
use dock_tests::flat::{self, SIZE};
use dock_tests::ignored::{self, SEAL, SERIAL, STANDS};
use dock_tests::random::{self, Random};
use dock_tests::samples::{boxes, plan};
use dock_tests::settled::Windows;
use dock_tests::{clashes, torn};

/// What is said of a value: the answer, the windows, the plan and the starts.
type Said = (Answer, Windows, Vec<u8>, Starts);

fn said((answer, lent): (Answer, SearchLent), n: usize) -> Said {
    let windows = if answer.number == 0 { windows_in(&lent.narrowed, n) } else { vec![] };
    (answer, windows, lent.plan, lent.starts)
}

/// Random days with each ending and refusal, each with a limit.
fn days(random: &mut Random, mut each: impl FnMut(&mut Random, &Day, u32)) {
    for turn in 0..400 {
        let mut day = match turn % 4 {
            0 => random::mixed_day(random, 30, 8),
            1 => random::unbroken_day(random, 60, 12, turn % 8 == 1, 15),
            _ => random::gapped_day(random, 9),
        };
        if turn % 5 == 0 {
            random::work_more(random, &mut day);
        }
        let limit = random.pick(&[1, 100, 400, 400]);
        each(random, &day, limit);
    }
}

/// Changes these numbers of every entry, to any value that passes the value check: the same is said as before, and the
/// answered list has what was given.
fn travels_along(seed: u64, numbers: &[usize]) {
    let mut seen = [0; 11];
    days(&mut Random::new(seed), |random, day, limit| {
        let (fields, n, room) = (flat::of_day(day), day.entries.len(), usize::from(day.h));
        let other = ignored::with_any(random, &fields, numbers);
        let before = said(abi::unbroken(&fields, limit, room), n);
        seen[if before.0.number == 0 { before.0.values[1] } else { before.0.number } as usize] += 1;
        assert!(said(search(&other, limit, room), n) == before, "{numbers:?}, limit {limit} of {day:?}");
    });
    assert!([1, 2, 3, 9].iter().all(|&number| seen[number] > 5), "{seen:?}");
}

#[test]
fn serials_that_do_not_clash_travel_along() {
    travels_along(831, &[SERIAL]);
}

#[test]
fn seals_travel_along() {
    travels_along(832, &[STANDS, SEAL]);
}

#[test]
fn places_from_n_on_are_never_looked_at() {
    let mut found = 0;
    days(&mut Random::new(833), |random, day, limit| {
        let (fields, room) = (flat::of_day(day), usize::from(day.h) + 2);
        let before = abi::unbroken(&fields, limit, room);
        for other in ignored::with_junk(random, &fields) {
            assert!(abi::unbroken(&other, limit, room) == before, "junk, limit {limit} of {day:?}");
        }
        found += usize::from(before.0.number == 0 && before.0.values[1] == FOUND);
    });
    assert!(found > 100, "{found} found");
}

/// A right entry behind the list is none of it, though it would change the day.
#[test]
fn a_right_entry_at_place_n_is_none_of_the_list() {
    let mut fields = flat::of_day(&torn::smallest());
    assert_eq!(search(&fields, ANY, 7).0.values, [0, NONE, 78]);
    fields[1] = 3;
    let alone = search(&flat::of_day(&boxes(7, "w[0,7)2 w[0,7)2 w[0,7)2")), ANY, 7);
    assert_eq!(alone.0.values[1], FOUND);
    assert_eq!(alone.1.plan, plan("0 0 1 1 2 2 -"));
    assert!(search(&fields, ANY, 7) == alone, "the pause entry behind the list");
}

#[test]
fn an_empty_list_before_sixty_four_places_of_junk() {
    for junk in [1, 3, 65_535, u32::MAX] {
        let mut fields = [junk; SIZE];
        fields[..3].copy_from_slice(&[3, 0, 0]);
        let (answer, lent) = search(&fields, 0, 3);
        assert_eq!((answer.number, answer.values), (0, [0, 1, 0]));
        assert_eq!((lent.plan, lent.starts), (plan("- - -"), [0; 64]));
    }
}

/// With one serial for all its entries a day is refused with 14 if two given windows share a minute; else the same is
/// said as before.
#[test]
fn one_serial_for_all_entries_is_14_or_changes_nothing() {
    let mut seen = [0; 2];
    days(&mut Random::new(834), |_, day, limit| {
        let (fields, n, room) = (flat::of_day(day), day.entries.len(), usize::from(day.h));
        let all: Vec<_> = day.entries.iter().map(|entry| (7, (entry.r, entry.d))).collect();
        let place = clashes::told(&all);
        let same = ignored::with_one_serial(&fields, 7);
        match place {
            Some(place) => refused(&same, limit, room, 14, place as u64),
            None => {
                let before = said(abi::unbroken(&fields, limit, room), n);
                assert!(said(search(&same, limit, room), n) == before, "one serial in {day:?}");
            }
        }
        seen[usize::from(place.is_some())] += 1;
    });
    assert!(seen[0] > 10 && seen[1] > 100, "the same, 14: {seen:?}");
}

/// Kinds are looked at: with one entry pause the torn day has an unbroken one.
#[test]
fn kinds_are_looked_at() {
    for place in 0..3 {
        let mut day = torn::smallest();
        day.entries[place].whole = false;
        assert_eq!(searched(&day, ANY).0.values[1], FOUND, "pause entry {place}");
    }
    assert_eq!(searched(&torn::smallest(), ANY).0.values[1], NONE);
}
