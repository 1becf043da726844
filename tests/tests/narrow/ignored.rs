//! What narrowing does not look at: seals, and all places from n on; and serials, of a list in which no box is in two
//! places. Entries are known by their place, and the same serial may stand twice where its given windows share no
//! minute. Where they do, 14 is told before any window is narrowed.

use dock_tests::abi::{self, Answer};
use dock_tests::chains;
use dock_tests::check_narrow::{no_place, not_settled, settled, windows_in};
use dock_tests::clashes;
use dock_tests::day::{Day, MOST_ENTRIES};
use dock_tests::flat::{self, Fields, SIZE, WIDTH};
use dock_tests::ignored::{self, SEAL, SERIAL, STANDS};
use dock_tests::random::{self, Random};
use dock_tests::samples::{boxes, with_serials};
use dock_tests::settled::Windows;

/// What is said of a value, with the windows that are left.
fn said(fields: &Fields, n: usize) -> (Answer, Windows) {
    let (answer, narrowed) = abi::settle(fields);
    (answer, if answer.number == 0 { windows_in(&narrowed, n) } else { vec![] })
}

/// Random days that are settled, with moves and without, or refused with 9 or 10.
fn days(random: &mut Random, mut each: impl FnMut(&mut Random, &Day)) {
    for turn in 0..600 {
        let mut day = match turn % 4 {
            0 => random::small_day(random),
            1 => random::unbroken_day(random, 60, 12, turn % 8 == 1, 15),
            2 => random::planned_day(random, 30, 8, 0, &[1, 2, 5]),
            _ => random::planned_day(random, 12, 6, 3, &[1, 4, 12]),
        };
        day.entries.iter_mut().for_each(|entry| entry.whole |= turn % 3 > 0);
        if turn % 5 == 0 {
            random::work_more(random, &mut day);
        }
        each(random, &day);
    }
}

/// Counts the answers: settled without moves, with moves, 9, 10.
#[derive(Debug, Default)]
struct Seen([usize; 4]);

impl Seen {
    fn count(&mut self, answer: Answer) {
        self.0[match (answer.number, answer.values[0]) {
            (0, 0) => 0,
            (0, _) => 1,
            (9, _) => 2,
            _ => 3,
        }] += 1;
    }

    #[track_caller]
    fn all_often(&self) {
        assert!(self.0.iter().all(|&count| count > 20), "too few of an answer: {self:?}");
    }
}

/// Changes these numbers of every entry of random days, to any value that passes the value check: the same must be
/// said as before, and the answered list has what was given.
fn travels_along(seed: u64, numbers: &[usize]) {
    let mut seen = Seen::default();
    let mut twice = 0;
    days(&mut Random::new(seed), |random, day| {
        let n = day.entries.len();
        let fields = flat::of_day(day);
        let before = said(&fields, n);
        seen.count(before.0);
        let other = ignored::with_any(random, &fields, numbers);
        twice += usize::from(ignored::has_a_serial_twice(&other));
        assert!(said(&other, n) == before, "{numbers:?} of {day:?}");
        let (answer, narrowed) = abi::settle(&other);
        for at in (0..n).flat_map(|place| numbers.iter().map(move |number| flat::at(place) + number)) {
            let wanted = match (at - flat::at(0)) % WIDTH {
                STANDS => u32::from(other[at] != 0),
                SEAL if other[at - 1] == 0 => 0, // a number beside no seal is nothing
                _ => other[at],
            };
            assert!(answer.number != 0 || narrowed[at] == wanted, "number {at} after {day:?}");
        }
    });
    seen.all_often();
    assert!(twice > 100, "{twice} lists with a serial that stands twice");
}

#[test]
fn serials_that_do_not_clash_travel_along() {
    travels_along(91, &[SERIAL]);
}

#[test]
fn seals_travel_along() {
    travels_along(92, &[STANDS, SEAL]);
}

#[test]
fn serials_that_do_not_clash_and_seals_together_travel_along() {
    travels_along(93, &[SERIAL, STANDS, SEAL]);
}

/// The seal's number 0 is a number, and a missing seal stays missing.
#[test]
fn a_seal_of_0_is_not_a_missing_seal() {
    let mut day = boxes(4, "w[0,3)2 w[0,4)2");
    day.entries[0].seal = Some(0);
    let (found, moves) = settled(&day);
    assert_eq!((found.entries[0].seal, found.entries[1].seal, moves), (Some(0), None, 2));
}

#[test]
fn places_from_n_on_are_never_looked_at() {
    let mut seen = Seen::default();
    days(&mut Random::new(94), |random, day| {
        let fields = flat::of_day(day);
        let before = abi::settle(&fields);
        seen.count(before.0);
        for other in ignored::with_junk(random, &fields) {
            assert!(abi::settle(&other) == before, "junk after {day:?}");
        }
    });
    seen.all_often();
}

/// A right entry behind the list is none of it: it would have had place 0 moved, or refused.
#[test]
fn a_right_entry_at_place_n_is_none_of_the_list() {
    for (behind, number) in [("w[0,4)2", 0), ("p[1,2)1", 10), ("p[0,3)2", 9)] {
        let mut fields = flat::of_day(&boxes(4, &format!("w[0,3)2 {behind}")));
        assert_eq!(abi::settle(&fields).0.number, number, "with {behind} in the list");
        fields[1] = 1;
        let (answer, narrowed) = abi::settle(&fields);
        assert_eq!((answer.number, answer.values), (0, [0, 0, 0]), "{behind} behind the list");
        assert!(narrowed == flat::of_day(&boxes(4, "w[0,3)2")), "{behind} behind the list");
    }
}

#[test]
fn an_empty_list_before_sixty_four_places_of_junk() {
    for junk in [1, 3, 65_535, u32::MAX] {
        let mut fields = [junk; SIZE];
        fields[..3].copy_from_slice(&[3, 0, 0]);
        let (answer, narrowed) = abi::settle(&fields);
        assert_eq!((answer.number, answer.values), (0, [0, 0, 0]));
        assert!(narrowed == flat::of_day(&boxes(3, "")), "zeros after {junk}");
    }
}

/// This list is turned back by this place, and what was lent stays as it was.
#[track_caller]
fn turned_back(day: &Day, place: usize) {
    not_settled(&flat::of_day(day), 14, place);
}

/// Example (a) with one serial for both: the given windows share minutes, though the settled ones would only touch.
#[test]
fn one_serial_with_given_windows_that_overlap() {
    for serials in [[7, 7], [0, 0], [u32::MAX, u32::MAX]] {
        turned_back(&with_serials(boxes(4, "w[0,3)2 w[0,4)2"), &serials), 1);
        let settled_once = with_serials(boxes(4, "w[0,2)2 w[2,4)2"), &serials);
        assert_eq!(settled(&settled_once), (settled_once.clone(), 0), "{serials:?}");
    }
    for serials in [[0, 1], [1, 0], [u32::MAX, 7]] {
        let day = with_serials(boxes(4, "w[0,3)2 w[0,4)2"), &serials);
        let wanted = with_serials(boxes(4, "w[0,2)2 w[2,4)2"), &serials);
        assert_eq!(settled(&day), (wanted, 2), "{serials:?}");
    }
}

/// The first, or the last, of one serial may be pause: its window stays, and the whole one's is narrowed.
#[test]
fn one_serial_for_a_pause_entry_and_a_whole_one() {
    let day = with_serials(boxes(6, "p[0,2)2 w[2,6)2 p[2,4)2"), &[7, 7, 8]);
    assert_eq!(settled(&day), (with_serials(boxes(6, "p[0,2)2 w[4,6)2 p[2,4)2"), &[7, 7, 8]), 1));
    let day = with_serials(boxes(6, "w[2,6)2 p[2,4)2 p[0,2)2"), &[7, 8, 7]);
    assert_eq!(settled(&day), (with_serials(boxes(6, "w[4,6)2 p[2,4)2 p[0,2)2"), &[7, 8, 7]), 1));
    turned_back(&with_serials(boxes(4, "p[0,2)2 w[0,4)2"), &[7, 7]), 1);
    turned_back(&with_serials(boxes(4, "w[0,4)2 p[0,2)2"), &[7, 7]), 1);
}

/// 10 carries the place and not the serial, nor the first place with that serial.
#[test]
fn ten_carries_the_place_of_one_of_two_with_the_same_serial() {
    let day = boxes(10, "w[6,9)2 p[2,4)2 w[0,6)3");
    assert_eq!(no_place(&with_serials(day.clone(), &[7, 8, 7])), 2);
    assert_eq!(no_place(&with_serials(day.clone(), &[0, 1, 0])), 2);
    assert_eq!(no_place(&with_serials(day.clone(), &[0, 0, 1])), 2);
    assert_eq!(no_place(&with_serials(day.clone(), &[2, 1, 0])), 2);
    turned_back(&with_serials(day, &[0, 0, 0]), 2);
}

/// 14 is told before 10 and 9, whoever has no place and whatever is overloaded.
#[test]
fn one_box_in_two_places_comes_before_windows() {
    let no_place = boxes(12, "w[0,6)3 p[2,4)2 p[8,10)1 p[9,12)1");
    turned_back(&with_serials(no_place, &[1, 2, 3, 3]), 3);
    let overloaded = boxes(12, "w[0,2)2 p[1,2)1 p[8,10)1 p[9,12)1");
    turned_back(&with_serials(overloaded, &[1, 2, 3, 3]), 3);
}

/// Example (a) 32 times, one after the other, with one serial for all first entries and another for all second ones.
#[test]
fn two_serials_thirty_two_times_each() {
    let times = |part: &str, later: u16| {
        let mut day = boxes(4, part);
        day.entries.iter_mut().for_each(|entry| (entry.r, entry.d) = (entry.r + later, entry.d + later));
        day.entries
    };
    let all = |part: &str| {
        let entries = (0..32).flat_map(|turn| times(part, 4 * turn)).collect();
        with_serials(Day { h: 128, opening: 0, entries }, &[[8, 9]; 32].concat())
    };
    assert_eq!(settled(&all("w[0,3)2 w[0,4)2")), (all("w[0,2)2 w[2,4)2"), 64));
}

/// 64 nested entries of one serial are turned back; with serials that differ they are settled one by one.
#[test]
fn sixty_four_times_the_same_serial() {
    let (day, wanted) = chains::settled_one_by_one(MOST_ENTRIES, 2);
    let (answer, narrowed) = abi::settle(&flat::of_day(&day));
    assert_eq!((answer.number, answer.values), (0, [126, 0, 0]));
    assert!(narrowed == flat::of_day(&wanted), "windows of entries with serials that differ");
    turned_back(&with_serials(day, &[1; MOST_ENTRIES]), 1);
    let same = with_serials(wanted, &[1; MOST_ENTRIES]);
    assert_eq!(settled(&same), (same.clone(), 0), "windows that share no minute");
}

/// With one serial for all its entries a day is refused with 14 if two given windows share a minute; else the same is
/// said as before.
#[test]
fn one_serial_for_all_entries_is_14_or_changes_nothing() {
    let mut seen = [0; 2];
    days(&mut Random::new(95), |_, day| {
        let (fields, n) = (flat::of_day(day), day.entries.len());
        let all: Vec<_> = day.entries.iter().map(|entry| (7, (entry.r, entry.d))).collect();
        let wanted = match clashes::told(&all) {
            Some(place) => (Answer { number: 14, values: [place as u64, 0, 0] }, vec![]),
            None => said(&fields, n),
        };
        let same = ignored::with_one_serial(&fields, 7);
        assert!(said(&same, n) == wanted, "one serial in all of {day:?}");
        if wanted.0.number == 14 {
            assert!(abi::settle(&same).1 == abi::untouched_fields(), "14 writes nothing, {day:?}");
        }
        seen[usize::from(wanted.0.number == 14)] += 1;
    });
    assert!(seen[0] > 20 && seen[1] > 100, "the same, 14: {seen:?}");
}

/// Kinds are looked at: document 01's (a) and (b) differ in one.
#[test]
fn kinds_are_looked_at() {
    for (entries, moves) in
        [("w[0,3)2 w[0,4)2", 2), ("w[0,3)2 p[0,4)2", 0), ("p[0,3)2 w[0,4)2", 1), ("p[0,3)2 p[0,4)2", 0)]
    {
        assert_eq!(settled(&boxes(4, entries)).1, moves, "{entries}");
    }
}
