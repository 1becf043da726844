//! The place that is asked for, and the rows in their order: the value's own with 14, then 13, 11, 9, 10. "Rows are
//! tested in this order .. the first that holds is given".

use dock_tests::abi::Call;
use dock_tests::check_bounds::{ask, calls, refused};
use dock_tests::day::{Day, Entry, LONGEST_DAY, MOST_ENTRIES};
use dock_tests::flat::{self, Fields};
use dock_tests::ignored::with_one_serial;
use dock_tests::samples::{boxes, entry, value, windows};
use dock_tests::values::{self, Mended};

/// Both calls that ask for a place.
fn shown(place: u64) -> [Call; 2] {
    [Call::Early(place), Call::Late(place)]
}

/// Places near the limits of n, of a byte and of 16, 32 and 64 bits; some have 0 in their lower bits.
const PLACES: [u64; 19] =
    [0, 1, 2, 3, 62, 63, 64, 65, 127, 128, 254, 255, 256, 257, 65_535, 65_536, 1 << 32, 1 << 63, u64::MAX];

/// Days of n entries that are planned.
fn planned_days() -> Vec<Day> {
    vec![
        windows(1, &[]),
        boxes(1, "w[0,1)1"),
        boxes(4, "w[0,3)2 p[0,4)2"),
        boxes(12, "p[0,12)4 w[2,8)3 p[3,6)2"),
        windows(63, &[(0, 63, 1); 63]),
        windows(64, &[(0, 64, 1); 64]),
    ]
}

/// "place asked is n or more", which carries that place.
#[test]
fn a_place_of_n_or_more_is_13_with_that_place() {
    for day in planned_days() {
        let (fields, n) = (flat::of_day(&day), day.entries.len() as u64);
        for place in PLACES.into_iter().chain([n, n + 1]) {
            for call in shown(place) {
                if place < n {
                    assert_eq!(ask(call, &fields, day.h.into()).0.number, 0, "{call:?} of {n} entries");
                } else {
                    refused(call, &fields, day.h.into(), 13, place);
                }
            }
        }
    }
}

/// The last place that the list has, n - 1, and the first that it has not.
#[test]
fn around_n() {
    for n in 1..=MOST_ENTRIES {
        let fields = flat::of_day(&windows(64, &vec![(0, 64, 1); n]));
        for call in shown(n as u64 - 1) {
            let (answer, lent) = ask(call, &fields, 64);
            let bound = if call == Call::Early(n as u64 - 1) { 1 } else { 63 };
            assert_eq!((answer.number, answer.values), (0, [0, bound, 0]), "{call:?} of {n} entries");
            assert_eq!(lent.plan[if bound == 1 { 0 } else { 63 }], n as u8 - 1, "{call:?} of {n} entries");
        }
        for call in shown(n as u64) {
            refused(call, &fields, 64, 13, n as u64);
        }
    }
}

/// Without entries no place is known, and the buffer does not matter.
#[test]
fn no_entries_have_no_place() {
    for h in [1, 2, LONGEST_DAY] {
        let fields = flat::of_day(&windows(h, &[]));
        for place in PLACES {
            for room in [0, usize::from(h) - 1, h.into(), usize::from(h) + 1] {
                shown(place).iter().for_each(|&call| refused(call, &fields, room, 13, place));
            }
        }
    }
}

/// Entries behind the list have no place in it, however right they are.
#[test]
fn a_place_behind_the_list_is_13() {
    let mut fields = flat::of_day(&boxes(12, "p[0,12)4 w[2,8)3 p[3,6)2"));
    for n in (0..3).rev() {
        fields[1] = n;
        for call in shown(n.into()) {
            refused(call, &fields, 12, 13, n.into());
        }
    }
}

/// A list that is wrong in every row, mended row by row: 2, 3, 15, 16, 6, 7, 14, then 13, 11, 9, 10.
#[test]
fn the_rows_in_their_order() {
    let first = Entry { whole: true, ..entry(1, 7, 3) };
    let wrong = value(0, 65, &[first, entry(3, 5, 2), entry(0, 8, 0)]);
    let right = Mended { h: 7, opening: 1, r: 3, d: 5 };
    let mut fields = values::mended(wrong, right, |fields, number, carries| {
        for call in [Call::Plan].into_iter().chain([0, 2, 3, 255].into_iter().flat_map(shown)) {
            for room in [0, 6, 7, 8, 2000] {
                refused(call, fields, room, number.into(), carries as u64);
            }
        }
    });
    let (second, third) = (flat::at(1), flat::at(2));
    let later_rows = |fields: &Fields, number, values| {
        for room in [0, 6, 7, 8] {
            for place in [3, 255] {
                shown(place).iter().for_each(|&call| refused(call, fields, room, 13, place));
            }
            for call in calls(3) {
                let (answer, _) = ask(call, fields, room);
                let wanted = if room < 7 { (11, [7, 0, 0]) } else { (number, values) };
                assert_eq!((answer.number, answer.values), wanted, "{call:?} in {room} bytes");
            }
        }
    };
    later_rows(&fields, 9, [3, 5, 3]);
    fields[third + 3..third + 5].copy_from_slice(&[1, 2]);
    later_rows(&fields, 10, [0, 0, 0]);
    fields[second + 3..second + 5].copy_from_slice(&[5, 7]);
    for call in calls(3) {
        assert_eq!(ask(call, &fields, 7).0.number, 0, "{call:?} of the list mended");
    }
}

/// Each row beside the next one, and nothing else wrong.
#[test]
fn each_row_before_the_next_one() {
    let wrong = {
        let mut fields = flat::of_day(&boxes(6, "p[0,6)2 w[0,6)2"));
        fields[flat::at(1) + 5] = 0;
        fields
    };
    let right = flat::of_day(&boxes(6, "p[0,6)2 w[0,6)2"));
    let overloaded = flat::of_day(&boxes(6, "p[0,6)6 w[0,6)2"));
    let no_place = flat::of_day(&boxes(6, "w[0,6)3 p[2,4)2"));
    let twice = [&right, &overloaded, &no_place].map(|fields| with_one_serial(fields, 7));
    for (place, other) in [(2, 1), (255, 0), (u64::MAX, 1)] {
        for (call, known) in shown(place).into_iter().zip(shown(other)) {
            refused(call, &wrong, 6, 6, 1);
            refused(call, &with_one_serial(&wrong, 7), 5, 6, 1);
            for (fields, room) in twice.iter().flat_map(|fields| [(fields, 5), (fields, 6)]) {
                refused(call, fields, room, 14, 1);
                refused(known, fields, room, 14, 1);
                refused(Call::Plan, fields, room, 14, 1);
            }
            refused(call, &right, 5, 13, place);
            refused(call, &overloaded, 6, 13, place);
            refused(call, &overloaded, 5, 13, place);
            refused(call, &no_place, 6, 13, place);
            refused(known, &wrong, 5, 6, 1);
            refused(known, &overloaded, 5, 11, 6);
            refused(known, &no_place, 5, 11, 6);
            refused(known, &no_place, 6, 10, 0);
        }
    }
    refused(Call::Plan, &wrong, 5, 6, 1);
    refused(Call::Plan, &overloaded, 5, 11, 6);
    refused(Call::Plan, &no_place, 5, 11, 6);
    refused(Call::Plan, &no_place, 6, 10, 0);
}

/// 9 is told although narrowing would be refused with 10 too: the given windows are tested first.
#[test]
fn nine_comes_before_ten() {
    let fields = flat::of_day(&boxes(9, "w[0,6)3 p[2,4)2 p[7,9)2 p[8,9)1"));
    for call in calls(4) {
        let (answer, _) = ask(call, &fields, 9);
        assert_eq!((answer.number, answer.values), (9, [7, 9, 3]), "{call:?}");
    }
    let fields = flat::of_day(&boxes(9, "w[0,6)3 p[2,4)2 p[6,9)2 p[8,9)1"));
    for call in calls(4) {
        refused(call, &fields, 9, 10, 0);
    }
}

/// 10 carries the place at which the rounds stop, whatever place is asked for.
#[test]
fn ten_carries_the_rounds_place_not_the_one_asked_for() {
    for (h, entries, place) in
        [(11, "w[0,11)2 w[0,11)2 w[5,6)1 w[0,11)4 w[0,7)2", 1), (7, "w[1,7)2 p[2,4)2 w[0,5)3", 2)]
    {
        let day = boxes(h, entries);
        for call in calls(day.entries.len()) {
            refused(call, &flat::of_day(&day), h.into(), 10, place);
        }
    }
}
