//! Days that no call makes: any 452 numbers may be handed in. "a day of 64 entries or more" is 18 and never
//! 3; a day whose own list is wrong gets the longer list's refusal; what stands from place n on does not
//! count.

use crate::late;
use dock_tests::abi::{DayCall, Lent};
use dock_tests::check_commits::{ask, both_refused, call, commit, refused};
use dock_tests::commits::{self, Row, SIZE, STAMP};
use dock_tests::day::{Day, LONGEST_DAY, MOST_ENTRIES};
use dock_tests::flat::{self, Fields, OPENING};
use dock_tests::ignored;
use dock_tests::random::{self, Random};
use dock_tests::samples::{boxes, longest, windows, with_serials};
use dock_tests::told::Told;
use dock_tests::values;

/// A day of 12 minutes and three boxes with stamp 5.
fn day() -> Row {
    commits::row(&boxes(12, "p[0,12)4 w[2,8)3 p[3,6)2"), 5)
}

/// The same day with this number there.
fn with(at: usize, number: u32) -> Row {
    let mut row = day();
    row[at] = number;
    row
}

#[test]
fn n_of_64_or_more_is_18_and_never_3() {
    let more = [256, 257, 256 + 3, 65_536, 65_536 + 3, 0xFFFF_FF03, u32::MAX];
    for n in (64..=255).chain(more) {
        both_refused(&with(1, n), &late("p[6,12)1"), 12, 18, 5);
        for stamp in [0, 4, 6, 65_536 + 5, u64::MAX] {
            refused(DayCall::Commit(stamp), &with(1, n), &late("p[6,12)1"), 12, 17, 5);
        }
    }
}

/// Before that nothing is looked at: neither the day nor the entries, the new one, or the buffer.
#[test]
fn a_full_day_is_18_whatever_it_holds() {
    for number in [0, 1, 65_535, u32::MAX] {
        for n in [64, 65, 255, u32::MAX] {
            let mut row = [number; SIZE];
            (row[1], row[STAMP]) = (n, 7);
            for (entry, room) in [("p[0,12)1", 0), ("p[0,12)0", 12), ("w[5,3)9", 2_000)] {
                both_refused(&row, &late(entry), room, 18, 7);
                refused(DayCall::Commit(8), &row, &late(entry), room, 17, 7);
            }
        }
    }
}

/// The day's own list is wrong in a row of the value check: that is told, with 0 or its entry's place.
#[test]
fn a_day_of_a_wrong_list_gets_its_refusal() {
    for (number, fields) in values::wrong().into_iter().filter(|&(number, _)| number != 3) {
        let row = commits::with_stamp(&fields, 9);
        let (answer, _) = ask(&row, &late("p[8,12)1"), 12);
        assert_eq!(answer.number, number, "{:?}", &fields[..24]);
        refused(DayCall::Commit(9), &row, &late("p[8,12)1"), 12, number, answer.values[0]);
        refused(DayCall::Commit(8), &row, &late("p[8,12)1"), 12, 17, 9);
    }
}

/// All values that the value check refuses, as days: with one more entry the same is told, and 18 for n of 64
/// or more.
#[test]
fn wrong_values_as_days() {
    let right = late("p[99,100)1");
    values::refused(|fields, number, carries| {
        let row = commits::with_stamp(fields, 2);
        if fields[1] < 64 {
            both_refused(&row, &right, 100, number.into(), carries as u64);
        } else {
            both_refused(&row, &right, 100, 18, 2);
        }
    });
}

/// A list without a plan has none with one more entry: 9 with the interval of the longer list, or 10.
#[test]
fn a_day_of_a_list_without_a_plan() {
    for (h, list, entry, wanted) in [
        (10, "p[2,5)2 p[2,5)2", "p[8,9)1", (9, [2, 5, 4])),
        (10, "p[2,5)2 p[2,5)2", "p[3,5)1", (9, [2, 5, 5])),
        (10, "p[2,5)2 p[2,5)2", "p[3,4)1", (9, [2, 5, 5])),
        (10, "p[2,9)4 p[2,9)4", "p[3,5)2", (9, [2, 9, 10])),
        (6, "w[0,6)3 p[2,4)2", "p[5,6)1", (10, [0, 0, 0])),
        (6, "p[2,4)2 w[0,6)3", "p[5,6)1", (10, [1, 0, 0])),
        (6, "w[0,6)3 p[2,4)2", "p[0,6)2", (9, [0, 6, 7])),
        (9, "w[0,6)3 p[2,4)2 p[7,9)2", "p[8,9)1", (9, [7, 9, 3])),
    ] {
        let mut row = commits::row(&boxes(h, list), 3);
        for answer in [ask(&row, &late(entry), h.into()).0, commit(&mut row, &late(entry), 3, h.into()).0] {
            assert_eq!((answer.number, answer.values), (wanted.0, wanted.1), "{list}, then {entry}");
        }
    }
}

/// A number too large for its field counts as the field's largest, and stays in the row beside a refusal.
#[test]
fn numbers_too_large_for_their_fields() {
    let first = flat::at(0);
    for more in [65_536, 65_548, 131_072, u32::MAX] {
        both_refused(&with(0, more), &late("p[6,12)1"), 12, 2, 0);
        both_refused(&with(OPENING, more), &late("p[6,12)1"), 12, 15, 0);
        for field in [3, 4, 5] {
            both_refused(&with(first + field, more), &late("p[6,12)1"), 12, 7, 0);
        }
    }
}

/// The same of the new entry's r, d and p: 7 at place n.
#[test]
fn numbers_of_the_entry_too_large_for_their_fields() {
    for more in [65_536, 65_537, 65_536 + 12, 131_072, u32::MAX] {
        for field in [3, 4, 5] {
            let mut entry = late("p[6,12)1");
            entry[field] = more;
            both_refused(&day(), &entry, 12, 7, 3);
        }
    }
}

/// Any number but 0 is a yes, in the day and in the new entry. After a success 1 stands there, and 0 beside a
/// missing seal.
#[test]
fn a_yes_is_stored_as_1() {
    let mut row = day();
    (row[4], row[5]) = (5, 77);
    (row[11], row[12], row[16], row[23]) = (0, 88, u32::MAX, 9);
    let (answer, lent) = ask(&row, &[201, 256, 6, 6, 12, 2, 65_536], 12);
    assert_eq!((answer.number, answer.values[2]), (0, 5));
    assert_eq!(lent.narrowed[24..31], [201, 1, 6, 8, 12, 2, 1]);
    let (answer, _) = commit(&mut row, &[201, 256, 6, 6, 12, 2, 65_536], 5, 12);
    assert_eq!((answer.number, answer.values[2]), (0, 6));
    assert_eq!(row[3..10], [101, 1, 77, 0, 12, 4, 0]);
    assert_eq!(row[10..17], [102, 0, 0, 2, 8, 3, 1]);
    assert_eq!(row[17..24], [103, 0, 0, 3, 6, 2, 1]);
    assert_eq!(row[24..31], [201, 1, 6, 6, 12, 2, 1]);
    commit(&mut row, &[202, 0, 99, 0, 12, 1, 0], 6, 12);
    assert_eq!((&row[31..38], row[STAMP]), (&[202, 0, 0, 0, 12, 1, 0][..], 7));
}

/// Entries behind the list are none of it: neither those at place n, which the new entry gets, nor the
/// others. After a success zeros stand there, and after an ask or a refusal what stood there.
#[test]
fn entries_behind_the_list_do_not_count() {
    let mut random = Random::new(541);
    for (list, entry) in [("", "p[0,12)1"), ("p[0,12)4", "w[2,8)3"), ("p[0,12)4 w[2,8)3", "p[3,6)2")] {
        let right = commits::row(&boxes(12, list), 5);
        let wanted = ask(&right, &late(entry), 12);
        let mut longer = right;
        commit(&mut longer, &late(entry), 5, 12);
        for fields in ignored::with_junk(&mut random, &commits::list_of(&right)) {
            let mut row = commits::with_stamp(&fields, 5);
            assert!(ask(&row, &late(entry), 12) == wanted, "{entry} after {list}");
            both_refused(&row, &late("p[0,12)0"), 12, 6, right[1].into());
            commit(&mut row, &late(entry), 5, 12);
            assert!(row == longer, "{entry} after {list}");
            assert!(row[flat::at(row[1] as usize)..STAMP].iter().all(|&number| number == 0));
        }
    }
}

/// A box behind the list with the new entry's serial and window is no other box.
#[test]
fn a_serial_behind_the_list_does_not_clash() {
    let behind = with_serials(boxes(12, "p[0,12)4 w[2,8)3 p[3,6)2"), &[101, 201, 201]);
    let mut row = commits::row(&behind, 5);
    both_refused(&row, &late("p[3,6)1"), 12, 14, 2);
    row[1] = 1;
    let (answer, _) = commit(&mut row, &late("p[3,6)1"), 5, 12);
    assert_eq!((answer.number, row[1]), (0, 2));
}

/// The stamp need not be the number of commits: a full list with stamp 0, an empty one with stamp 300.
#[test]
fn the_stamp_need_not_fit_the_list() {
    let mut row = commits::row(&boxes(12, ""), 300);
    assert_eq!(commit(&mut row, &late("p[0,12)1"), 300, 12).0.values, [0, 0, 301]);
    let list = windows(64, &[(0, 64, 1); 63]);
    let mut row = commits::row(&list, 64);
    assert_eq!(commit(&mut row, &late("p[0,64)1"), 64, 64).0.values, [0, 0, 65]);
    both_refused(&row, &late("p[0,64)1"), 64, 18, 65);
    both_refused(&commits::row(&longest(), 0), &late("p[0,64)1"), 1_440, 18, 0);
}

/// Any numbers at all: days from wild values, with any stamp and one more entry.
#[test]
fn six_thousand_wild_days() {
    let mut random = Random::new(542);
    let (mut asked, mut committed) = (Told::default(), Told::default());
    for _ in 0..6_000 {
        let mut row = wild_day(&mut random);
        let day = commits::value(&row);
        let entry = random::one_more(&mut random, &day.list);
        let room = random.pick(&[0, usize::from(day.list.h), usize::from(LONGEST_DAY), 2_000]);
        let mut lent = Lent::untouched(room.min(2_000));
        if random.once_in(2) {
            asked.count(call(DayCall::Ask, &mut row, &entry, &mut lent).number as usize);
        } else {
            let stamp = random::stamp_near(&mut random, day.stamp);
            committed.count(call(DayCall::Commit(stamp), &mut row, &entry, &mut lent).number as usize);
        }
    }
    for told in [&asked, &committed] {
        told.more_than(30, &[0, 2, 6, 7, 9, 11, 14, 15, 16, 18]);
        told.never(&[3, 12, 13]);
    }
    asked.never(&[17]);
    committed.more_than(100, &[17]);
}

/// A row of wild numbers: mostly a short list with up to three numbers changed, and any stamp.
fn wild_day(random: &mut Random) -> Row {
    let mut fields: Fields = random::wild_fields(random);
    if random.once_in(3) {
        let small: Day = random::mixed_day(random, 20, 5);
        fields = flat::of_day(&small);
        let at = random.below(flat::at(MOST_ENTRIES.min(small.entries.len() + 1)));
        fields[at] = random.pick(&[0, 1, fields[at], fields[at].wrapping_add(1), 64, 65_536]);
    }
    let any = random.any() as u32;
    commits::with_stamp(&fields, random.pick(&[0, 1, any % 65, any % 65_536, 65_535, 65_536, any]))
}
