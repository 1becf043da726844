//! A list handed over as a value to the search: the rows of the value check, in their order, whatever limit is given and
//! whatever buffer is lent; then 11, 9 and 10.

use dock_tests::check_unbroken::{refused, search, ANY, FOUND};
use dock_tests::flat;
use dock_tests::samples::boxes;
use dock_tests::values::{self, Mended};

#[test]
fn the_search_refuses_wrong_values() {
    values::refused(|fields, number, carries| {
        for (limit, room) in [(0, 0), (1, 99), (ANY, 100), (0, 2_000)] {
            refused(fields, limit, room, number.into(), carries as u64);
        }
    });
}

/// Values at the limits have settled windows and an unbroken day.
#[test]
fn values_at_the_limits_are_searched() {
    values::accepted(|fields| {
        let (answer, lent) = search(fields, 3_000, 2_000);
        assert_eq!((answer.number, answer.values[..2].to_vec()), (0, vec![0, FOUND]));
        assert!(lent.starts.iter().all(|&start| start < 1440), "{:?}", lent.starts);
    });
}

/// A list that is wrong in every row is mended row by row: 2, 3, 15, 16, 6, 7 and 14 in their order, then 11, 9 and 10.
#[test]
fn each_row_in_its_order() {
    let mut fields = flat::of_day(&boxes(9, "w[3,9)3 p[5,7)2 p[0,2)0"));
    let second = flat::at(1);
    (fields[0], fields[1], fields[second], fields[flat::at(2)]) = (0, 65, 101, 101);
    let right = Mended { h: 9, opening: 3, r: 7, d: 8 };
    let no_place = values::mended(fields, right, |fields, number, carries| {
        for (limit, room) in [(0, 0), (ANY, 2_000)] {
            refused(fields, limit, room, number.into(), carries as u64);
        }
    });
    for limit in [0, 1, ANY] {
        [0, 8].iter().for_each(|&room| refused(&no_place, limit, room, 11, 9));
        refused(&no_place, limit, 9, 10, 0);
        let mut overloaded = no_place;
        overloaded[second + 5] = 1;
        (overloaded[second + 3], overloaded[second + 4]) = (7, 8);
        [0, 8].iter().for_each(|&room| refused(&overloaded, limit, room, 11, 9));
        let (answer, _) = search(&overloaded, limit, 9);
        assert_eq!((answer.number, answer.values), (9, [7, 8, 2]), "limit {limit}");
    }
}

/// Any number but 0 says that an entry is whole or has a seal, and is answered as 1; beside a missing seal 0 stands.
#[test]
fn a_yes_is_answered_as_1() {
    let mut fields = flat::of_day(&boxes(4, "w[0,3)2 w[0,4)2"));
    (fields[4], fields[5], fields[9]) = (5, 77, 9);
    (fields[11], fields[12], fields[16]) = (0, 88, u32::MAX);
    let (answer, lent) = search(&fields, 2, 4);
    assert_eq!((answer.number, answer.values), (0, [2, 1, 2]));
    assert_eq!(lent.narrowed[3..10], [101, 1, 77, 0, 2, 2, 1]);
    assert_eq!(lent.narrowed[10..17], [102, 0, 0, 2, 4, 2, 1]);
    assert_eq!(lent.starts[..2], [0, 2]);
}

/// The rows in their order on values that may break any of them, for any limit and buffer.
#[test]
fn six_thousand_wild_values() {
    let seen = values::wild(822, 6_000, |random, fields| {
        let limit = random.pick(&[0, 1, 40, 200]);
        let room = random.pick(&[0, fields[0] as usize % 3_000, 1440, 1440, 2000]);
        search(fields, limit, room).0.number as usize
    });
    seen.more_than(40, &[0, 2, 3, 6, 7, 9, 11, 14, 15, 16]);
}
