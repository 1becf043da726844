//! A list handed over as a value to be narrowed: "2, 3, then 6 and 7 per entry; 2 and 3 then carry 0, 6 and 7
//! the entry's place", with 15 after 3 and 16 before 6, then 14, then 9 for the given windows, then 10.

use dock_tests::check::number;
use dock_tests::check_narrow::{not_settled, settle};
use dock_tests::day::Entry;
use dock_tests::flat;
use dock_tests::samples::{boxes, entry, value};
use dock_tests::values::{self, Mended};

#[test]
fn wrong_values_are_refused() {
    values::refused(not_settled);
}

#[test]
fn values_at_the_limits_are_accepted_and_have_nothing_to_move() {
    values::accepted(|fields| assert_eq!(settle(fields).expect("settled").moves, 0));
}

/// A list that is wrong in every row, mended row by row: 2, 3, 15, 16, 6, 7, 14, 9, 10.
#[test]
fn the_rows_in_their_order() {
    let first = Entry { whole: true, ..entry(1, 7, 3) };
    let wrong = value(0, 65, &[first, entry(3, 5, 2), entry(0, 8, 0)]);
    let mut fields = values::mended(wrong, Mended { h: 7, opening: 1, r: 3, d: 5 }, not_settled);
    let (second, third) = (flat::at(1), flat::at(2));
    let refusal = settle(&fields).expect_err("must be overloaded");
    assert_eq!(refusal.code(), (9, [3, 5, 3]));
    fields[third + 3..third + 5].copy_from_slice(&[1, 2]);
    not_settled(&fields, 10, 0);
    fields[second + 4] = 7;
    fields[second + 3] = 5;
    assert_eq!(settle(&fields).expect("settled").moves, 2);
}

/// 9 is told although narrowing would be refused with 10 too: the given windows are tested first.
#[test]
fn nine_comes_before_ten() {
    let day = boxes(9, "w[0,6)3 p[2,4)2 p[7,9)2 p[8,9)1");
    let refusal = settle(&flat::of_day(&day)).expect_err("must be overloaded");
    assert_eq!(refusal.code(), (9, [7, 9, 3]));
    let day = boxes(9, "w[0,6)3 p[2,4)2 p[6,9)2 p[8,9)1");
    not_settled(&flat::of_day(&day), 10, 0);
}

/// The rows in their order on values that may break any of them.
#[test]
fn ten_thousand_wild_values() {
    let seen = values::wild(61, 10_000, |_, fields| number(&settle(fields)));
    seen.more_than(100, &[0, 2, 3, 6, 7, 9, 14, 15, 16]);
}
