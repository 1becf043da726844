//! A list handed over as a value to the planner: "2, 3, then 6 and 7 per entry; 2 and 3 then carry 0, 6 and 7
//! the entry's place", with 15 after 3 and 16 before 6, then 14, then 11, then 9.

use dock_tests::check::{not_planned, overload, schedule, test_refused};
use dock_tests::flat::{self, Fields};
use dock_tests::samples::{entry, value};
use dock_tests::values::{self, Mended};

/// More room than any day needs.
const ROOM: usize = 2000;

/// Both calls refuse this value so, the planner with any buffer: a value's own rows stand above 11.
#[track_caller]
fn refused(fields: &Fields, number: u32, carries: usize) {
    test_refused(fields, number, carries);
    for room in [0, 1, 99, 100, ROOM] {
        not_planned(fields, room, number, carries);
    }
}

/// Both calls accept this value.
#[track_caller]
fn accepted(fields: &Fields) {
    assert_eq!(overload(fields), Ok(()));
    let plan = schedule(fields, ROOM).expect("a plan");
    assert_eq!(plan.len(), fields[0] as usize);
}

#[test]
fn wrong_values_are_refused_with_any_buffer() {
    values::refused(refused);
}

#[test]
fn values_at_the_limits_are_accepted() {
    values::accepted(accepted);
}

#[test]
fn every_day_length_without_entries() {
    for h in 0..=1500 {
        let fields = value(h, 0, &[]);
        match h {
            1..=1440 => {
                assert_eq!(overload(&fields), Ok(()));
                assert_eq!(schedule(&fields, ROOM), Ok(vec![255; h as usize]));
            }
            _ => refused(&fields, 2, 0),
        }
    }
}

/// The value's rows, then 11, then 9: an overloaded list of one box in three places with a wrong entry and a short
/// buffer, mended step by step.
#[test]
fn the_rows_in_their_order() {
    let wrong = value(0, 65, &[entry(1, 100, 60), entry(1, 100, 60), entry(0, 101, 0)]);
    let mut fields = values::mended(wrong, Mended { h: 100, opening: 1, r: 1, d: 100 }, refused);
    not_planned(&fields, 99, 11, 100);
    let refusal = schedule(&fields, 100).expect_err("must be overloaded");
    assert_eq!(refusal.code(), (9, [1, 100, 121]));
    assert_eq!(overload(&fields), Err(refusal), "the overload test passes over 11");
    fields[flat::at(1) + 5] = 38;
    accepted(&fields);
}
