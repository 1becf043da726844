//! Document 01's examples (c), (d), (f), (g) and (h), every minute of them, and what the others are before
//! their windows are narrowed.

use dock_tests::check::{overloaded, planned};
use dock_tests::day::{Interval, IDLE};
use dock_tests::samples::{self, hex, plan, whole, windows};
use dock_tests::{abi, brute, check};

/// "(c) H 10, [2,5) p 2 twice: 9, from 2 to 5, work 4."
#[test]
fn example_c_with_p_2_twice_is_overloaded() {
    let day = windows(10, &[(2, 5, 2), (2, 5, 2)]);
    assert_eq!(overloaded(&day), Interval { a: 2, b: 5, work: 4 });
}

/// "(c) .. With p 2 and 1: accepted." The shorter one goes first (document 02).
#[test]
fn example_c_with_p_2_and_1_is_accepted() {
    let day = windows(10, &[(2, 5, 2), (2, 5, 1)]);
    assert_eq!(planned(&day), [IDLE, IDLE, 1, 0, 0, IDLE, IDLE, IDLE, IDLE, IDLE]);
}

/// "(d) H 4, [0,4) p 2, [2,4) p 2, [2,4) p 1: 9, from 2 to 4, work 3." [0,4) with work 5 is overloaded too.
#[test]
fn example_d_shows_the_largest_a() {
    let day = windows(4, &[(0, 4, 2), (2, 4, 2), (2, 4, 1)]);
    assert_eq!(overloaded(&day), Interval { a: 2, b: 4, work: 3 });
    let all = [Interval { a: 0, b: 4, work: 5 }, Interval { a: 2, b: 4, work: 3 }];
    assert_eq!(brute::overloaded_intervals(&day), all);
}

/// "(f) H 6, pause [1,6) p 2, pause [0,6) p 3: place 1 has minutes 0 to 2, place 0 has 3 and 4."
#[test]
fn example_f_is_not_interrupted_by_an_equal_d() {
    let day = windows(6, &[(1, 6, 2), (0, 6, 3)]);
    assert_eq!(planned(&day), [1, 1, 1, 0, 0, IDLE]);
}

/// "(g) as (f), place 0 with d 5: place 1 at 0, place 0 at 1 and 2, place 1 at 3 and 4."
#[test]
fn example_g_is_interrupted_by_a_smaller_d() {
    let day = windows(6, &[(1, 5, 2), (0, 6, 3)]);
    assert_eq!(planned(&day), [1, 0, 0, 1, 1, IDLE]);
}

/// "(h) `01 00 00`: accepted, one idle minute."
#[test]
fn example_h_from_its_bytes_to_one_idle_minute() {
    let (answer, fields) = abi::read(&hex("01 00 00"));
    assert_eq!(answer.number, 0);
    let answer = abi::overload(&fields);
    assert_eq!((answer.number, answer.values), (0, [0, 0, 0]));
    let (answer, bytes) = abi::schedule(&fields, 1);
    assert_eq!((answer.number, answer.values), (0, [0, 0, 0]));
    assert_eq!(bytes, [255]);
}

/// The report's sample, before narrowing: place 1 is broken, as "A plan may break a whole entry".
#[test]
fn the_sample_input_with_its_windows_as_they_are_given() {
    let day = check::accepted(&samples::document());
    assert_eq!(planned(&day), plan("0 0 1 2 2 1 1 0 0 - - -"));
}

/// (a) and (b) need no narrowing to be planned, and the schedule does not look at the kinds.
#[test]
fn examples_a_and_b_are_planned_alike() {
    let day = windows(4, &[(0, 3, 2), (0, 4, 2)]);
    assert_eq!(planned(&whole(day.clone(), &[0, 1])), plan("0 0 1 1"));
    assert_eq!(planned(&whole(day, &[0])), plan("0 0 1 1"));
}

/// (e) is refused only when its windows are narrowed: as they are given there is a plan.
#[test]
fn example_e_has_a_plan_that_breaks_the_whole_entry() {
    let day = windows(6, &[(0, 6, 3), (2, 4, 2)]);
    assert_eq!(planned(&whole(day, &[0])), plan("0 0 1 1 0 -"));
}
