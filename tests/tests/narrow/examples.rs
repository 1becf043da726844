//! Document 01's examples as narrowing sees them, round by round, and its sample input.

use dock_tests::check::accepted;
use dock_tests::check_narrow::{by_trying_everything, no_place, rounds, rounds_leave, settle, settled};
use dock_tests::day::{Day, Interval, Refusal};
use dock_tests::samples::{self, boxes, hex};
use dock_tests::settled::windows_of;
use dock_tests::{abi, flat};

/// This list must be refused with 9 before any round, showing this interval.
#[track_caller]
fn overloaded(day: &Day, a: u16, b: u16, work: u64) {
    let shown = Refusal::Overloaded(Interval { a, b, work });
    assert_eq!(settle(&flat::of_day(day)), Err(shown), "settling {day:?}");
}

/// "(a) both whole, H 4, [0,3) p 2 and [0,4) p 2: settled [0,2) and [2,4)", with 2 moves in all.
#[test]
fn example_a_in_numbers() {
    let (answer, fields) = abi::settle(&flat::of_day(&boxes(4, "w[0,3)2 w[0,4)2")));
    assert_eq!((answer.number, answer.values), (0, [2, 0, 0]));
    assert_eq!(fields[..3], [4, 2, 0]);
    assert_eq!(fields[3..10], [101, 0, 0, 0, 2, 2, 1]);
    assert_eq!(fields[10..17], [102, 0, 0, 2, 4, 2, 1]);
    assert!(fields[17..].iter().all(|&number| number == 0), "zeros after the list");
}

/// "(a) .. 1 move in each of rounds one and two, none in round three". Round one moves place 1, and only then
/// can place 0 be moved.
#[test]
fn example_a_round_by_round() {
    let day = boxes(4, "w[0,3)2 w[0,4)2");
    rounds_leave(&day, &[("w[0,3)2 w[2,4)2", 1), ("w[0,2)2 w[2,4)2", 1), ("w[0,2)2 w[2,4)2", 0)]);
    assert_eq!(by_trying_everything(&day).values, [2, 0, 0]);
}

/// "(b) the same, second entry pause: no move".
#[test]
fn example_b_has_no_move() {
    let day = boxes(4, "w[0,3)2 p[0,4)2");
    rounds_leave(&day, &[("w[0,3)2 p[0,4)2", 0)]);
    assert_eq!(by_trying_everything(&day).values, [0, 0, 0]);
}

/// "(c) H 10, [2,5) p 2 twice: 9, from 2 to 5, work 4. With p 2 and 1: accepted." Of either kind.
#[test]
fn example_c_of_either_kind() {
    for entries in ["p[2,5)2 p[2,5)2", "w[2,5)2 p[2,5)2", "p[2,5)2 w[2,5)2", "w[2,5)2 w[2,5)2"] {
        overloaded(&boxes(10, entries), 2, 5, 4);
    }
    for entries in ["p[2,5)2 p[2,5)1", "w[2,5)2 p[2,5)1", "p[2,5)2 w[2,5)1", "w[2,5)2 w[2,5)1"] {
        let day = boxes(10, entries);
        assert_eq!(settled(&day), (day.clone(), 0), "{entries} has no move");
    }
}

/// "(d) H 4, [0,4) p 2, [2,4) p 2, [2,4) p 1: 9, from 2 to 4, work 3."
#[test]
fn example_d_is_9_before_any_round() {
    overloaded(&boxes(4, "p[0,4)2 p[2,4)2 p[2,4)1"), 2, 4, 3);
    overloaded(&boxes(4, "w[0,4)2 w[2,4)2 w[2,4)1"), 2, 4, 3);
}

/// "(e) H 6, whole [0,6) p 3, pause [2,4) p 2: 10, entry 0." There is a plan, and it breaks the entry.
#[test]
fn example_e_is_10_entry_0() {
    let day = boxes(6, "w[0,6)3 p[2,4)2");
    assert_eq!(no_place(&day), 0);
    assert_eq!(by_trying_everything(&day).number, 10);
}

/// (e) the other way round: 10 carries the place, which is 1 now.
#[test]
fn example_e_with_its_places_exchanged_is_10_entry_1() {
    let day = boxes(6, "p[2,4)2 w[0,6)3");
    assert_eq!(no_place(&day), 1);
}

/// (f) and (g) have pause entries alone.
#[test]
fn examples_f_and_g_have_no_move() {
    for entries in ["p[1,6)2 p[0,6)3", "p[1,5)2 p[0,6)3"] {
        let day = boxes(6, entries);
        assert_eq!(settled(&day), (day.clone(), 0));
    }
}

/// "(h) `01 00 00`: accepted"
#[test]
fn example_h_from_its_bytes() {
    let (answer, fields) = abi::read(&hex("01 00 00"));
    assert_eq!(answer.number, 0);
    let (answer, narrowed) = abi::settle(&fields);
    assert_eq!((answer.number, answer.values), (0, [0, 0, 0]));
    assert!(narrowed == fields, "the empty list stays as it is");
}

/// The report of the sample input says `moves 1`, and settled windows [0,12), [5,8) and [3,6).
#[test]
fn the_sample_input_from_its_bytes() {
    let (answer, fields) = abi::read(&samples::document());
    assert_eq!(answer.number, 0);
    let (answer, narrowed) = abi::settle(&fields);
    assert_eq!((answer.number, answer.values), (0, [1, 0, 0]));
    assert_eq!(narrowed[..3], [12, 3, 0]);
    assert_eq!(narrowed[3..10], [501, 0, 0, 0, 12, 4, 0]);
    assert_eq!(narrowed[10..17], [502, 1, 77, 5, 8, 3, 1]);
    assert_eq!(narrowed[17..24], [503, 1, 78, 3, 6, 2, 0]);
    assert!(narrowed[24..].iter().all(|&number| number == 0), "zeros after the list");
}

/// Its one move is made in round one: the whole entry may not begin before 5, as [3,6) is needed for two
/// minutes of place 2.
#[test]
fn the_sample_input_round_by_round() {
    let rounds = rounds(&accepted(&samples::document()));
    assert_eq!(rounds.moves(), [1, 0]);
    assert_eq!(windows_of(&rounds.done[0].day), [(0, 12), (5, 8), (3, 6)]);
}
