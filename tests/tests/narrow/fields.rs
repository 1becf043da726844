//! The fields that are lent for the narrowed list. Answered, they hold the list with its windows narrowed,
//! all else as it was given, and zeros from place n on. "A refusal writes nothing to any lent buffer."

use dock_tests::check_narrow::{settle, settled};
use dock_tests::day::Day;
use dock_tests::flat::{self, Fields, SIZE, WIDTH};
use dock_tests::random::{self, Random};
use dock_tests::samples::{self, boxes};
use dock_tests::{abi, check, values, writer};

/// A value for each refusal; the last one is refused after moves.
fn refused_values() -> Vec<(u64, Fields)> {
    let days = [
        (9, boxes(12, "w[0,12)12 p[11,12)1")),
        (10, boxes(6, "w[0,6)3 p[2,4)2")),
        (10, boxes(7, "w[0,7)2 p[4,6)1 w[0,7)3 p[1,3)1")),
    ];
    values::wrong().into_iter().chain(days.map(|(number, day)| (number, flat::of_day(&day)))).collect()
}

/// Fields to be lent: zeros, ones, a list, what no list has.
fn contents() -> Vec<Fields> {
    let list = flat::of_day(&samples::longest());
    vec![[0; SIZE], [1; SIZE], [u32::MAX; SIZE], list, abi::untouched_fields()]
}

#[test]
fn a_refusal_leaves_every_number_as_it_was() {
    for (number, fields) in refused_values() {
        for before in contents() {
            let mut narrowed = before;
            assert_eq!(abi::settle_into(&fields, &mut narrowed).number, number);
            assert!(narrowed == before, "numbers changed by refusal {number}");
        }
    }
}

/// A settled list that stands in the fields survives every refusal.
#[test]
fn a_refusal_keeps_an_earlier_answer() {
    let day = boxes(4, "w[0,3)2 w[0,4)2");
    let wanted = flat::of_day(&boxes(4, "w[0,2)2 w[2,4)2"));
    let mut narrowed = abi::untouched_fields();
    assert_eq!(abi::settle_into(&flat::of_day(&day), &mut narrowed).number, 0);
    assert!(narrowed == wanted, "settled");
    for (number, fields) in refused_values() {
        assert_eq!(abi::settle_into(&fields, &mut narrowed).number, number);
        assert!(narrowed == wanted, "after refusal {number}");
    }
}

/// The answer does not depend on what the fields held, and all of them are written.
#[test]
fn whatever_the_fields_held_the_answer_is_the_same() {
    let days = [
        boxes(3, ""),
        boxes(4, "w[0,3)2 w[0,4)2"),
        boxes(12, "p[0,12)4 w[2,8)3 p[3,6)2"),
        samples::longest(),
    ];
    for day in days {
        let fields = flat::of_day(&day);
        let (answer, wanted) = abi::settle(&fields);
        assert_eq!(answer.number, 0, "{day:?}");
        for before in contents() {
            let mut narrowed = before;
            assert_eq!(abi::settle_into(&fields, &mut narrowed), answer, "{day:?}");
            assert!(narrowed == wanted, "{day:?}");
        }
    }
}

/// "Two list values are equal if H, n and the first n entries are": what stands from place n on in the given
/// value is not handed on.
#[test]
fn from_place_n_on_the_answer_has_zeros() {
    let mut random = Random::new(71);
    for n in [0, 1, 2, 10, 63, 64] {
        let mut entries = random::entries(&mut random, 1440, n);
        entries.iter_mut().for_each(|entry| entry.p = 1);
        let day = samples::told_apart(Day { h: 1440, opening: 0, entries });
        let used = flat::at(n);
        let mut fields = flat::of_day(&day);
        fields[used..].fill_with(|| random.any() as u32);
        let (answer, narrowed) = abi::settle(&fields);
        assert_eq!(answer.number, 0, "{n} entries");
        assert!(narrowed[used..].iter().all(|&number| number == 0), "{n} entries");
    }
}

/// "A seal is either missing or a number, and it travels inside its entry": all fields but r and d are
/// answered as they were given.
#[test]
fn all_but_the_windows_is_answered_as_given() {
    let mut random = Random::new(72);
    let mut moved = 0;
    for _ in 0..500 {
        let mut day = random::unbroken_day(&mut random, 60, 12, false, 20);
        day.entries.iter_mut().for_each(|entry| entry.whole |= random.once_in(2));
        let fields = flat::of_day(&day);
        let (answer, narrowed) = abi::settle(&fields);
        assert_eq!(answer.number, 0, "{day:?}");
        for (at, (given, found)) in fields.iter().zip(&narrowed).enumerate() {
            let of_a_window = at >= flat::at(0) && matches!((at - flat::at(0)) % WIDTH, 3 | 4);
            assert!(of_a_window || given == found, "number {at} of {day:?}");
        }
        moved += usize::from(answer.values[0] > 0);
    }
    assert!(moved > 300, "{moved} days with moves");
}

/// Any number but 0 says that an entry is whole or has a seal, and is answered as 1; beside a missing seal 0
/// stands.
#[test]
fn a_yes_is_answered_as_1() {
    let mut fields = flat::of_day(&boxes(4, "w[0,3)2 w[0,4)2"));
    (fields[4], fields[5], fields[9]) = (5, 77, 9);
    (fields[11], fields[12], fields[16]) = (0, 88, u32::MAX);
    let (answer, narrowed) = abi::settle(&fields);
    assert_eq!((answer.number, answer.values), (0, [2, 0, 0]));
    assert_eq!(narrowed[3..10], [101, 1, 77, 0, 2, 2, 1]);
    assert_eq!(narrowed[10..17], [102, 0, 0, 2, 4, 2, 1]);
    assert_eq!(settle(&fields).expect("settled").moves, 2);
}

/// The answer is a list: it can be written, and read back.
#[test]
fn a_settled_list_can_be_written_and_read() {
    let mut random = Random::new(73);
    for _ in 0..200 {
        let day = random::unbroken_day(&mut random, 40, 8, true, 12);
        let (windows, _) = settled(&day);
        let (_, narrowed) = abi::settle(&flat::of_day(&day));
        let form = check::written(&narrowed, 1_000);
        assert_eq!(form, writer::form(&windows));
        assert_eq!(check::accepted(&form), windows);
    }
}
