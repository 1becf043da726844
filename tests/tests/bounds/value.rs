//! A list handed over as a value to the calls that plan: "2, 3, then 6 and 7 per entry; 2 and 3 then carry 0,
//! 6 and 7 the entry's place", with 15 after 3 and 16 before 6, then 14, whatever place is asked for and whatever
//! buffer is lent.

use dock_tests::abi::Call;
use dock_tests::check_bounds::{ask, calls, refused};
use dock_tests::day::MOST_ENTRIES;
use dock_tests::flat::{self, Fields};
use dock_tests::samples::boxes;
use dock_tests::values;

/// This call refuses the value so, with any buffer.
#[track_caller]
fn never_planned(call: Call, fields: &Fields, number: u32, carries: usize) {
    for room in [0, 99, 100, 2000] {
        refused(call, fields, room, number.into(), carries as u64);
    }
}

#[test]
fn planning_refuses_wrong_values() {
    values::refused(|fields, number, carries| never_planned(Call::Plan, fields, number, carries));
}

#[test]
fn showing_an_early_plan_refuses_wrong_values() {
    values::refused(|fields, number, carries| {
        for place in [0, 63, 64, 255, u64::MAX] {
            never_planned(Call::Early(place), fields, number, carries);
        }
    });
}

#[test]
fn showing_a_late_plan_refuses_wrong_values() {
    values::refused(|fields, number, carries| {
        for place in [0, 63, 64, 255, u64::MAX] {
            never_planned(Call::Late(place), fields, number, carries);
        }
    });
}

/// Values at the limits have settled windows, in which no whole entry of theirs is broken.
#[test]
fn values_at_the_limits_are_planned() {
    values::accepted(|fields| {
        let (answer, lent) = ask(Call::Plan, fields, 2000);
        assert_eq!((answer.number, answer.values), (0, [0, 0, 0]));
        let places = [0, u64::from(fields[1]).saturating_sub(1)];
        for call in places.into_iter().flat_map(|place| [Call::Early(place), Call::Late(place)]) {
            let (answer, shown) = ask(call, fields, 2000);
            if fields[1] == 0 {
                assert_eq!(answer.number, 13, "{call:?}");
                continue;
            }
            assert_eq!((answer.number, answer.values[0]), (0, 0), "{call:?}");
            assert!(shown.narrowed == lent.narrowed, "{call:?}");
        }
    });
}

/// Any number but 0 says that an entry is whole or has a seal, and is answered as 1; beside a missing seal 0
/// stands.
#[test]
fn a_yes_is_answered_as_1() {
    let mut fields = flat::of_day(&boxes(4, "w[0,3)2 w[0,4)2"));
    (fields[4], fields[5], fields[9]) = (5, 77, 9);
    (fields[11], fields[12], fields[16]) = (0, 88, u32::MAX);
    for call in calls(2) {
        let (answer, lent) = ask(call, &fields, 4);
        assert_eq!((answer.number, answer.values[0]), (0, 2), "{call:?}");
        assert_eq!(lent.narrowed[3..10], [101, 1, 77, 0, 2, 2, 1], "{call:?}");
        assert_eq!(lent.narrowed[10..17], [102, 0, 0, 2, 4, 2, 1], "{call:?}");
    }
}

/// The rows in their order on values that may break any of them, for any place and buffer.
#[test]
fn six_thousand_wild_values() {
    let seen = values::wild(142, 6_000, |random, fields| {
        let any = random.any();
        let place = random.pick(&[0, 1, any % 4, any % MOST_ENTRIES as u64, any]);
        let call = random.pick(&[Call::Plan, Call::Early(place), Call::Late(place)]);
        let room = random.pick(&[0, fields[0] as usize % 3_000, 1440, 1440, 2000]);
        ask(call, fields, room).0.number as usize
    });
    seen.more_than(40, &[0, 2, 3, 6, 7, 9, 11, 13, 14, 15, 16]);
}
