//! The buffer that is lent to the planner. "A plan is H bytes: the place, or 255 for idle. In a longer buffer
//! the bytes after H keep their values." "A refusal writes nothing to any lent buffer."

use dock_tests::abi::{self, Answer};
use dock_tests::check::{self, not_planned, schedule};
use dock_tests::day::{Day, Refusal, LONGEST_DAY};
use dock_tests::flat::{self, Fields};
use dock_tests::random::{self, Random};
use dock_tests::samples::{self, plan, windows};
use dock_tests::values;

/// Days that have a plan, from the smallest to a full one.
fn planned_days() -> Vec<Day> {
    let full = random::planned_day(&mut Random::new(31), LONGEST_DAY, 64, 4, &[1, 60]);
    vec![
        windows(1, &[]),
        windows(1, &[(0, 1, 1)]),
        windows(6, &[(1, 5, 2), (0, 6, 3)]),
        check::accepted(&samples::document()),
        windows(300, &[]),
        full,
    ]
}

/// Overloaded days of 2, 10 and 1,440 minutes.
fn overloaded_days() -> Vec<Day> {
    vec![
        windows(2, &[(0, 2, 2), (1, 2, 1)]),
        windows(10, &[(2, 5, 2), (2, 5, 2)]),
        windows(1440, &[(0, 1440, 1440), (700, 701, 1)]),
    ]
}

#[test]
fn the_first_h_bytes_are_written() {
    for day in planned_days() {
        let h = usize::from(day.h);
        let plan = check::planned(&day);
        assert_eq!(plan.len(), h);
        for more in [1, 2, 3, 100, 1000, 5000] {
            assert_eq!(schedule(&flat::of_day(&day), h + more).as_ref(), Ok(&plan), "{more} bytes after {h}");
        }
    }
}

/// Every byte value is kept after H, those of places and 255 too.
#[test]
fn any_byte_after_h_is_kept() {
    let fields = flat::of_day(&windows(6, &[(1, 5, 2), (0, 6, 3)]));
    for byte in 0..=u8::MAX {
        let mut bytes = [byte; 9];
        assert_eq!(abi::schedule_into(&fields, &mut bytes).number, 0);
        assert_eq!(bytes[..6], plan("1 0 0 1 1 -"));
        assert_eq!(bytes[6..], [byte; 3]);
    }
}

/// The plan does not depend on what the buffer held: another plan, idle minutes, any one place.
#[test]
fn whatever_the_buffer_held_the_plan_is_the_same() {
    let day = windows(9, &[(0, 9, 3), (0, 9, 2), (1, 4, 2)]);
    let wanted = plan("1 2 2 1 0 0 0 - -");
    for before in ["1 1 0 2 2 0 0 - -", "- - - - - - - - -", "0 0 0 0 0 0 0 0 0", "2 2 2 2 2 2 2 2 2"] {
        let mut bytes = plan(before);
        assert_eq!(abi::schedule_into(&flat::of_day(&day), &mut bytes).number, 0);
        assert_eq!(bytes, wanted, "over {before}");
        assert_eq!(abi::schedule_into(&flat::of_day(&day), &mut bytes).number, 0);
        assert_eq!(bytes, wanted, "once more");
    }
}

/// Row 11, "plan buffer under H bytes", which carries H, for each shorter length.
#[test]
fn a_buffer_under_h_bytes_is_11_with_h() {
    for day in planned_days() {
        let h = usize::from(day.h);
        let fields = flat::of_day(&day);
        for room in (0..h).filter(|room| room % 97 == 0 || room + 3 > h) {
            not_planned(&fields, room, 11, h);
        }
    }
}

/// Row 11 stands above row 9: "the first that holds is given".
#[test]
fn a_short_buffer_is_told_even_if_the_list_is_overloaded() {
    for day in overloaded_days() {
        let h = usize::from(day.h);
        let fields = flat::of_day(&day);
        for room in [0, 1, h / 2, h - 1] {
            not_planned(&fields, room, 11, h);
        }
        for room in [h, h + 1, h + 100] {
            let refusal = schedule(&fields, room).expect_err("must be overloaded");
            assert!(matches!(refusal, Refusal::Overloaded(_)), "{refusal:?} with {room} bytes");
        }
        assert_eq!(abi::overload(&fields).number, 9, "the overload test takes no buffer");
    }
}

#[test]
fn a_buffer_of_no_bytes_is_always_too_short() {
    for h in [1, 2, 255, 256, 1440] {
        let fields = flat::of_day(&windows(h, &[]));
        let answer = abi::schedule_into(&fields, &mut []);
        assert_eq!(answer, Answer { number: 11, values: [u64::from(h), 0, 0] });
    }
}

/// Of a buffer of 256 bytes or more, and of 65,536 or more, the whole length counts.
#[test]
fn a_buffer_is_not_measured_by_its_lowest_bytes() {
    let day = windows(300, &[(10, 20, 3)]);
    let fields = flat::of_day(&day);
    assert_eq!(schedule(&fields, 512), Ok(check::planned(&day)));
    assert_eq!(schedule(&fields, 65_536), Ok(check::planned(&day)));
    assert_eq!(schedule(&fields, 65_536 + 5), Ok(check::planned(&day)));
    not_planned(&fields, 256, 11, 300);
    not_planned(&fields, 299, 11, 300);
}

/// A value for each refusal of planning but 11, which has its tests above.
fn refused_values() -> Vec<(u64, Fields)> {
    let overloaded =
        [windows(12, &[(0, 12, 4), (2, 8, 5), (3, 6, 2)]), windows(12, &[(0, 12, 12), (11, 12, 1)])];
    values::wrong().into_iter().chain(overloaded.map(|day| (9, flat::of_day(&day)))).collect()
}

#[test]
fn a_refusal_leaves_every_byte_as_it_was() {
    for (number, fields) in refused_values() {
        for room in [12, 13, 1440, 2000] {
            let (answer, bytes) = abi::schedule(&fields, room);
            assert_eq!(answer.number, number);
            assert!(bytes == abi::untouched_bytes(room), "bytes changed by refusal {number}");
        }
    }
}

/// A plan that stands in the buffer survives every refusal.
#[test]
fn a_refusal_keeps_an_earlier_plan() {
    let day = windows(12, &[(0, 12, 4), (2, 8, 3), (3, 6, 2)]);
    let mut bytes = vec![0xAA; 12];
    assert_eq!(abi::schedule_into(&flat::of_day(&day), &mut bytes).number, 0);
    assert_eq!(bytes, plan("0 0 1 2 2 1 1 0 0 - - -"));
    for (number, fields) in refused_values() {
        assert_eq!(abi::schedule_into(&fields, &mut bytes).number, number);
        assert_eq!(bytes, plan("0 0 1 2 2 1 1 0 0 - - -"), "after refusal {number}");
    }
}
