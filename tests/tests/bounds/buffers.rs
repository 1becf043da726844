//! What is lent to the calls that plan. "In a longer buffer the bytes after H keep their values." "A refusal
//! writes nothing to any lent buffer." The narrowed list and the bounds are written in full: from n on
//! they have zeros.

use dock_tests::abi::{self, Call, Lent};
use dock_tests::check_bounds::{ask, calls, refused};
use dock_tests::day::{Day, LONGEST_DAY, MOST_ENTRIES};
use dock_tests::flat::{self, Fields};
use dock_tests::ignored::contents;
use dock_tests::random::{self, Random};
use dock_tests::samples::{self, boxes, plan};
use dock_tests::{check, values};

/// Days that are planned, from the smallest on, with moves and without.
fn planned_days() -> Vec<Day> {
    vec![
        boxes(1, ""),
        boxes(1, "w[0,1)1"),
        boxes(4, "w[0,3)2 w[0,4)2"),
        boxes(4, "w[0,3)2 p[0,4)2"),
        boxes(6, "p[1,5)2 p[0,6)3"),
        check::accepted(&samples::document()),
        boxes(300, "p[0,300)40 w[100,200)30"),
        boxes(LONGEST_DAY, "p[0,1440)700 w[0,1440)700"),
    ]
}

/// Days that are refused with 9 or 10, some of them after moves.
fn refused_days() -> Vec<(u64, Day)> {
    vec![
        (9, boxes(2, "p[0,2)2 w[1,2)1")),
        (9, boxes(10, "p[2,5)2 p[2,5)2")),
        (9, boxes(LONGEST_DAY, "w[0,1440)1440 p[700,701)1")),
        (10, boxes(3, "w[0,3)2 w[1,2)1")),
        (10, boxes(6, "w[0,6)3 p[2,4)2")),
        (10, boxes(7, "w[0,7)2 p[4,6)1 w[0,7)3 p[1,3)1")),
        (10, boxes(LONGEST_DAY, "w[0,1440)1000 p[700,701)1")),
    ]
}

/// H bytes are filled, and of a longer buffer the first H.
#[test]
fn the_first_h_bytes_are_written() {
    for day in planned_days() {
        let h = usize::from(day.h);
        for call in calls(day.entries.len()) {
            let (answer, Lent { plan, .. }) = ask(call, &flat::of_day(&day), h);
            assert_eq!((answer.number, plan.len()), (0, h), "{call:?} of {day:?}");
            for more in [1, 2, 500] {
                let (_, lent) = ask(call, &flat::of_day(&day), h + more);
                assert_eq!(lent.plan[..h], plan, "{more} bytes after {h}, {call:?} of {day:?}");
            }
        }
    }
}

/// Row 11, "plan buffer under H bytes", which carries H: for no bytes and for H - 1, and not for H.
#[test]
fn a_buffer_under_h_bytes_is_11_with_h() {
    let refused_days = refused_days().into_iter().map(|(_, day)| day);
    for day in planned_days().into_iter().chain(refused_days) {
        let (h, fields) = (usize::from(day.h), flat::of_day(&day));
        for call in calls(day.entries.len()) {
            for room in [0, h / 2, h - 1] {
                refused(call, &fields, room, 11, h as u64);
            }
            assert_ne!(ask(call, &fields, h).0.number, 11, "{call:?} of {day:?}");
        }
    }
}

/// Of a buffer of 256 bytes or more, and of 65,536 or more, the whole length counts.
#[test]
fn a_buffer_is_not_measured_by_its_lowest_bytes() {
    let fields = flat::of_day(&boxes(300, "p[10,20)3 w[15,40)3"));
    for call in calls(2) {
        for room in [512, 65_536, 65_536 + 5] {
            assert_eq!(ask(call, &fields, room).0.number, 0, "{call:?} in {room} bytes");
        }
        for room in [256, 299] {
            refused(call, &fields, room, 11, 300);
        }
    }
}

/// A value for each refusal, with a place that the list has.
fn refused_values() -> Vec<(u64, Fields)> {
    let days = refused_days().into_iter().map(|(number, day)| (number, flat::of_day(&day)));
    values::wrong().into_iter().chain(days).collect()
}

/// This call is refused with this number, and keeps all that it was lent, whatever that is.
#[track_caller]
fn keeps_all(call: Call, fields: &Fields, room: usize, number: u64) {
    for before in contents(room) {
        let mut lent = before.clone();
        assert_eq!(abi::ask_into(call, fields, &mut lent).number, number, "{call:?}");
        assert!(lent == before, "changed by refusal {number}, {call:?}");
    }
}

/// "A refusal writes nothing to any lent buffer", whatever stands in them.
#[test]
fn a_refusal_leaves_every_number_as_it_was() {
    for (number, fields) in refused_values() {
        for call in [Call::Plan, Call::Early(0), Call::Late(0), Call::Early(1), Call::Late(1)] {
            keeps_all(call, &fields, LONGEST_DAY.into(), number);
        }
    }
}

/// The same of 13 and 11, of a list that would be planned and of lists that would not.
#[test]
fn a_wrong_place_or_a_short_buffer_leaves_every_number_as_it_was() {
    let days = refused_days().into_iter().map(|(_, day)| day).chain(planned_days());
    for day in days.filter(|day| day.h > 1) {
        let (fields, n) = (flat::of_day(&day), day.entries.len() as u64);
        for (number, room, calls) in [
            (13, day.h + 1, vec![Call::Early(n), Call::Late(n)]),
            (13, day.h - 1, vec![Call::Early(n), Call::Late(n)]),
            (11, day.h - 1, calls(day.entries.len())),
        ] {
            calls.into_iter().for_each(|call| keeps_all(call, &fields, room.into(), number));
        }
    }
}

/// The answer does not depend on what was in the buffers.
#[test]
fn whatever_the_buffers_held_the_answer_is_the_same() {
    for day in planned_days() {
        let (fields, h) = (flat::of_day(&day), usize::from(day.h));
        for call in calls(day.entries.len()) {
            let (answer, wanted) = abi::ask(call, &fields, h);
            assert_eq!(answer.number, 0, "{call:?} of {day:?}");
            for before in contents(h + 2) {
                let mut lent = before.clone();
                assert_eq!(abi::ask_into(call, &fields, &mut lent), answer, "{call:?} of {day:?}");
                assert_eq!(lent.plan[..h], wanted.plan, "{call:?} of {day:?}");
                assert_eq!(lent.plan[h..], before.plan[h..], "{call:?} of {day:?}");
                assert!(lent.narrowed == wanted.narrowed, "{call:?} of {day:?}");
                let bounds = if call == Call::Plan { wanted.bounds } else { before.bounds };
                assert!(lent.bounds == bounds, "{call:?} of {day:?}");
            }
        }
    }
}

/// Every byte value is kept after H, those of places and 255 too.
#[test]
fn any_byte_after_h_is_kept() {
    let fields = flat::of_day(&boxes(6, "p[1,5)2 p[0,6)3"));
    for (call, minutes) in
        [(Call::Plan, "1 0 0 1 1 -"), (Call::Early(1), "1 1 1 0 0 -"), (Call::Late(0), "- 1 1 0 0 1")]
    {
        for byte in 0..=u8::MAX {
            let mut lent = Lent { plan: vec![byte; 9], ..Lent::untouched(0) };
            assert_eq!(abi::ask_into(call, &fields, &mut lent).number, 0);
            assert_eq!(lent.plan, [plan(minutes), vec![byte; 3]].concat(), "{call:?} over {byte}");
        }
    }
}

/// One plan over the other, in the same buffers.
#[test]
fn calls_one_after_the_other_in_the_same_buffers() {
    let mut random = Random::new(141);
    let mut lent = Lent::untouched(40);
    let mut kept = 0;
    for _ in 0..2_000 {
        let day = random::mixed_day(&mut random, 40, 6);
        let call = random.pick(&calls(day.entries.len().max(1)));
        let (wanted, asked) = ask(call, &flat::of_day(&day), 40);
        let before = lent.clone();
        assert_eq!(abi::ask_into(call, &flat::of_day(&day), &mut lent), wanted, "{call:?} of {day:?}");
        if wanted.number > 0 {
            assert!(lent == before, "{call:?} of {day:?}");
            kept += 1;
            continue;
        }
        let h = usize::from(day.h);
        assert_eq!(lent.plan[..h], asked.plan[..h], "{call:?} of {day:?}");
        assert_eq!(lent.plan[h..], before.plan[h..], "{call:?} of {day:?}");
        assert!(lent.narrowed == asked.narrowed, "{call:?} of {day:?}");
        assert!(lent.bounds == if call == Call::Plan { asked.bounds } else { before.bounds }, "{day:?}");
    }
    assert!(kept > 200, "{kept} refusals");
}

/// From place n on the narrowed list and the bounds have zeros, whatever the given list has there.
#[test]
fn from_place_n_on_there_are_zeros() {
    for n in [0, 1, 2, 10, 63, 64] {
        let entries = Vec::from_iter((0..n).map(|place| (place, LONGEST_DAY - place, 1 + place % 3)));
        let mut fields = flat::of_day(&samples::windows(LONGEST_DAY, &entries));
        let used = usize::from(n);
        fields[flat::at(used)..].fill(7);
        let (answer, lent) = abi::ask(Call::Plan, &fields, LONGEST_DAY.into());
        assert_eq!(answer.number, 0, "{n} entries");
        assert!(lent.narrowed[flat::at(used)..].iter().all(|&number| number == 0), "{n} entries");
        for bounds in lent.bounds.chunks(MOST_ENTRIES) {
            assert!(bounds[used..].iter().all(|&bound| bound == 0), "bounds of {n} entries");
        }
        assert!(lent.bounds[..used].iter().all(|&end| end > 0), "least ends of {n} entries");
    }
}
