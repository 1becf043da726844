//! Document 02, "One box in two places", by the calls that plan: 14 before 13, 11, 9 and 10, by the given windows, with
//! nothing written; and the lists of two depots, which are planned whole or turned back.

use dock_tests::abi::{self, Call, Lent};
use dock_tests::check_bounds::{ask, ask_all, asked, by_trying_everything, calls, refused};
use dock_tests::clashes::{self, depot, merged};
use dock_tests::day::{Day, IDLE, MOST_ENTRIES};
use dock_tests::flat::{self, Fields, SIZE};
use dock_tests::samples::{boxes, with_serials};
use dock_tests::{brute, writer};

/// Planning, and both plans of places that the list has and has not.
fn all_calls() -> Vec<Call> {
    let places = [0, 1, 2, 3, 4, 63, 64, 255, 1 << 32, u64::MAX];
    let shown = places.into_iter().flat_map(|place| [Call::Early(place), Call::Late(place)]);
    [Call::Plan].into_iter().chain(shown).collect()
}

/// Every call turns this list back by this place, whatever place is asked for and whatever buffer is lent.
#[track_caller]
fn turned_back(day: &Day, place: usize) {
    let (fields, h) = (flat::of_day(day), usize::from(day.h));
    for call in all_calls() {
        for room in [0, h - 1, h, h + 1] {
            refused(call, &fields, room, 14, place as u64);
        }
    }
}

/// Every pair of windows of 5 minutes and one serial: turned back, or planned as trying everything says.
#[test]
fn every_pair_of_windows_of_one_serial() {
    let mut seen = [0; 2];
    for first in clashes::windows(5) {
        for second in clashes::windows(5) {
            let shared = clashes::share_a_minute(5, first, second);
            let day = clashes::day(5, &[(7, first), (7, second)]);
            if shared {
                turned_back(&day, 1);
            } else {
                assert_eq!(by_trying_everything(&day), 0, "{day:?}");
                ask_all(&day);
            }
            let differ = clashes::day(5, &[(7, first), (8, second)]);
            assert_ne!(ask_all(&differ).0.number, 14, "{differ:?}");
            seen[usize::from(shared)] += 1;
        }
    }
    assert_eq!(seen, [70, 225 - 70]);
}

/// 14 comes before 13, 11, 9 and 10, of the boxes that stand twice or of others.
#[test]
fn before_all_later_rows() {
    for (h, entries, serials, place) in [
        (6, "p[0,6)2 w[0,6)2", &[7, 7][..], 1),
        (6, "p[0,6)6 w[0,6)2", &[7, 7], 1),
        (6, "w[0,6)3 p[2,4)2", &[7, 7], 1),
        (12, "w[0,6)3 p[2,4)2 p[7,9)1 p[8,10)1", &[1, 2, 3, 3], 3),
        (12, "p[0,2)2 w[1,2)1 p[7,9)1 p[8,10)1", &[1, 2, 3, 3], 3),
        (7, "w[0,7)2 p[4,6)1 w[0,7)3 p[1,3)1", &[1, 2, 3, 3], 3),
    ] {
        turned_back(&with_serials(boxes(h, entries), serials), place);
    }
}

/// "given window": example (a) settles to windows that only touch, and is turned back all the same. The windows that it
/// would have are planned.
#[test]
fn the_given_windows_decide_and_not_the_settled_ones() {
    turned_back(&with_serials(boxes(4, "w[0,3)2 w[0,4)2"), &[7, 7]), 1);
    let settled = with_serials(boxes(4, "w[0,2)2 w[2,4)2"), &[7, 7]);
    assert_eq!(asked(Call::Plan, &settled).1.plan, [0, 0, 1, 1]);
    // as given, place 2 shares minute 3 with place 1; settled, it begins at 4
    let day = boxes(8, "p[0,4)3 w[3,4)1 w[2,8)2");
    turned_back(&with_serials(day.clone(), &[6, 7, 7]), 2);
    assert_eq!(asked(Call::Plan, &day).1.narrowed[flat::at(2) + 3], 4, "with serials that differ");
}

/// "A refusal writes nothing to any lent buffer", whatever stands in them.
#[test]
fn everything_lent_stays_as_it_was() {
    let day = with_serials(boxes(12, "p[0,6)4 w[6,9)3 p[8,12)2"), &[7, 8, 8]);
    let fields = flat::of_day(&day);
    for call in all_calls() {
        for room in [0, 11, 12, 13, 2_000] {
            for (byte, number) in [(0, 0), (1, 1), (7, 12), (255, u32::MAX)] {
                let before = Lent {
                    plan: vec![byte; room],
                    narrowed: [number; SIZE],
                    bounds: [number; 2 * MOST_ENTRIES],
                };
                let mut lent = before.clone();
                let answer = abi::ask_into(call, &fields, &mut lent);
                assert_eq!((answer.number, answer.values), (14, [2, 0, 0]), "{call:?} in {room} bytes");
                assert!(lent == before, "changed by {call:?} in {room} bytes");
            }
        }
    }
}

/// An answer that stands in the buffers survives.
#[test]
fn an_earlier_plan_stays() {
    let day = boxes(12, "p[0,6)4 w[6,9)3 p[8,12)2");
    let mut lent = Lent::untouched(12);
    assert_eq!(abi::ask_into(Call::Plan, &flat::of_day(&day), &mut lent).number, 0);
    let planned = lent.clone();
    let twice = flat::of_day(&with_serials(day, &[7, 8, 8]));
    for call in all_calls() {
        assert_eq!(abi::ask_into(call, &twice, &mut lent).number, 14, "{call:?}");
        assert!(lent == planned, "{call:?}");
    }
}

/// Only the first n entries count, and with n over 64 none.
#[test]
fn entries_that_are_not_looked_at() {
    let mut fields = flat::of_day(&with_serials(boxes(12, "p[0,12)4 w[2,8)3 p[3,6)2"), &[7, 8, 7]));
    calls(3).into_iter().for_each(|call| refused(call, &fields, 12, 14, 2));
    fields[1] = 2;
    for call in calls(2) {
        let alone = ask(call, &flat::of_day(&with_serials(boxes(12, "p[0,12)4 w[2,8)3"), &[7, 8])), 12);
        assert_eq!(alone.0.number, 0, "{call:?}");
        assert!(ask(call, &fields, 12) == alone, "{call:?}");
    }
    for n in [65, 255, 256] {
        let mut full: Fields = flat::of_day(&clashes::day(12, &[(7, (0, 12)); MOST_ENTRIES]));
        calls(3).into_iter().for_each(|call| refused(call, &full, 12, 14, 1));
        full[1] = n;
        calls(3).into_iter().for_each(|call| refused(call, &full, 12, 3, 0));
    }
}

/// Plans a list, and has every entry of it in the plan with all its minutes, each in its window, and no minute more.
/// The answered list has all serials and seals in their order.
#[track_caller]
fn nothing_is_dropped(day: &Day) {
    for call in calls(day.entries.len()) {
        let (_, Lent { plan, narrowed, .. }) = asked(call, day);
        assert!(brute::is_plan(day, &plan), "{call:?} of {day:?}");
        let work: usize = day.entries.iter().map(|entry| usize::from(entry.p)).sum();
        assert_eq!(plan.iter().filter(|&&byte| byte != IDLE).count(), work, "{call:?}");
        assert_eq!(narrowed[1] as usize, day.entries.len(), "{call:?}");
        for (place, (entry, kept)) in day.entries.iter().zip(flat::value(&narrowed).places).enumerate() {
            assert_eq!(
                brute::minutes_of(&plan, place).len(),
                usize::from(entry.p),
                "{call:?}, place {place}"
            );
            assert_eq!(
                (entry.serial, entry.seal, entry.p),
                (kept.serial, kept.seal, kept.p),
                "place {place}"
            );
        }
    }
}

/// Two depots of a spring day that number their boxes alike, 85 minutes of work each. In other hours both lists are
/// planned together: eight entries, 170 minutes.
#[test]
fn two_depots_in_other_hours_are_planned_together() {
    let (morning, noon) = (depot(0), depot(120));
    for day in [merged(&[&morning, &noon]), merged(&[&noon, &morning])] {
        let work: u16 = day.entries.iter().map(|entry| entry.p).sum();
        assert_eq!((day.entries.len(), work), (8, 170));
        nothing_is_dropped(&day);
    }
    let all = [0, 120, 240, 360, 480].map(depot);
    let day = merged(&all.iter().collect::<Vec<_>>());
    assert_eq!(day.entries.len(), 20);
    nothing_is_dropped(&day);
}

/// Each half of such a day has the minutes that it has alone.
#[test]
fn two_depots_in_other_hours_do_not_touch_each_other() {
    let (morning, noon) = (depot(0), depot(120));
    let together = asked(Call::Plan, &merged(&[&morning, &noon])).1.plan;
    let alone = [&morning, &noon].map(|day| asked(Call::Plan, day).1.plan);
    for minute in 0..600 {
        let wanted = match (alone[0][minute], alone[1][minute]) {
            (IDLE, IDLE) => IDLE,
            (place, IDLE) => place,
            (IDLE, place) => place + 4,
            both => panic!("{both:?} at {minute}"),
        };
        assert_eq!(together[minute], wanted, "minute {minute}");
    }
}

/// In the same hours the list is turned back by the first box that stands twice, in the order of the list.
#[test]
fn two_depots_in_the_same_hours_are_turned_back() {
    let (one, other) = (depot(0), depot(60));
    nothing_is_dropped(&one);
    nothing_is_dropped(&other);
    turned_back(&merged(&[&one, &other]), 4);
    turned_back(&merged(&[&other, &one]), 4);
    turned_back(&merged(&[&one, &one]), 4);
    let mut last = merged(&[&one, &other]);
    last.entries.rotate_left(5); // the second box of the other depot comes first, and its first box last
    turned_back(&last, 7);
    // from bytes the map of that entry is told, after entries of 15, 11, 15, 9, 15, 11 and 15 bytes
    let (answer, _) = abi::read(&writer::form(&last));
    assert_eq!((answer.number, answer.values), (14, [3 + 91, 0, 0]));
    last.entries.truncate(7);
    nothing_is_dropped(&last);
}
