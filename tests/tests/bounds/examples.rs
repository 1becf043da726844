//! Document 01's examples through the calls that plan: windows, moves, bounds, every minute, and both plans
//! of every place; its sample input with the numbers of its report; and days on which a rule is easily taken
//! for another.

use dock_tests::abi::{self, Call};
use dock_tests::check_bounds::{ask_all, asked, by_trying_everything, calls};
use dock_tests::check_narrow::with_windows;
use dock_tests::day::{Day, MOST_ENTRIES};
use dock_tests::flat::{self, Fields};
use dock_tests::samples::{self, boxes, hex, plan, with_serials};
use dock_tests::settled::windows_of;

/// What planning says of a list: its settled windows in short, the moves and the broken entries, the least
/// end and greatest start of each place, and the minutes.
struct Says<'a> {
    windows: &'a str,
    moves: u64,
    broken: u64,
    ends: &'a [u32],
    starts: &'a [u32],
    plan: &'a str,
}

/// Planning this day says so, and all calls agree with both ways to check them.
#[track_caller]
fn planned(day: &Day, says: Says) {
    assert_eq!(by_trying_everything(day), 0, "{day:?}");
    ask_all(day);
    let (answer, lent) = abi::ask(Call::Plan, &flat::of_day(day), day.h.into());
    assert_eq!((answer.number, answer.values), (0, [says.moves, says.broken, 0]), "{day:?}");
    let settled = with_windows(day, &windows_of(&boxes(day.h, says.windows)));
    assert!(lent.narrowed == flat::of_day(&settled), "windows of {day:?}");
    assert_eq!(lent.plan, plan(says.plan), "plan of {day:?}");
    let n = day.entries.len();
    assert_eq!((says.ends.len(), says.starts.len()), (n, n));
    assert_eq!(lent.bounds[..n], *says.ends, "least ends of {day:?}");
    assert_eq!(lent.bounds[MOST_ENTRIES..][..n], *says.starts, "greatest starts of {day:?}");
}

/// The early and the late plan of this place are these.
#[track_caller]
fn shown(day: &Day, place: u64, early: &str, late: &str) {
    assert_eq!(asked(Call::Early(place), day).1.plan, plan(early), "early plan of {place} of {day:?}");
    assert_eq!(asked(Call::Late(place), day).1.plan, plan(late), "late plan of {place} of {day:?}");
}

/// All calls refuse this day so.
#[track_caller]
fn refused(day: &Day, number: u64, values: [u64; 3]) {
    assert_eq!(by_trying_everything(day), number);
    for call in calls(day.entries.len()) {
        let (answer, _) = abi::ask(call, &flat::of_day(day), day.h.into());
        assert_eq!((answer.number, answer.values), (number, values), "{call:?} of {day:?}");
    }
}

/// "(a) both whole, H 4, [0,3) p 2 and [0,4) p 2: settled [0,2) and [2,4)", with 2 moves in all.
#[test]
fn example_a() {
    let day = boxes(4, "w[0,3)2 w[0,4)2");
    let windows = "w[0,2)2 w[2,4)2";
    let says = Says { windows, moves: 2, broken: 0, ends: &[2, 4], starts: &[0, 2], plan: "0 0 1 1" };
    planned(&day, says);
    shown(&day, 0, "0 0 1 1", "0 0 1 1");
    shown(&day, 1, "0 0 1 1", "0 0 1 1");
}

/// "(b) the same, second entry pause: no move; its least end is 4, greatest start 2."
#[test]
fn example_b() {
    let day = boxes(4, "w[0,3)2 p[0,4)2");
    let windows = "w[0,3)2 p[0,4)2";
    let says = Says { windows, moves: 0, broken: 0, ends: &[2, 4], starts: &[1, 2], plan: "0 0 1 1" };
    planned(&day, says);
    shown(&day, 0, "0 0 1 1", "1 0 0 1");
    shown(&day, 1, "0 0 1 1", "0 0 1 1");
}

/// "(c) H 10, [2,5) p 2 twice: 9, from 2 to 5, work 4. With p 2 and 1: accepted." The shorter one goes first.
#[test]
fn example_c() {
    refused(&boxes(10, "p[2,5)2 p[2,5)2"), 9, [2, 5, 4]);
    let day = boxes(10, "p[2,5)2 p[2,5)1");
    let says = Says {
        windows: "p[2,5)2 p[2,5)1",
        moves: 0,
        broken: 0,
        ends: &[4, 3],
        starts: &[3, 4],
        plan: "- - 1 0 0 - - - - -",
    };
    planned(&day, says);
    shown(&day, 0, "- - 0 0 1 - - - - -", "- - 1 0 0 - - - - -");
    shown(&day, 1, "- - 1 0 0 - - - - -", "- - 0 0 1 - - - - -");
}

/// "(d) H 4, [0,4) p 2, [2,4) p 2, [2,4) p 1: 9, from 2 to 4, work 3."
#[test]
fn example_d() {
    refused(&boxes(4, "p[0,4)2 p[2,4)2 p[2,4)1"), 9, [2, 4, 3]);
}

/// "(e) H 6, whole [0,6) p 3, pause [2,4) p 2: 10, entry 0."
#[test]
fn example_e() {
    refused(&boxes(6, "w[0,6)3 p[2,4)2"), 10, [0, 0, 0]);
    refused(&boxes(6, "p[2,4)2 w[0,6)3"), 10, [1, 0, 0]);
}

/// "(f) H 6, pause [1,6) p 2, pause [0,6) p 3: place 1 has minutes 0 to 2, place 0 has 3 and 4."
#[test]
fn example_f() {
    let day = boxes(6, "p[1,6)2 p[0,6)3");
    let says = Says {
        windows: "p[1,6)2 p[0,6)3",
        moves: 0,
        broken: 0,
        ends: &[3, 3],
        starts: &[4, 3],
        plan: "1 1 1 0 0 -",
    };
    planned(&day, says);
    shown(&day, 0, "1 0 0 1 1 -", "- 1 1 1 0 0");
    shown(&day, 1, "1 1 1 0 0 -", "- 0 0 1 1 1");
}

/// "(g) as (f), place 0 with d 5: place 1 at 0, place 0 at 1 and 2, place 1 at 3 and 4."
#[test]
fn example_g() {
    let day = boxes(6, "p[1,5)2 p[0,6)3");
    let says = Says {
        windows: "p[1,5)2 p[0,6)3",
        moves: 0,
        broken: 0,
        ends: &[3, 3],
        starts: &[3, 3],
        plan: "1 0 0 1 1 -",
    };
    planned(&day, says);
    shown(&day, 0, "1 0 0 1 1 -", "- 1 1 0 0 1");
    shown(&day, 1, "1 1 1 0 0 -", "- 0 0 1 1 1");
}

/// "(h) `01 00 00`: accepted, one idle minute."
#[test]
fn example_h_from_its_bytes() {
    let (answer, fields) = abi::read(&hex("01 00 00"));
    assert_eq!(answer.number, 0);
    let (answer, lent) = abi::ask(Call::Plan, &fields, 1);
    assert_eq!((answer.number, answer.values), (0, [0, 0, 0]));
    assert_eq!(lent.plan, [255]);
    assert!(lent.narrowed == fields, "the empty list stays as it is");
    assert_eq!(lent.bounds, [0; 2 * MOST_ENTRIES]);
}

/// The sample input as fields.
fn sample() -> Fields {
    let (answer, fields) = abi::read(&samples::document());
    assert_eq!(answer.number, 0);
    fields
}

/// `day 12 entries 3 moves 1 broken 0`; of place 0 `0 12 4 9 8`, of place 1 `5 8 3 8 5`, of place 2 `3 6 2 5
/// 3`; then `0 3 0`, `3 5 2`, `5 8 1`, `8 9 0`.
#[test]
fn the_sample_input_has_the_numbers_of_its_report() {
    let (answer, lent) = abi::ask(Call::Plan, &sample(), 12);
    assert_eq!((answer.number, answer.values), (0, [1, 0, 0]));
    assert_eq!(lent.narrowed[..3], [12, 3, 0]);
    assert_eq!(lent.narrowed[3..10], [501, 0, 0, 0, 12, 4, 0]);
    assert_eq!(lent.narrowed[10..17], [502, 1, 77, 5, 8, 3, 1]);
    assert_eq!(lent.narrowed[17..24], [503, 1, 78, 3, 6, 2, 0]);
    assert!(lent.narrowed[24..].iter().all(|&number| number == 0), "zeros after the list");
    assert_eq!(lent.bounds[..4], [9, 8, 5, 0]);
    assert_eq!(lent.bounds[MOST_ENTRIES..][..4], [8, 5, 3, 0]);
    assert_eq!(lent.plan, plan("0 0 0 2 2 1 1 1 0 - - -"));
}

/// Both plans of every place of the sample input. The whole entry has [5, 8) in all of them.
#[test]
fn the_plans_shown_of_the_sample_input() {
    for (place, bounds, early, late) in [
        (0, [9, 8], "0 0 0 2 2 1 1 1 0 - - -", "- - - 2 2 1 1 1 0 0 0 0"),
        (1, [8, 5], "0 0 0 2 2 1 1 1 0 - - -", "- - - 2 2 1 1 1 0 0 0 0"),
        (2, [5, 3], "0 0 0 2 2 1 1 1 0 - - -", "- - - 2 2 1 1 1 0 0 0 0"),
    ] {
        let (answer, lent) = abi::ask(Call::Early(place), &sample(), 12);
        assert_eq!((answer.number, answer.values), (0, [1, bounds[0], 0]), "early, place {place}");
        assert_eq!(lent.plan, plan(early), "early, place {place}");
        let (answer, lent) = abi::ask(Call::Late(place), &sample(), 12);
        assert_eq!((answer.number, answer.values), (0, [1, bounds[1], 0]), "late, place {place}");
        assert_eq!(lent.plan, plan(late), "late, place {place}");
    }
}

/// The plan that a call gives a day.
#[track_caller]
fn gives(call: Call, h: u16, entries: &str, minutes: &str) {
    assert_eq!(asked(call, &boxes(h, entries)).1.plan, plan(minutes), "{call:?} of {entries}");
}

/// "The entry that had the minute before": one that was interrupted earlier is not that. It is taken where it has fewer
/// minutes left than the other, and waits where it has more, or as many and a higher place.
#[test]
fn an_interrupted_entry_does_not_go_on() {
    gives(Call::Plan, 9, "p[0,9)3 p[0,9)2 p[1,4)2", "1 2 2 1 0 0 0 - -");
    gives(Call::Plan, 6, "p[1,6)2 p[0,6)2 p[1,2)1", "1 2 1 0 0 -");
    gives(Call::Plan, 6, "p[0,6)3 p[1,6)1 p[1,2)1", "0 2 1 0 0 -");
    gives(Call::Plan, 6, "p[1,6)2 p[0,6)3 p[1,2)1", "1 2 0 0 1 1");
}

/// The same rule in an early plan: the fewest minutes left begin; an equal d does not interrupt, though it has fewer;
/// and one that was interrupted does not go on.
#[test]
fn the_tie_rule_of_an_early_plan() {
    gives(Call::Early(2), 4, "p[0,4)2 p[0,4)1 p[0,1)1", "2 1 0 0");
    gives(Call::Early(2), 4, "p[2,4)1 p[0,4)2 p[0,1)1", "2 1 1 0");
    gives(Call::Early(2), 5, "p[2,5)1 p[0,5)3 p[0,1)1", "2 1 1 1 0");
    gives(Call::Early(1), 4, "p[1,4)1 p[1,2)1 p[0,4)2", "2 1 0 2");
}

/// In a late plan the rule is that of the mirrored day: the entry that has the minute after goes on, and the fewest
/// minutes left are those not yet placed from the last minute back.
#[test]
fn the_tie_rule_of_a_late_plan_is_that_of_the_mirror() {
    gives(Call::Late(2), 4, "w[1,4)2 w[1,4)1 w[0,1)1", "2 0 0 1");
    gives(Call::Late(2), 4, "w[1,4)1 w[1,4)2 w[0,1)1", "2 1 1 0");
    gives(Call::Late(2), 3, "p[1,3)1 p[1,3)1 p[0,1)1", "2 1 0");
    // an equal d does not interrupt
    gives(Call::Late(2), 6, "p[0,5)2 p[0,6)3 p[0,1)1", "2 0 0 1 1 1");
    gives(Call::Late(2), 6, "p[0,5)1 p[0,6)3 p[0,1)1", "2 - 0 1 1 1");
    // place 1 was interrupted, and has as many minutes left as place 0, or fewer
    gives(Call::Late(2), 4, "p[0,2)1 p[0,4)2 p[0,3)1", "1 0 2 1");
    gives(Call::Late(2), 6, "p[0,5)2 p[0,6)2 p[4,5)1", "- 0 0 1 2 1");
}

/// The nearly finished box first breaks place 0 of the first day, which the lowest place first would not; and it keeps
/// place 1 of the second day in one piece, which the lowest place first would break.
#[test]
fn the_tie_rule_and_broken_entries() {
    let windows = "w[0,5)2 w[0,5)1 w[2,4)1";
    let (ends, starts) = (&[2, 1, 3], &[3, 4, 3]);
    planned(&boxes(5, windows), Says { windows, moves: 0, broken: 1, ends, starts, plan: "1 0 2 0 -" });
    let windows = "w[1,3)1 w[0,4)2 w[0,4)1";
    let (ends, starts) = (&[2, 2, 1], &[2, 2, 3]);
    planned(&boxes(4, windows), Says { windows, moves: 0, broken: 0, ends, starts, plan: "2 0 1 1" });
}

/// "A plan may break a whole entry", though another plan would not.
#[test]
fn a_plan_may_break_a_whole_entry() {
    let day = boxes(4, "w[0,4)2 w[1,3)1");
    let windows = "w[0,4)2 w[1,3)1";
    let says = Says { windows, moves: 0, broken: 1, ends: &[2, 2], starts: &[2, 2], plan: "0 1 0 -" };
    planned(&day, says);
    let day = boxes(6, "w[0,6)3 p[1,4)1");
    let windows = "w[0,6)3 p[1,4)1";
    let says = Says { windows, moves: 0, broken: 1, ends: &[3, 2], starts: &[3, 3], plan: "0 1 0 0 - -" };
    planned(&day, says);
    shown(&day, 0, "0 0 0 1 - -", "- - 1 0 0 0");
    shown(&day, 1, "0 1 0 0 - -", "- - 0 1 0 0");
}

/// Only whole entries count as broken, each of them once.
#[test]
fn broken_counts_whole_entries_once() {
    let broken = |h, entries| asked(Call::Plan, &boxes(h, entries)).0.values[1];
    assert_eq!(broken(4, "p[0,4)2 w[1,3)1"), 0, "a broken pause entry");
    assert_eq!(broken(9, "w[0,9)3 w[1,5)1 w[3,7)1"), 1, "broken in three pieces");
    assert_eq!(broken(9, "w[0,9)2 w[1,8)2 w[2,4)1"), 2, "one inside the other");
    assert_eq!(broken(9, "w[0,9)2 p[1,8)2 w[2,4)1"), 1, "one of two broken entries is pause");
}

/// The early plan of place 0 breaks place 1, though the day's own plan breaks none.
#[test]
fn an_early_plan_may_break_another_whole_entry() {
    let day = boxes(4, "w[1,4)1 w[0,3)2");
    let windows = "w[1,4)1 w[0,3)2";
    let says = Says { windows, moves: 0, broken: 0, ends: &[2, 2], starts: &[3, 1], plan: "1 1 0 -" };
    planned(&day, says);
    assert_eq!(asked(Call::Early(0), &day).1.plan, plan("1 0 1 -"));
}

/// "a pause entry has its least end and greatest start over all plans", those too that break a whole entry:
/// if place 1 is in one piece, place 0 cannot end before 3.
#[test]
fn bounds_of_a_pause_entry_are_over_all_plans() {
    let day = boxes(4, "p[1,4)1 w[0,3)2");
    let windows = "p[1,4)1 w[0,3)2";
    let says = Says { windows, moves: 0, broken: 0, ends: &[2, 2], starts: &[3, 1], plan: "1 1 0 -" };
    planned(&day, says);
    shown(&day, 0, "1 0 1 -", "- 1 1 0");
}

/// Settled windows without a plan that breaks none: "Finding a plan that keeps every unpausable box in one
/// piece is not part of the base."
#[test]
fn settled_windows_without_an_unbroken_plan_are_planned() {
    let day = boxes(7, "w[0,7)2 w[0,7)2 w[0,7)2 p[3,4)1");
    let says = Says {
        windows: "w[0,7)2 w[0,7)2 w[0,7)2 p[3,4)1",
        moves: 0,
        broken: 1,
        ends: &[2, 2, 2, 4],
        starts: &[5, 5, 5, 3],
        plan: "0 0 1 3 1 2 2",
    };
    planned(&day, says);
}

/// Three minutes in a row begin at 5 at least, behind the block [3, 5); in the mirror they end at 3 at most.
#[test]
fn a_whole_entry_beside_a_block() {
    for (given, settled, ends, starts, minutes) in [
        ("w[1,8)3 p[3,5)2", "w[5,8)3 p[3,5)2", [8, 5], [5, 3], "- - - 1 1 0 0 0"),
        ("w[0,7)3 p[3,5)2", "w[0,3)3 p[3,5)2", [3, 5], [0, 3], "0 0 0 1 1 - - -"),
    ] {
        let day = boxes(8, given);
        let says =
            Says { windows: settled, moves: 1, broken: 0, ends: &ends, starts: &starts, plan: minutes };
        planned(&day, says);
        (0..2).for_each(|place| shown(&day, place, minutes, minutes));
    }
}

/// One serial may stand twice in windows that only touch.
#[test]
fn one_serial_twice() {
    let day = with_serials(boxes(12, "p[0,6)4 w[6,12)5"), &[7, 7]);
    let (early, late) = ("0 0 0 0 - - 1 1 1 1 1 -", "- - 0 0 0 0 - 1 1 1 1 1");
    let windows = "p[0,6)4 w[6,12)5";
    planned(&day, Says { windows, moves: 0, broken: 0, ends: &[4, 11], starts: &[2, 7], plan: early });
    (0..2).for_each(|place| shown(&day, place, early, late));
}

/// In the given windows place 0 could have minutes 0 and 2, and place 2 the last one.
#[test]
fn all_is_said_of_the_settled_windows() {
    let day = boxes(4, "w[0,4)2 p[1,2)1 p[0,4)1");
    let windows = "w[2,4)2 p[1,2)1 p[0,4)1";
    let says = Says { windows, moves: 1, broken: 0, ends: &[4, 2, 1], starts: &[2, 1, 0], plan: "2 1 0 0" };
    planned(&day, says);
    (0..3).for_each(|place| shown(&day, place, "2 1 0 0", "2 1 0 0"));
}
