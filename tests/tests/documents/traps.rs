//! Document 01's traps, each with a day on which the trap's way gives another answer than the rules: "keying
//! entries by serial; letting an equal d interrupt; stopping after one round, which fails (a); taking the
//! timetable rule of document 004, which gives least end 3 in (b); seeking the least start by halving".

use crate::tie_traps::smallest_first;
use dock_tests::abi::{self, Call};
use dock_tests::check::planned;
use dock_tests::check_bounds::asked;
use dock_tests::check_narrow::{by_trying_everything, rounds_leave, settled};
use dock_tests::check_report::report;
use dock_tests::day::{Day, Entry};
use dock_tests::samples::{boxes, plan, windows, with_serials};
use dock_tests::settled::{windows_of, Plans};
use dock_tests::{brute, flat, mirror, narrow, writer};
use std::collections::BTreeMap;

/// The entries by serial: of two with one serial the last is kept.
fn keyed_by_serial(day: &Day) -> Day {
    let by_serial: BTreeMap<u32, Entry> =
        day.entries.iter().map(|entry| (entry.serial, entry.clone())).collect();
    Day { h: day.h, opening: day.opening, entries: by_serial.into_values().collect() }
}

/// "The same serial may stand twice", in windows that share no minute (document 02). Where they share one the list is
/// turned back, and a box that was dropped in silence would not show it.
#[test]
fn keying_entries_by_serial() {
    let day = with_serials(windows(9, &[(0, 4, 3), (4, 9, 2)]), &[7, 7]);
    assert_eq!(planned(&day), plan("0 0 0 - 1 1 - - -"));
    let right = report(&writer::form(&day));
    assert!(right.starts_with("day 9 entries 2 "), "{right}");

    let trapped = keyed_by_serial(&day);
    assert_eq!(planned(&trapped), plan("- - - - 0 0 - - -"), "the first entry is gone");

    let twice = with_serials(windows(9, &[(0, 9, 3), (2, 6, 2)]), &[7, 7]);
    assert_eq!(report(&writer::form(&twice)), "refused 14 at 10\n");
    let trapped = keyed_by_serial(&twice);
    assert_eq!(planned(&trapped), plan("- - 0 0 - - - - -"), "one of two is planned, and nobody is told");

    let differ = with_serials(day, &[7, 8]);
    assert_eq!(keyed_by_serial(&differ), differ, "serials that differ would not tell");
}

/// Each minute goes to the smallest d, of equals to the one with the fewest minutes left, then the lowest place
/// (document 02), whoever had the minute before.
fn interrupted_by_an_equal_d(day: &Day) -> Vec<u8> {
    smallest_first(day, |ready| (ready.entry.d, ready.left, ready.place))
}

/// Example (f), where the equal d has a lower place and as many minutes left, and a day in which two entries with fewer
/// minutes left come one after the other.
#[test]
fn letting_an_equal_d_interrupt() {
    let day = windows(6, &[(1, 6, 2), (0, 6, 3)]);
    assert_eq!(planned(&day), plan("1 1 1 0 0 -"));
    assert_eq!(interrupted_by_an_equal_d(&day), plan("1 0 0 1 1 -"));

    let day = windows(6, &[(1, 6, 1), (2, 6, 1), (0, 6, 4)]);
    assert_eq!(planned(&day), plan("2 2 2 2 0 1"));
    assert_eq!(interrupted_by_an_equal_d(&day), plan("2 0 1 2 2 2"));
}

/// Example (a): round one leaves place 0 as it was, and only round two narrows it.
#[test]
fn stopping_after_one_round() {
    let day = boxes(4, "w[0,3)2 w[0,4)2");
    assert_eq!(settled(&day), (boxes(4, "w[0,2)2 w[2,4)2"), 2));

    let trapped = narrow::one_round(&day).expect("a round");
    assert_eq!((&trapped.day, trapped.moves), (&boxes(4, "w[0,3)2 w[2,4)2"), 1));
    assert!(!Plans::of(&day).is_settled(&windows_of(&trapped.day)), "windows that are not settled");
}

/// A whole entry has the minutes from its latest start to its earliest end for sure. The first p minutes that
/// are not taken so are a pause entry's, so that its end is the last of them plus 1.
fn end_by_the_timetable(day: &Day, place: usize) -> u16 {
    let Entry { r, d, p, .. } = day.entries[place];
    let sure =
        |entry: &Entry, minute| entry.whole && (entry.d - entry.p..entry.r + entry.p).contains(&minute);
    let free = |&minute: &u16| !day.entries.iter().any(|entry| sure(entry, minute));
    (r..d).filter(free).nth(usize::from(p) - 1).expect("p free minutes") + 1
}

/// Example (b): minute 1 is the only one that place 0 has in any case, and minutes 0 and 2 are not both free
/// beside it. Then its mirror.
#[test]
fn taking_the_timetable_rule() {
    let day = boxes(4, "w[0,3)2 p[0,4)2");
    assert_eq!(asked(Call::Early(1), &day).0.values, [0, 4, 0]);
    assert_eq!(end_by_the_timetable(&day, 1), 3);

    let mirrored = boxes(4, "p[0,4)2 w[1,4)2");
    assert_eq!(asked(Call::Late(0), &mirrored).0.values, [0, 0, 0]);
    assert_eq!(4 - end_by_the_timetable(&mirror::day(&mirrored), 0), 1);
}

/// Whether a plan exists when the entry at place 0 has the p minutes from `start` on as its window.
fn may_start(day: &Day, start: u16) -> bool {
    let mut day = day.clone();
    day.entries[0].r = start;
    day.entries[0].d = start + day.entries[0].p;
    brute::has_plan(&day)
}

/// The least start of place 0, if all starts after one that has a plan had one too.
fn least_start_by_halving(day: &Day) -> u16 {
    let (mut low, mut high) = (day.entries[0].r, day.entries[0].d - day.entries[0].p);
    while low < high {
        let middle = (low + high) / 2;
        if may_start(day, middle) {
            high = middle;
        } else {
            low = middle + 1;
        }
    }
    low
}

/// "with pause [3,5) p 2 a whole p 3 may start at 0, not at 1 to 4, and again at 5". Halving tries 2 first,
/// finds no plan, and never sees 0.
#[test]
fn seeking_the_least_start_by_halving() {
    let day = boxes(8, "w[0,8)3 p[3,5)2");
    for start in 0..=5 {
        let fixed = boxes(8, &format!("w[{start},{})3 p[3,5)2", start + 3));
        assert_eq!(may_start(&day, start), [0, 5].contains(&start), "start {start}");
        assert_eq!(abi::overload(&flat::of_day(&fixed)).number == 0, may_start(&day, start), "start {start}");
    }
    rounds_leave(&day, &[("w[0,8)3 p[3,5)2", 0)]);
    assert_eq!(by_trying_everything(&day).values, [0, 0, 0]);

    assert_eq!(least_start_by_halving(&day), 5);
}
