//! A wrong reading of document 02's "find each start and end by the edge-finding of source documents 002 and 004 where it
//! gives the defined least and greatest": one pass of it. It goes over each right end once and looks from the start with
//! which it began; the start that it leads to may have no plan either. Repeated until it stays it gives the least start.

use dock_tests::abi::Call;
use dock_tests::check_bounds::{asked, refused};
use dock_tests::check_narrow::{by_trying_everything, no_place, rounds_leave, settled};
use dock_tests::day::{Day, Entry};
use dock_tests::samples::boxes;
use dock_tests::{brute, flat, mirror, overload, small};

/// One pass for the entry at a place, from this start on. If the minutes of [a, b), and those from the start to a, are
/// too few for the others inside [a, b) and this entry, it begins when those others may have ended.
fn one_pass(day: &Day, place: usize, start: u16) -> u16 {
    let p = u64::from(day.entries[place].p);
    let mut others = day.clone();
    others.entries.remove(place);
    let mut found = start;
    for (a, b) in others.entries.iter().flat_map(|first| others.entries.iter().map(|last| (first.r, last.d)))
    {
        let work = overload::work(&others, a, b);
        if work > 0 && u64::from(b) < u64::from(a.min(start)) + work + p {
            found = found.max(a + work as u16);
        }
    }
    found
}

/// Passes from the entry's r on, each from where the last one led, until one stays there or the window is used up.
fn repeated(day: &Day, place: usize) -> Option<u16> {
    let Entry { r, d, p, .. } = day.entries[place];
    let mut start = r;
    while start + p <= d {
        let next = one_pass(day, place, start);
        if next == start {
            return Some(start);
        }
        start = next;
    }
    None
}

/// Whether some plan has the entry at a place in one piece from this start on.
fn may_start(day: &Day, place: usize, start: u16) -> bool {
    let mut day = day.clone();
    let entry = &mut day.entries[place];
    (entry.r, entry.d) = (start, start + entry.p);
    brute::has_plan(&day)
}

/// The least start is 4, and one pass gives 2, where minute 3 is in the way.
#[test]
fn one_pass_for_a_start() {
    let day = boxes(6, "w[0,6)2 p[1,2)1 p[3,4)1");
    rounds_leave(&day, &[("w[4,6)2 p[1,2)1 p[3,4)1", 1), ("w[4,6)2 p[1,2)1 p[3,4)1", 0)]);
    assert_eq!(by_trying_everything(&day).values, [1, 0, 0]);
    assert_eq!(asked(Call::Early(0), &day).0.values, [1, 6, 0]);

    assert_eq!(one_pass(&day, 0, 0), 2);
    assert!(!may_start(&day, 0, 2), "no plan begins there");
    assert_eq!(repeated(&day, 0), Some(4));
}

/// There is no start at all, and one pass gives 2.
#[test]
fn one_pass_where_there_is_no_start() {
    let day = boxes(4, "w[0,4)2 p[1,2)1 p[3,4)1");
    assert_eq!(no_place(&day), 0);
    assert_eq!(by_trying_everything(&day).number, 10);
    refused(Call::Plan, &flat::of_day(&day), 4, 10, 0);

    assert_eq!(one_pass(&day, 0, 0), 2);
    assert!(!may_start(&day, 0, 2), "no plan begins there");
    assert_eq!(repeated(&day, 0), None);
}

/// The mirror: the greatest end is 2, and one pass gives 4.
#[test]
fn one_pass_for_an_end() {
    let day = boxes(6, "w[0,6)2 p[2,3)1 p[4,5)1");
    assert_eq!(settled(&day), (boxes(6, "w[0,2)2 p[2,3)1 p[4,5)1"), 1));

    assert_eq!(6 - one_pass(&mirror::day(&day), 0, 0), 4);
    assert_eq!(repeated(&mirror::day(&day), 0), Some(4));
}

/// On all days of at most 5 minutes and 3 entries that have a plan, passes until one stays give the least start. One
/// pass alone is wrong on few of them.
#[test]
fn passes_until_one_stays() {
    let (mut held, mut wrong) = (0, 0);
    for day in small::pause_days_up_to(5, 3).filter(brute::has_plan) {
        for place in 0..day.entries.len() {
            let Entry { r, d, p, .. } = day.entries[place];
            let least = (r..=d - p).find(|&start| may_start(&day, place, start));
            assert_eq!(repeated(&day, place), least, "{place} of {day:?}");
            held += 1;
            let once = Some(one_pass(&day, place, r)).filter(|start| start + p <= d);
            wrong += usize::from(once != least);
        }
    }
    assert!(held > 10_000 && wrong > 0 && wrong < held / 100, "{wrong} of {held}");
}
