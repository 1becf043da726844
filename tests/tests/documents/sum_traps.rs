//! Wrong ways to keep the sum of document 02's "Adding up the same boxes again", each with a day on which it shows
//! another interval, or another work, than document 01 names: "while the left end walks down for a fixed right end,
//! keep the sum so far and add the boxes that enter. .. The interval shown is the one document 01 names." Where `differs`
//! is used, it is the first such day, by minutes, then by entries, in the order of `small::days`.

use dock_tests::check;
use dock_tests::day::{Day, Entry, Interval, LONGEST_DAY};
use dock_tests::flat::{self, Fields};
use dock_tests::samples::{boxes, windows};
use dock_tests::{overload as document, small};
use std::cmp::Reverse;

/// A left end, and the minutes that enter there.
type LeftEnd = (u16, u64);

/// A way to walk and to add. A trap is one that differs from the right way in one of these.
#[derive(Clone, Copy)]
struct Way {
    /// The right ends, in the order in which they are tried.
    right_ends: fn(&Day) -> Vec<u16>,
    /// The boxes, in the order in which the left end meets them.
    order: fn(&Day) -> Vec<&Entry>,
    /// Whether a box that is met enters, for this right end.
    enters: fn(&Entry, u16) -> bool,
    /// The left ends that are tested for this right end, if each box that is met gives one.
    tested: fn(&[LeftEnd], u16) -> Vec<LeftEnd>,
    /// The sum with which a right end begins, if this was the sum before.
    begins: fn(u64) -> u64,
    /// The sum with so many minutes more.
    plus: fn(u64, u64) -> u64,
    /// The interval shown, of all those of a right end with the sums kept.
    shown: fn(&[Interval]) -> Option<Interval>,
}

/// The right way.
const RIGHT: Way = Way {
    right_ends: |day| day.entries.iter().map(|entry| entry.d).collect(),
    order: |day| by_key(&day.entries, |entry| Reverse(entry.r)),
    enters: |entry, b| entry.d <= b,
    tested: |met, b| together(&below(met, b)),
    begins: |_| 0,
    plus: |sum, more| sum + more,
    shown: |kept| kept.iter().copied().find(is_overloaded),
};

/// The boxes with the smallest key first, and of equals the lowest place.
fn by_key<K: Ord>(entries: &[Entry], key: fn(&Entry) -> K) -> Vec<&Entry> {
    let mut all: Vec<_> = entries.iter().collect();
    all.sort_by_key(|entry| key(entry));
    all
}

/// "With a below b .. other pairs are no intervals."
fn below(met: &[LeftEnd], b: u16) -> Vec<LeftEnd> {
    met.iter().copied().filter(|&(a, _)| a < b).collect()
}

/// Neighbours with the same left end as one, with the minutes of all of them.
fn together(met: &[LeftEnd]) -> Vec<LeftEnd> {
    let groups = met.chunk_by(|one, next| one.0 == next.0);
    groups.map(|group| (group[0].0, group.iter().map(|&(_, more)| more).sum())).collect()
}

/// "overloaded if the work exceeds b - a", which is below 0 where a is not below b.
fn is_overloaded(kept: &Interval) -> bool {
    kept.work as i64 > i64::from(kept.b) - i64::from(kept.a)
}

/// What this way shows of a day: of the right ends that show an interval, the smallest counts.
fn by_way(way: &Way, day: &Day) -> Option<Interval> {
    let mut sum = 0;
    let mut shown = vec![];
    for b in (way.right_ends)(day) {
        sum = (way.begins)(sum);
        let minutes = |entry: &Entry| if (way.enters)(entry, b) { u64::from(entry.p) } else { 0 };
        let met: Vec<_> = (way.order)(day).into_iter().map(|entry| (entry.r, minutes(entry))).collect();
        let mut kept = vec![];
        for (a, more) in (way.tested)(&met, b) {
            sum = (way.plus)(sum, more);
            kept.push(Interval { a, b, work: sum });
        }
        shown.extend((way.shown)(&kept));
    }
    shown.into_iter().min_by_key(|interval| interval.b)
}

/// The first day of at most 4 minutes and 4 entries on which this way is wrong.
fn first_wrong(way: &Way) -> Option<Day> {
    small::pause_days_up_to(4, 4).find(|day| by_way(way, day) != document::shown(day))
}

/// a, b and the work of an interval shown.
type Shown = Option<(u16, u16, u64)>;

fn numbers(interval: Option<Interval>) -> Shown {
    interval.map(|Interval { a, b, work }| (a, b, work))
}

/// The first of these, or none, is what document 01 names of this day and the library shows, the second what the trap's
/// way shows.
#[track_caller]
fn differs_on(day: &Day, way: &Way, right: Shown, wrong: Shown) {
    assert_eq!(numbers(check::shown(day)), right, "{day:?}");
    assert_eq!(numbers(by_way(way, day)), wrong, "{day:?} by the trap's way");
    assert_ne!(right, wrong);
}

/// The same of this day, which is the first small one on which this way is wrong.
#[track_caller]
fn differs(way: Way, h: u16, entries: &str, right: Shown, wrong: Shown) {
    let day = boxes(h, entries);
    assert_eq!(first_wrong(&way).as_ref(), Some(&day), "the first day on which the trap's way is wrong");
    differs_on(&day, &way, right, wrong);
}

/// The right way is right on all small days, so that only what a trap changes makes it one.
#[test]
fn only_what_is_changed_makes_a_trap() {
    assert_eq!(first_wrong(&RIGHT), None);
}

/// A left end at which nothing enters is never shown: the next larger one has the same work in fewer minutes. So it may
/// be passed over. Right ends may be tried in any order, and twice.
#[test]
fn what_makes_no_difference() {
    let ways = [
        Way {
            tested: |met, b| together(&below(met, b)).into_iter().filter(|end| end.1 > 0).collect(),
            ..RIGHT
        },
        Way { right_ends: rising, ..RIGHT },
        Way { right_ends: |day| rising(day).into_iter().rev().collect(), ..RIGHT },
        Way { right_ends: |day| (RIGHT.right_ends)(day).repeat(2), ..RIGHT },
    ];
    for (number, way) in ways.iter().enumerate() {
        assert_eq!(first_wrong(way), None, "way {number}");
    }
}

/// The right ends from the smallest up, each once.
fn rising(day: &Day) -> Vec<u16> {
    let mut all = (RIGHT.right_ends)(day);
    all.sort_unstable();
    all.dedup();
    all
}

#[test]
fn a_box_that_ends_with_the_interval_not_added() {
    let way = Way { enters: |entry, b| entry.d < b, ..RIGHT };
    differs(way, 1, "p[0,1)1 p[0,1)1", Some((0, 1, 2)), None);
}

#[test]
fn a_box_that_ends_after_the_interval_added() {
    let way = Way { enters: |_, _| true, ..RIGHT };
    differs(way, 2, "p[0,2)1 p[0,1)1", None, Some((0, 1, 2)));
}

/// The minutes of the last right end are in the sum of the next, whichever of the two is tried first.
#[test]
fn the_sum_not_started_anew_for_the_next_right_end() {
    let way = Way { begins: |sum| sum, ..RIGHT };
    differs(way, 2, "p[0,2)1 p[0,1)1", None, Some((0, 1, 3)));
    let way = Way { right_ends: rising, ..way };
    differs(way, 2, "p[0,2)1 p[0,1)1", None, Some((0, 2, 3)));
}

#[test]
fn the_sum_started_anew_at_each_left_end() {
    let way = Way { plus: |_, more| more, ..RIGHT };
    differs(way, 2, "p[1,2)1 p[0,2)2", Some((0, 2, 3)), None);
}

/// The left end is tested before the boxes that enter there are added.
#[test]
fn a_box_added_one_left_end_too_late() {
    fn late(met: &[LeftEnd], b: u16) -> Vec<LeftEnd> {
        let right = (RIGHT.tested)(met, b);
        let before = [0].into_iter().chain(right.iter().map(|&(_, more)| more));
        right.iter().zip(before).map(|(&(a, _), more)| (a, more)).collect()
    }
    let way = Way { tested: late, ..RIGHT };
    differs(way, 1, "p[0,1)1 p[0,1)1", Some((0, 1, 2)), None);
}

/// Of three boxes with one r the first two are too much already. The interval is right, and its work is not.
#[test]
fn a_test_after_each_of_several_boxes_with_one_r() {
    let way = Way { tested: below, ..RIGHT };
    differs(way, 1, "p[0,1)1 p[0,1)1 p[0,1)1", Some((0, 1, 3)), Some((0, 1, 2)));
}

#[test]
fn one_box_added_of_several_with_one_r() {
    fn first(met: &[LeftEnd], b: u16) -> Vec<LeftEnd> {
        let mut ends = below(met, b);
        ends.dedup_by_key(|end| end.0);
        ends
    }
    let way = Way { tested: first, ..RIGHT };
    differs(way, 1, "p[0,1)1 p[0,1)1", Some((0, 1, 2)), None);
}

/// All are added, and the test at their left end sees the first of them only: a smaller a is shown, or nothing.
#[test]
fn a_test_before_the_others_of_several_boxes_with_one_r() {
    fn early(met: &[LeftEnd], b: u16) -> Vec<LeftEnd> {
        let mut ends: Vec<LeftEnd> = vec![];
        let mut rest = 0;
        for (a, more) in below(met, b) {
            if ends.last().is_some_and(|end| end.0 == a) {
                rest += more;
            } else {
                ends.push((a, rest + more));
                rest = 0;
            }
        }
        ends
    }
    let way = Way { tested: early, ..RIGHT };
    differs(way, 1, "p[0,1)1 p[0,1)1", Some((0, 1, 2)), None);
    let day = boxes(3, "p[1,3)1 p[1,3)2 p[0,2)1");
    differs_on(&day, &way, Some((1, 3, 3)), Some((0, 3, 4)));
}

/// An r that stands twice is a left end twice, and each time all boxes with that r are added.
#[test]
fn several_boxes_with_one_r_added_for_each_of_them() {
    fn twice(met: &[LeftEnd], b: u16) -> Vec<LeftEnd> {
        let sum = |a| met.iter().filter(|end| end.0 == a).map(|end| end.1).sum();
        below(met, b).into_iter().map(|(a, _)| (a, sum(a))).collect()
    }
    let way = Way { tested: twice, ..RIGHT };
    differs(way, 2, "p[0,2)1 p[0,1)1", None, Some((0, 1, 2)));
}

/// For b 2 the left end 1 adds nothing, and the walk must go on to 0.
#[test]
fn a_walk_that_ends_where_nothing_enters() {
    fn until_nothing(met: &[LeftEnd], b: u16) -> Vec<LeftEnd> {
        (RIGHT.tested)(met, b).into_iter().take_while(|end| end.1 > 0).collect()
    }
    let way = Way { tested: until_nothing, ..RIGHT };
    differs(way, 3, "p[1,3)1 p[0,2)2 p[0,1)1", Some((0, 2, 3)), Some((0, 3, 4)));
}

/// The left end 2 is not below b 1: there is no work, and less than no minutes.
#[test]
fn a_left_end_that_is_not_below_the_right_end() {
    let way = Way { tested: |met, _| together(met), ..RIGHT };
    differs(way, 3, "p[2,3)1 p[0,1)1", None, Some((2, 1, 0)));
}

#[test]
fn a_walk_that_shows_the_last_of_its_overloaded_intervals() {
    let way = Way { shown: |kept| kept.iter().copied().rfind(is_overloaded), ..RIGHT };
    differs(way, 2, "p[1,2)1 p[1,2)1 p[0,1)1", Some((1, 2, 2)), Some((0, 2, 3)));
}

/// The walk goes on after the interval that it shows, and so does its sum.
#[test]
fn a_walk_that_shows_the_sum_of_its_end() {
    fn with_last_sum(kept: &[Interval]) -> Option<Interval> {
        Some(Interval { work: kept.last()?.work, ..(RIGHT.shown)(kept)? })
    }
    let way = Way { shown: with_last_sum, ..RIGHT };
    differs(way, 2, "p[1,2)1 p[1,2)1 p[0,1)1", Some((1, 2, 2)), Some((1, 2, 3)));
}

#[test]
fn boxes_met_by_place() {
    let way = Way { order: |day| day.entries.iter().collect(), ..RIGHT };
    differs(way, 2, "p[0,1)1 p[1,2)1", None, Some((1, 2, 2)));
}

#[test]
fn boxes_met_with_the_smallest_r_first() {
    let way = Way { order: |day| by_key(&day.entries, |entry| entry.r), ..RIGHT };
    differs(way, 2, "p[1,2)1 p[0,1)1", None, Some((1, 2, 2)));
}

#[test]
fn boxes_met_with_the_largest_d_first() {
    let way = Way { order: |day| by_key(&day.entries, |entry| Reverse(entry.d)), ..RIGHT };
    differs(way, 2, "p[0,2)1 p[1,2)1", None, Some((1, 2, 2)));
}

/// One pass over the places, which brings the smallest r to the end and leaves others out of order.
#[test]
fn boxes_put_in_order_by_one_pass() {
    fn one_pass(day: &Day) -> Vec<&Entry> {
        let mut order: Vec<_> = day.entries.iter().collect();
        for place in 1..order.len() {
            if order[place - 1].r < order[place].r {
                order.swap(place - 1, place);
            }
        }
        order
    }
    let way = Way { order: one_pass, ..RIGHT };
    differs(way, 2, "p[0,2)1 p[0,1)1 p[1,2)1", Some((0, 2, 3)), Some((1, 2, 2)));
}

#[test]
fn the_last_place_never_met() {
    fn without_last(day: &Day) -> Vec<&Entry> {
        let all_but_one = day.entries.len().saturating_sub(1);
        by_key(&day.entries[..all_but_one], |entry| Reverse(entry.r))
    }
    let way = Way { order: without_last, ..RIGHT };
    differs(way, 1, "p[0,1)1 p[0,1)1", Some((0, 1, 2)), None);
}

/// The low byte of 256 is 0.
#[test]
fn boxes_put_in_order_by_the_low_byte_of_r() {
    let way = Way { order: |day| by_key(&day.entries, |entry| Reverse(entry.r as u8)), ..RIGHT };
    assert_eq!(first_wrong(&way), None, "small days do not tell");
    let day = boxes(300, "p[255,300)1 p[256,300)44");
    differs_on(&day, &way, None, Some((256, 300, 45)));
}

/// 45 boxes of 1,440 minutes and one of 736 have 65,536.
#[test]
fn the_sum_kept_in_16_bits() {
    let way = Way { plus: |sum, more| (sum + more) % 65_536, ..RIGHT };
    let mut entries = vec![(0, 1440, 1440); 45];
    entries.push((704, 1440, 736));
    let day = windows(LONGEST_DAY, &entries);
    differs_on(&day, &way, Some((0, 1440, 65_536)), None);
    let way = Way { plus: |sum, more| (sum + more).min(65_535), ..RIGHT };
    differs_on(&day, &way, Some((0, 1440, 65_536)), Some((0, 1440, 65_535)));
}

/// All 64 places are met. Zeros behind the list do not tell, since they add nothing, and no interval shown begins where
/// nothing enters. A box there does.
#[test]
fn places_from_n_on_met_too() {
    let all = |fields: &Fields| {
        by_way(&RIGHT, &Day { h: fields[0] as u16, opening: 0, entries: flat::value(fields).places })
    };
    for day in small::pause_days_up_to(3, 3) {
        assert_eq!(all(&flat::of_day(&day)), document::shown(&day), "zeros behind {day:?}");
    }
    let mut fields = flat::of_day(&boxes(2, "p[0,2)1 p[0,2)2"));
    fields[1] = 1;
    assert_eq!(check::overload(&fields), Ok(()));
    assert_eq!(numbers(all(&fields)), Some((0, 2, 3)));
}
