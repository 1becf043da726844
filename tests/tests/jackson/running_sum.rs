//! The overload test by a sum that is kept (document 02, "Adding up the same boxes again"): "while the left end walks
//! down for a fixed right end, keep the sum so far and add the boxes that enter. .. The interval shown is the one
//! document 01 names." The days here have what a sum that is kept may get wrong: many equal r and d, many left ends for
//! one right end and many right ends, and places in many orders. Each answer is held against sums made afresh.

use dock_tests::brute;
use dock_tests::check::{self, planned};
use dock_tests::day::{Day, Entry, Interval, Refusal, LONGEST_DAY, MOST_ENTRIES};
use dock_tests::flat;
use dock_tests::random::{self, Random};
use dock_tests::samples::{told_apart, windows};
use dock_tests::small::pause_days_up_to;
use std::collections::HashSet;

/// r, d and p of an entry.
type Window = (u16, u16, u16);
/// a, b and the work of the interval shown, if there is one.
type Shown = Option<(u16, u16, u64)>;

/// "The interval shown has the smallest b, and with it the largest a."
fn named(day: &Day) -> Option<Interval> {
    let all = brute::overloaded_intervals(day);
    let b = all.iter().map(|interval| interval.b).min()?;
    let a = all.iter().filter(|interval| interval.b == b).map(|interval| interval.a).max()?;
    all.into_iter().find(|interval| (interval.a, interval.b) == (a, b))
}

/// What the library shows of a day: the interval of the second planner, and of all overloaded ones the one that is named.
#[track_caller]
fn shown(day: &Day) -> Shown {
    let shown = check::shown(day);
    assert_eq!(shown, named(day), "of all overloaded intervals of {day:?}");
    shown.map(|Interval { a, b, work }| (a, b, work))
}

/// Each of these lists shows the same.
#[track_caller]
fn all_show(h: u16, lists: &[Vec<Window>], wanted: Shown) {
    for list in lists {
        assert_eq!(shown(&windows(h, list)), wanted, "{list:?}");
    }
}

/// All orders of these entries.
fn orders(entries: &[Window]) -> Vec<Vec<Window>> {
    let Some((&first, rest)) = entries.split_first() else { return vec![vec![]] };
    let with_first = |order: Vec<Window>| {
        (0..=order.len()).map(move |place| [&order[..place], &[first], &order[place..]].concat())
    };
    orders(rest).into_iter().flat_map(with_first).collect()
}

/// These entries as they stand, and backwards.
fn both_ways(entries: Vec<Window>) -> [Vec<Window>; 2] {
    let backwards = entries.iter().rev().copied().collect();
    [entries, backwards]
}

/// These entries from every place on, both ways.
fn turned(entries: &[Window]) -> Vec<Vec<Window>> {
    let from = |place| both_ways([&entries[place..], &entries[..place]].concat());
    (0..entries.len()).flat_map(from).collect()
}

/// 64 entries as they stand, backwards after the first, the two halves in turn, and each one 5 or 27 places after the last.
fn arranged(entries: &[Window]) -> Vec<Vec<Window>> {
    assert_eq!(entries.len(), MOST_ENTRIES);
    let stride = |by: usize| (0..MOST_ENTRIES).map(|place| entries[place * by % MOST_ENTRIES]).collect();
    let halves = (0..MOST_ENTRIES).map(|place| entries[place / 2 + place % 2 * MOST_ENTRIES / 2]).collect();
    vec![stride(1), stride(63), halves, stride(5), stride(27)]
}

/// The entries with a minute more for this place.
fn with_a_minute_more(entries: &[Window], place: usize) -> Vec<Window> {
    let mut more = entries.to_vec();
    more[place].2 += 1;
    more
}

/// A part of the day, down to a minute, of which r and d are multiples, but for a d at its end: the larger it is, the
/// more of them are equal.
fn grid(random: &mut Random, h: u16) -> u16 {
    h.div_ceil(random.pick(&[1, 2, 3, 5, 12, 60, h]))
}

/// Up to 64 boxes with any windows on a grid, and so much work that it is open whether there is a plan.
fn any_day(random: &mut Random) -> Day {
    let h = random.within(1, LONGEST_DAY);
    let n = 1 + random.below(MOST_ENTRIES);
    let grid = grid(random, h);
    let most = (u32::from(h) * random.pick(&[1, 2, 3]) / n as u32).max(1) as u16;
    let mut day = Day { h, opening: 0, entries: vec![] };
    for _ in 0..n {
        let end = random.within(1, h.div_ceil(grid));
        let (r, d) = (random.within(0, end - 1) * grid, (end * grid).min(h));
        let p = random.within(1, most.min(d - r));
        day.entries.push(Entry { r, d, p, ..random::entry(random, 1) });
    }
    told_apart(day)
}

/// Up to 64 boxes on a grid that fill the day, or have a minute too much.
fn tight_day(random: &mut Random) -> Day {
    let h = random.within(1, LONGEST_DAY);
    let n = 1 + random.below(MOST_ENTRIES);
    let grid = grid(random, h);
    let mut day = random::planned_day(random, h, n, 0, &[grid]);
    if random.once_in(2) {
        let roomy = day.entries.iter_mut().find(|entry| entry.p < entry.d - entry.r);
        roomy.into_iter().for_each(|entry| entry.p += 1);
    }
    day
}

/// Makes so many days of both sorts and gives each to a check, with what is shown of it. Many are planned and many are
/// overloaded, of these many by one minute.
#[track_caller]
fn each_day(seed: u64, days: usize, mut check: impl FnMut(&mut Random, &Day, Shown)) {
    let mut random = Random::new(seed);
    let (mut planned, mut overloaded, mut by_one) = (0, 0, 0);
    for turn in 0..days {
        let day = if turn % 2 == 0 { any_day(&mut random) } else { tight_day(&mut random) };
        let before = shown(&day);
        check(&mut random, &day, before);
        match before {
            Some((a, b, work)) => {
                overloaded += 1;
                by_one += usize::from(work == u64::from(b - a) + 1);
            }
            None => planned += 1,
        }
    }
    assert!(planned > days / 4 && overloaded > days / 4, "{planned} planned, {overloaded} overloaded");
    assert!(by_one > days / 8, "{by_one} overloaded by one minute");
}

/// How many different numbers there are.
fn different(numbers: impl Iterator<Item = u16>) -> usize {
    numbers.collect::<HashSet<_>>().len()
}

#[test]
fn days_of_few_and_of_many_different_minutes() {
    let mut few = 0;
    each_day(31, 4_000, |_, day, _| {
        let earliest = different(day.entries.iter().map(|entry| entry.r));
        let latest = different(day.entries.iter().map(|entry| entry.d));
        few += usize::from(2 * (earliest + latest) < day.entries.len());
    });
    assert!((1_000..3_000).contains(&few), "{few} days with few different r and d");
}

#[test]
fn any_order_of_the_places_shows_the_same() {
    each_day(32, 1_000, |random, day, before| {
        let mut other = day.clone();
        random::shuffle(random, &mut other.entries);
        assert_eq!(shown(&told_apart(other)), before, "{day:?} in another order");
    });
}

/// A box cut in two, both with its window, has as much work, wherever the second one stands.
#[test]
fn boxes_cut_in_two_show_the_same() {
    let mut cuts = 0;
    each_day(33, 1_000, |random, day, before| {
        let mut cut = day.clone();
        for _ in day.entries.len()..MOST_ENTRIES {
            let place = random.below(cut.entries.len());
            let entry = cut.entries[place].clone();
            if entry.p > 1 {
                let p = random.within(1, entry.p - 1);
                cut.entries[place].p -= p;
                cut.entries.insert(random.below(cut.entries.len() + 1), Entry { p, ..entry });
                cuts += 1;
            }
        }
        assert_eq!(shown(&told_apart(cut)), before, "{day:?} with boxes cut in two");
    });
    assert!(cuts > 10_000, "{cuts} boxes cut in two");
}

/// A box that ends after b has no work in an interval that ends with b or before. Its r is a left end all the same.
#[test]
fn boxes_that_end_after_b_change_nothing() {
    let mut more = 0;
    each_day(34, 1_000, |random, day, before| {
        let Some((_, b, _)) = before.filter(|&(_, b, _)| b < day.h) else { return };
        let mut other = day.clone();
        for _ in day.entries.len()..MOST_ENTRIES {
            let d = random.within(b + 1, day.h);
            let r = random.within(0, d - 1);
            let p = random.within(1, d - r);
            let place = random.below(other.entries.len() + 1);
            other.entries.insert(place, Entry { r, d, p, ..random::entry(random, 1) });
            more += 1;
        }
        assert_eq!(shown(&told_apart(other)), before, "{day:?} with boxes that end after {b}");
    });
    assert!(more > 5_000, "{more} boxes more");
}

/// A day whose minute t is from `by * t + from` on.
fn stretched(day: &Day, by: u16, from: u16) -> Day {
    let entry = |entry: &Entry| Entry {
        r: entry.r * by + from,
        d: entry.d * by + from,
        p: entry.p * by,
        ..entry.clone()
    };
    Day { h: day.h * by + from, opening: 0, entries: day.entries.iter().map(entry).collect() }
}

/// Every day of at most 4 minutes and 3 entries, later, longer, and with minutes above 255 whose low bytes are not in
/// the same order.
#[test]
fn later_and_longer_days_show_the_same() {
    for day in pause_days_up_to(4, 3) {
        let before = shown(&day);
        for (by, from) in [(1, 1436), (360, 0), (100, 255), (255, 300)] {
            let wanted = before.map(|(a, b, work)| (a * by + from, b * by + from, work * u64::from(by)));
            assert_eq!(shown(&stretched(&day, by, from)), wanted, "{by} * {day:?} + {from}");
        }
    }
}

/// 64 boxes with one window of 190 minutes that they fill, and a minute more for one of them.
#[test]
fn sixty_four_boxes_with_one_window() {
    for (a, b) in [(0, 190), (7, 197), (1250, 1440)] {
        let filling: Vec<_> = (0..64).map(|place| (a, b, 1 + place % 5)).collect();
        planned(&windows(LONGEST_DAY, &filling));
        for place in 0..MOST_ENTRIES {
            all_show(LONGEST_DAY, &[with_a_minute_more(&filling, place)], Some((a, b, 191)));
        }
    }
}

/// Two windows with one r or one d, or both different, 32 boxes each, that fill the inner one and then the outer: a
/// minute more for any of them is too much for its own.
#[test]
fn two_windows_of_thirty_two_boxes_each() {
    for (inner, outer) in [((10, 42), (10, 74)), ((42, 74), (10, 74)), ((26, 58), (10, 74))] {
        let mut filling = vec![(inner.0, inner.1, 1); 32];
        filling.extend([(outer.0, outer.1, 1); 32]);
        for list in arranged(&filling) {
            planned(&windows(80, &list));
            for (place, &(r, d, _)) in list.iter().enumerate() {
                all_show(80, &[with_a_minute_more(&list, place)], Some((r, d, u64::from(d - r) + 1)));
            }
        }
    }
}

/// All boxes with one r are in the work, though some of them are too much already; and none that ends after b.
#[test]
fn the_work_is_that_of_all_boxes_with_one_r() {
    for n in 3..=62 {
        let mut entries = vec![(3, 5, 1); n];
        entries.resize(63, (3, 6, 2));
        entries.push((0, 5, 5));
        all_show(9, &arranged(&entries), Some((3, 5, n as u64)));
    }
}

/// The first n of 64 boxes are the list, and fill their window if there are as many as it has minutes. Those behind
/// them have the same window, or one that they overload.
#[test]
fn every_n_from_0_to_64_before_boxes_that_are_not_of_the_list() {
    for minutes in [1, 2, 31, 63, 64] {
        for n in 0..=MOST_ENTRIES {
            for behind in [(5, 5 + minutes, 1), (6, 7, 1), (0, 1, 1)] {
                let mut entries = vec![(5, 5 + minutes, 1); n];
                entries.resize(MOST_ENTRIES, behind);
                let mut fields = flat::of_day(&windows(80, &entries));
                fields[1] = n as u32;
                let overload = [5, 5 + u64::from(minutes), n as u64];
                let wanted = if n > usize::from(minutes) { Err((9, overload)) } else { Ok(()) };
                let answer = check::overload(&fields).map_err(Refusal::code);
                assert_eq!(answer, wanted, "{n} boxes before {behind:?}");
            }
        }
    }
}

/// One box fills its window or not, and is never too much.
#[test]
fn one_box_is_never_too_much() {
    for (r, d) in [(0, 1), (0, 1440), (1439, 1440), (255, 257), (700_u16, 1440), (0, 700)] {
        for p in [1, (d - r).div_ceil(2), d - r] {
            assert_eq!(shown(&windows(LONGEST_DAY, &[(r, d, p)])), None);
        }
    }
}

/// 45 boxes of 1,440 minutes have 64,800. When they enter, at 0, the sum is p of a box that fits its window; so it
/// passes 65,535 there or does not.
#[test]
fn work_about_65536_at_the_second_left_end() {
    for p in 730..=740 {
        let mut entries = vec![(0, 1440, 1440); 45];
        entries.push((700, 1440, p));
        all_show(LONGEST_DAY, &both_ways(entries), Some((0, 1440, 64_800 + u64::from(p))));
    }
}

/// The sum passes 65,535 at the left end shown, or only where the walk would go on.
#[test]
fn work_above_65535_at_the_first_left_end_or_after_it() {
    let mut entries = vec![(1, 1440, 1439); 63];
    entries.push((0, 1440, 1440));
    all_show(LONGEST_DAY, &arranged(&entries), Some((1, 1440, 63 * 1439)));
    let mut entries = vec![(720, 1440, 720); 32];
    entries.extend([(0, 1440, 1440); 32]);
    all_show(LONGEST_DAY, &arranged(&entries), Some((720, 1440, 32 * 720)));
    let mut entries = vec![(0, 1440, 1440); 63];
    entries.push((1439, 1440, 1));
    all_show(LONGEST_DAY, &arranged(&entries), Some((0, 1440, 63 * 1440 + 1)));
}

/// Six boxes with equal r and d, in all 720 orders.
#[test]
fn every_order_of_six_boxes() {
    let fits = [(0, 6, 2), (0, 3, 1), (2, 6, 1), (2, 4, 1), (2, 4, 1), (5, 9, 3)];
    all_show(9, &orders(&fits), None);
    let at_the_group = [(0, 6, 2), (0, 3, 1), (2, 6, 1), (2, 4, 1), (2, 4, 2), (2, 4, 1)];
    all_show(9, &orders(&at_the_group), Some((2, 4, 4)));
    let below_the_group = [(0, 4, 2), (0, 4, 1), (2, 4, 1), (2, 4, 1), (2, 5, 1), (3, 9, 1)];
    all_show(9, &orders(&below_the_group), Some((0, 4, 5)));
    let at_the_last_right_end = [(0, 2, 2), (2, 4, 2), (4, 6, 2), (1, 6, 1), (6, 7, 1), (6, 9, 1)];
    all_show(9, &orders(&at_the_last_right_end), Some((0, 6, 7)));
}

/// Boxes of a minute in a row, each pair of an r and a d filled, so that a minute too many in any sum shows.
fn row(n: u16) -> Vec<Window> {
    (0..n).map(|minute| (minute, minute + 1, 1)).collect()
}

/// Boxes that begin together and end one after the other, the first n minutes filled up to each end.
fn ends(n: u16) -> Vec<Window> {
    (1..=n).map(|end| (0, end, 1)).collect()
}

/// Boxes that end together and begin one after the other, the last n of 64 minutes filled from each beginning.
fn beginnings(n: u16) -> Vec<Window> {
    (1..=n).map(|back| (64 - back, 64, 1)).collect()
}

/// Every sum of 64 right ends, of 64 left ends, and of both is as much as fits, from whichever place on.
#[test]
fn sixty_four_boxes_that_fill_every_interval() {
    for filling in [row(64), ends(64), beginnings(64)] {
        all_show(64, &turned(&filling), None);
    }
}

/// One minute more up to one of 63 right ends, from one of 63 left ends, or in one of 63 minutes. The right ends before
/// that one are met first or last.
#[test]
fn one_minute_too_much_among_sixty_three_sums() {
    let with = |mut entries: Vec<Window>, at: usize| {
        entries.insert(at / 2, entries[at]);
        both_ways(entries)
    };
    for at in 0..63 {
        let (minute, minutes) = (at as u16, at as u64);
        all_show(64, &with(ends(63), at), Some((0, minute + 1, minutes + 2)));
        all_show(64, &with(beginnings(63), at), Some((63 - minute, 64, minutes + 2)));
        all_show(64, &with(row(63), at), Some((minute, minute + 1, 2)));
    }
}

/// a and b of the only interval that is too much stand in one box alone, or each in a box of its own, at every place.
#[test]
fn the_ends_of_the_interval_at_every_place() {
    let mut entries = row(64);
    for (p, wanted) in [(2, None), (3, Some((0, 65, 66)))] {
        entries[0] = (0, 65, p);
        all_show(99, &turned(&entries), wanted);
    }
    let mut entries = row(64);
    (entries[0], entries[63]) = ((0, 40, 2), (98, 99, 1));
    for (p, wanted) in [(2, None), (3, Some((0, 65, 66)))] {
        entries[35] = (30, 65, p);
        all_show(99, &turned(&entries), wanted);
    }
}

/// A row of 20 boxes, and one more that makes any of its intervals too much.
#[test]
fn any_interval_of_a_row() {
    for a in 0..20 {
        for b in a + 1..=20 {
            let with = |place: usize| {
                let mut entries = row(20);
                entries.insert(place, (a, b, 1));
                both_ways(entries)
            };
            all_show(20, &[0, 10, 20].map(with).concat(), Some((a, b, u64::from(b - a) + 1)));
        }
    }
}

/// The places in the order of d, up or down, but for one box.
#[test]
fn one_box_out_of_place() {
    let mut entries = row(20);
    entries.insert(13, (6, 14, 1));
    for entries in both_ways(entries) {
        for from in 0..entries.len() {
            for to in 0..entries.len() {
                let mut moved = entries.clone();
                let window = moved.remove(from);
                moved.insert(to, window);
                all_show(20, &[moved], Some((6, 14, 9)));
            }
        }
    }
}

/// For b 100 nothing enters at 62 left ends, though their boxes need 620 minutes. The boxes that count are met after
/// all of them, or among them.
#[test]
fn left_ends_at_which_nothing_enters() {
    let late: Vec<_> = (1..=62).map(|minute| (minute, 1000 + minute, 10)).collect();
    for (p, wanted) in [(50, None), (51, Some((0, 100, 101)))] {
        let entries = [&late[..], &[(0, 100, 50), (0, 100, p)]].concat();
        all_show(LONGEST_DAY, &arranged(&entries), wanted);
        let among = [&late[..31], &[(20, 100, 40), (20, 100, p - 10)], &late[31..]].concat();
        all_show(LONGEST_DAY, &arranged(&among), wanted.map(|_| (20, 100, 81)));
    }
}
