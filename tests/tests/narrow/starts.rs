//! The starts of one whole entry among fixed blocks: any free run of minutes that is long enough has some, so
//! they cannot be sought by halving. What is expected here follows from the free minutes alone.

use dock_tests::check_narrow::{by_trying_everything, no_place, settled};
use dock_tests::day::{Day, LONGEST_DAY};
use dock_tests::random::Random;
use dock_tests::samples::{boxes, whole, windows};
use dock_tests::told::Told;
use dock_tests::{abi, flat, small};

/// A whole entry at place 0, r, d and p, among pause entries that fill their windows.
fn among(h: u16, entry: (u16, u16, u16), blocks: &[(u16, u16)]) -> Day {
    let fixed = blocks.iter().map(|&(a, b)| (a, b, b - a));
    whole(windows(h, &Vec::from_iter([entry].into_iter().chain(fixed))), &[0])
}

/// Settles such a day, and holds the answer against the free minutes: r is the first start that meets no
/// block, d the last one plus p. Without such a start it is 10, and with less than p free minutes 9. Gives
/// the number.
#[track_caller]
fn as_the_free_minutes_say(h: u16, (r, d, p): (u16, u16, u16), blocks: &[(u16, u16)]) -> u64 {
    let day = among(h, (r, d, p), blocks);
    let taken = |minute: u16| blocks.iter().any(|&(a, b)| (a..b).contains(&minute));
    let starts = Vec::from_iter((r..=d - p).filter(|&s| !(s..s + p).any(taken)));
    let free = (r..d).filter(|&minute| !taken(minute)).count();
    let (answer, fields) = abi::settle(&flat::of_day(&day));
    match starts[..] {
        [] if free < usize::from(p) => assert_eq!(answer.number, 9, "{day:?}"),
        [] => assert_eq!((answer.number, answer.values), (10, [0, 0, 0]), "{day:?}"),
        [first, ..] => {
            let end = starts[starts.len() - 1] + p;
            let moves = u64::from(first != r) + u64::from(end != d);
            assert_eq!((answer.number, answer.values), (0, [moves, 0, 0]), "{day:?}, starts {starts:?}");
            let wanted = among(h, (first, end, p), blocks);
            assert!(
                fields == flat::of_day(&wanted),
                "{:?} of {day:?}, starts {starts:?}",
                &fields[..flat::at(1)]
            );
        }
    }
    answer.number
}

/// With three minutes to place and the block [3, 5), the search from 1 on goes over 1 to 4 and ends at 5.
#[test]
fn the_least_start_may_be_behind_the_block() {
    for r in 1..=4 {
        let day = among(8, (r, 8, 3), &[(3, 5)]);
        assert_eq!(settled(&day), (among(8, (5, 8, 3), &[(3, 5)]), 1), "from {r}");
    }
    assert_eq!(settled(&among(8, (5, 8, 3), &[(3, 5)])).1, 0);
}

/// The greatest end likewise, from 7 down over 7, 6, 5 and 4 to 3.
#[test]
fn the_greatest_end_may_be_before_the_block() {
    for d in [7, 6, 5] {
        let day = among(8, (0, d, 3), &[(3, 5)]);
        assert_eq!(settled(&day), (among(8, (0, 3, 3), &[(3, 5)]), 1), "up to {d}");
    }
    assert_eq!(settled(&among(8, (0, 3, 3), &[(3, 5)])).1, 0);
    assert_eq!(no_place(&among(8, (1, 7, 3), &[(3, 5)])), 0, "no start from 1 up to 7");
}

/// The entry may not go before the first block, nor between the two, though each of them alone would leave it
/// a start there.
#[test]
fn the_least_start_may_be_behind_two_blocks() {
    let day = boxes(6, "w[0,6)2 p[1,2)1 p[3,4)1");
    assert_eq!(settled(&day), (boxes(6, "w[4,6)2 p[1,2)1 p[3,4)1"), 1));
    assert_eq!(by_trying_everything(&day).values, [1, 0, 0]);
    let day = boxes(4, "w[0,4)2 p[1,2)1 p[3,4)1");
    assert_eq!(no_place(&day), 0);
    assert_eq!(by_trying_everything(&day).number, 10);
}

/// Every third minute is taken before and after three free ones, wherever these are.
#[test]
fn the_only_start_may_be_anywhere() {
    for start in 0..=21 {
        let before = (0..start).rev().step_by(3);
        let after = (start + 3..24).step_by(3);
        let blocks = Vec::from_iter(before.chain(after).map(|minute| (minute, minute + 1)));
        let day = among(24, (0, 24, 3), &blocks);
        let moves = if start == 0 || start == 21 { 1 } else { 2 };
        assert_eq!(settled(&day), (among(24, (start, start + 3, 3), &blocks), moves), "the start {start}");
        assert_eq!(as_the_free_minutes_say(24, (0, 24, 3), &blocks), 0);
        assert_eq!(as_the_free_minutes_say(24, (0, 24, 4), &blocks), 10, "nowhere for 4 minutes");
    }
}

/// Every entry and every block of a day of 8 minutes.
#[test]
fn every_entry_beside_every_block() {
    assert_eq!(small::entries(8).len(), 120);
    let mut told = Told::default();
    for (a, b) in (0..8).flat_map(|a| (a + 1..=8).map(move |b| (a, b))) {
        for entry in small::entries(8) {
            told.count(as_the_free_minutes_say(8, entry, &[(a, b)]) as usize);
        }
    }
    told.more_than(100, &[0, 9, 10]);
}

/// Blocks one after the other, often with free minutes between them.
fn blocks(random: &mut Random, h: u16) -> Vec<(u16, u16)> {
    let mut blocks = vec![];
    let mut end = 0;
    loop {
        let a = end + random.within(0, 6);
        let b = a + random.within(1, 4);
        if b > h || blocks.len() == 63 {
            return blocks;
        }
        blocks.push((a, b));
        end = b;
    }
}

#[test]
fn one_entry_among_many_blocks() {
    let mut random = Random::new(51);
    let mut told = Told::default();
    for _ in 0..3_000 {
        let h = random.within(10, 60);
        let blocks = blocks(&mut random, h);
        let r = random.within(0, h - 8);
        let d = random.within(r + 8, h);
        let p = random.within(1, 8);
        told.count(as_the_free_minutes_say(h, (r, d, p), &blocks) as usize);
    }
    told.more_than(50, &[0, 9, 10]);
}

/// In the longest day, 63 blocks between runs of 21 free minutes and one of 22: this is where 22 minutes may
/// start, and nowhere else.
#[test]
fn the_only_start_in_the_longest_day() {
    for long in [0, 31, 61] {
        let mut blocks = vec![];
        let mut minute = 0;
        for run in 0..63 {
            minute += if run == long { 22 } else { 21 };
            blocks.push((minute, minute + 1));
            minute += 1;
        }
        blocks[62].1 = LONGEST_DAY;
        let start = 22 * long;
        assert_eq!(as_the_free_minutes_say(LONGEST_DAY, (0, LONGEST_DAY, 22), &blocks), 0);
        assert_eq!(as_the_free_minutes_say(LONGEST_DAY, (start, start + 23, 22), &blocks), 0);
        assert_eq!(as_the_free_minutes_say(LONGEST_DAY, (start + 1, LONGEST_DAY, 22), &blocks), 10);
    }
}
