//! The limits: no entries and 64, 1 minute and 1,440, one entry filling the day, pause entries alone, and
//! more moves than a byte counts.

use dock_tests::check_narrow::{no_place, not_settled, rounds, settle, settled};
use dock_tests::day::{Day, Refusal, LONGEST_DAY, MOST_ENTRIES};
use dock_tests::random::{self, Random};
use dock_tests::samples::{self, all_whole, boxes, whole, windows};
use dock_tests::{chains, flat};

/// A day with these entries, all of them whole.
fn whole_windows(h: u16, entries: &[(u16, u16, u16)]) -> Day {
    all_whole(windows(h, entries))
}

/// This list has nothing to move.
#[track_caller]
fn stays(day: &Day) {
    assert_eq!(settled(day), (day.clone(), 0));
}

#[test]
fn no_entries() {
    for h in [1, 2, 63, 64, 65, 255, 256, 257, 1439, 1440] {
        stays(&windows(h, &[]));
    }
}

#[test]
fn a_day_of_one_minute() {
    stays(&boxes(1, "w[0,1)1"));
    stays(&boxes(1, "p[0,1)1"));
    for entries in ["w[0,1)1 w[0,1)1", "w[0,1)1 p[0,1)1"] {
        let refusal = settle(&flat::of_day(&boxes(1, entries))).expect_err("overloaded");
        assert_eq!(refusal.code(), (9, [0, 1, 2]));
    }
}

#[test]
fn one_entry_fills_the_day() {
    for h in [1, 2, 255, 256, 1439, 1440] {
        stays(&whole_windows(h, &[(0, h, h)]));
        stays(&windows(h, &[(0, h, h)]));
    }
    let mut fields = flat::of_day(&whole_windows(LONGEST_DAY, &[(0, 1440, 1440)]));
    fields[flat::at(0) + 5] = 1441;
    not_settled(&fields, 7, 0);
    fields[0] = 1441;
    not_settled(&fields, 2, 0);
}

/// A whole entry of all minutes but one: the one that is taken decides on which side it stands.
#[test]
fn one_entry_fills_the_day_but_for_a_minute() {
    assert_eq!(settled(&boxes(1440, "w[0,1440)1439 p[0,1)1")), (boxes(1440, "w[1,1440)1439 p[0,1)1"), 1));
    let last = boxes(1440, "w[0,1439)1439 p[1439,1440)1");
    assert_eq!(settled(&boxes(1440, "w[0,1440)1439 p[1439,1440)1")), (last, 1));
    assert_eq!(no_place(&boxes(1440, "w[0,1440)1439 p[1,2)1")), 0);
    assert_eq!(no_place(&boxes(1440, "p[1438,1439)1 w[0,1440)1439")), 1);
}

/// The searches go over the whole of the longest day, up for r and down for d.
#[test]
fn one_minute_is_left_of_the_longest_day() {
    assert_eq!(
        settled(&boxes(1440, "w[0,1440)1 p[0,1439)1439")),
        (boxes(1440, "w[1439,1440)1 p[0,1439)1439"), 1)
    );
    assert_eq!(settled(&boxes(1440, "w[0,1440)1 p[1,1440)1439")), (boxes(1440, "w[0,1)1 p[1,1440)1439"), 1));
    let day = boxes(1440, "p[0,700)700 w[0,1440)1 p[701,1440)739");
    assert_eq!(settled(&day), (boxes(1440, "p[0,700)700 w[700,701)1 p[701,1440)739"), 2));
    let day = boxes(1440, "p[0,700)700 w[0,1440)2 p[701,1440)738");
    assert_eq!(settled(&day), (boxes(1440, "p[0,700)700 w[700,702)2 p[701,1440)738"), 2));
}

/// Starts and ends around 256, 512 and 1,024 are minutes like any others.
#[test]
fn minutes_are_not_reckoned_in_bytes() {
    for start in [254, 255, 256, 257, 511, 512, 1023, 1024, 1437] {
        let day = windows(1440, &[(0, 1440, 3), (0, start, start), (start + 3, 1440, 1437 - start)]);
        let day = if start == 1437 { windows(1440, &[(0, 1440, 3), (0, start, start)]) } else { day };
        let (found, _) = settled(&whole(day, &[0]));
        assert_eq!((found.entries[0].r, found.entries[0].d), (start, start + 3));
    }
}

#[test]
fn sixty_four_whole_entries_that_may_have_any_minutes() {
    stays(&whole_windows(64, &[(0, 64, 1); MOST_ENTRIES]));
    stays(&whole_windows(1408, &[(0, 1408, 22); MOST_ENTRIES]));
    stays(&whole_windows(1440, &[(0, 1440, 22); MOST_ENTRIES]));
    stays(&whole_windows(1440, &[(2, 1439, 3); MOST_ENTRIES]));
    let refusal =
        settle(&flat::of_day(&whole_windows(63, &[(0, 63, 1); MOST_ENTRIES]))).expect_err("overloaded");
    assert_eq!(refusal.code(), (9, [0, 63, 64]));
    let most = whole_windows(LONGEST_DAY, &[(0, 1440, 1440); MOST_ENTRIES]);
    let refusal = settle(&flat::of_day(&most)).expect_err("overloaded");
    assert_eq!(refusal.code(), (9, [0, 1440, 92_160]));
}

#[test]
fn sixty_four_whole_entries_that_have_no_choice() {
    stays(&whole_windows(64, &Vec::from_iter((0..64).map(|place| (place, place + 1, 1)))));
    stays(&whole_windows(
        1440,
        &Vec::from_iter((0..64).rev().map(|place| (22 * place, 22 * place + 22, 22))),
    ));
}

/// Each entry may end a minute later than the one before: 63 of them have their r moved, in one round.
#[test]
fn sixty_four_whole_entries_in_one_round() {
    let wanted = whole_windows(64, &Vec::from_iter((0..64).map(|place| (place, place + 1, 1))));
    let day = whole_windows(64, &Vec::from_iter((0..64).map(|place| (0, place + 1, 1))));
    assert_eq!(settled(&day), (wanted.clone(), 63));
    assert_eq!(rounds(&day).moves(), [63, 0]);
    let day = whole_windows(64, &Vec::from_iter((0..64).map(|place| (place, 64, 1))));
    assert_eq!(settled(&day), (wanted, 63));
}

/// The last place is visited too, and 10 can carry it.
#[test]
fn the_last_of_sixty_four_places() {
    let mut entries = Vec::from_iter((0..63).map(|place| (2 * place, 2 * place + 1, 1)));
    entries.push((0, 128, 2));
    let day = whole(windows(128, &entries), &[63]);
    let (found, moves) = settled(&day);
    assert_eq!((found.entries[63].r, found.entries[63].d, moves), (125, 128, 1));
    assert_eq!(found.entries[..63], day.entries[..63]);
    entries[63] = (0, 125, 2);
    assert_eq!(no_place(&whole(windows(128, &entries), &[63])), 63);
    entries.rotate_right(1);
    assert_eq!(no_place(&whole(windows(128, &entries), &[0])), 0);
}

/// Example (a) with more entries, of more minutes: each round settles one, from the last place to the first.
#[test]
fn one_entry_in_each_round() {
    for (n, p) in [(2, 2), (3, 2), (4, 2), (5, 2), (9, 3), (17, 7), (33, 2)] {
        let (day, wanted) = chains::settled_one_by_one(n, p);
        assert_eq!(settled(&day), (wanted, 2 * n as u64 - 2), "{n} entries of {p} minutes");
    }
}

/// With 64 entries these are 65 rounds: 1 move, 62 times 2 moves, 1 move, none.
#[test]
fn sixty_five_rounds() {
    let (day, wanted) = chains::settled_one_by_one(MOST_ENTRIES, 2);
    let rounds = rounds(&day);
    assert_eq!(rounds.moves(), [vec![1], vec![2; 62], vec![1, 0]].concat());
    assert_eq!(rounds.done[64].day, wanted, "the last windows");
    assert_ne!(rounds.done[62].day, wanted, "two rounds before");
}

/// The same around minutes that the innermost entry cannot have: with 64 entries 61 rounds come before the
/// refusal.
#[test]
fn ten_after_many_rounds() {
    for n in [4, 5, 6, 20, MOST_ENTRIES] {
        let rounds = rounds(&chains::refused_in_the_end(n));
        assert_eq!(rounds.refusal, Some(Refusal::NoPlace { place: 2 }), "{n} entries");
        assert_eq!(rounds.done.len(), n - 3, "rounds before the refusal of {n} entries");
    }
}

/// "pause entries are passed over": any list of them stays as it is, if it has a plan.
#[test]
fn pause_entries_alone() {
    let mut random = Random::new(81);
    for turn in 0..300 {
        let mut day = match turn % 3 {
            0 => random::small_day(&mut random),
            1 => random::planned_day(&mut random, 300, 20, 5, &[1, 10, 60]),
            _ => random::planned_day(&mut random, LONGEST_DAY, MOST_ENTRIES, 4, &[1, 60]),
        };
        day.entries.iter_mut().for_each(|entry| entry.whole = false);
        match settle(&flat::of_day(&day)) {
            Ok(narrowed) => assert_eq!((&narrowed.day, narrowed.moves), (&day, 0)),
            Err(refusal) => assert_eq!(refusal.code().0, 9, "{day:?}"),
        }
    }
}

/// A part of a day that is settled with 68 moves. Four of them in one day make 272.
#[test]
fn more_than_255_moves() {
    let part = samples::many_moves();
    assert_eq!(settled(&part).1, 68);
    let (found, moves) = settled(&samples::four_of(&part));
    assert_eq!((found.entries.len(), moves), (64, 272));
}
