//! Days that fill up: "a day of 64 entries or more as 18 straight after it, for an ask first of all; both
//! carry the day's stamp". From fresh at most 64 commits have success.

use dock_tests::abi::DayCall;
use dock_tests::check_commits::Run;
use dock_tests::commits;
use dock_tests::day::{Day, Entry, LONGEST_DAY, MOST_ENTRIES};
use dock_tests::flat;
use dock_tests::random::{self, Random};
use dock_tests::samples::{boxes, longest, windows};
use dock_tests::told::Told;

/// Commits the entry of each place from the first list's n on. The stamps are 1, 2 and so on, up to the full
/// day.
#[track_caller]
fn filled(first: &Day, entry: impl Fn(u16) -> Entry) -> Run {
    let mut run = Run::of(first);
    let n = first.entries.len();
    for place in n..MOST_ENTRIES {
        let stamp = (place - n) as u64;
        let entry = entry(place as u16);
        let answer = run.ask(&entry);
        assert_eq!((answer.number, answer.values[2]), (0, stamp), "ask of place {place}");
        let answer = run.commit(&entry);
        assert_eq!((answer.number, answer.values[2]), (0, stamp + 1), "commit of place {place}");
    }
    assert_eq!(run.row[1], 64);
    run
}

/// Neither asks nor commits have success any more: 18 with the day's stamp, and 17 with another stamp, with
/// any entry and any buffer.
#[track_caller]
fn is_full(run: &mut Run, stamp: u64) {
    let before = run.committed.len();
    let right = Entry { serial: 5_000, d: run.first.h, r: run.first.h - 1, p: 1, ..Entry::default() };
    let entries = [right.clone(), Entry { p: 0, ..right.clone() }, Entry { d: 2_000, ..right }];
    for (entry, room) in entries.iter().flat_map(|entry| [(entry, 0), (entry, 63), (entry, 1_440)]) {
        run.lend(room);
        for call in [DayCall::Ask, DayCall::Commit(stamp)] {
            let answer = run.call(call, &flat::numbers(entry));
            assert_eq!((answer.number, answer.values), (18, [stamp, 0, 0]), "{call:?}");
        }
        for wrong in [stamp + 1, stamp.wrapping_sub(1), stamp + 65_536, u64::MAX] {
            let answer = run.call(DayCall::Commit(wrong), &flat::numbers(entry));
            assert_eq!((answer.number, answer.values), (17, [stamp, 0, 0]), "stamp {wrong}");
        }
    }
    assert_eq!(run.committed.len(), before);
}

/// A box of a minute that may have any minute of the day.
fn any_time(h: u16, whole: bool) -> impl Fn(u16) -> Entry {
    move |place| Entry { serial: u32::from(place), seal: None, r: 0, d: h, p: 1, whole }
}

/// 64 boxes fill 64 minutes: the next one is 18, and not 9.
#[test]
fn from_an_empty_list_to_64_boxes_of_a_minute() {
    for whole in [false, true] {
        let mut run = filled(&boxes(64, ""), any_time(64, whole));
        assert_eq!(run.committed.len(), MOST_ENTRIES);
        is_full(&mut run, 64);
    }
}

/// With one minute less the last box is 9, and 63 commits have success.
#[test]
fn sixty_three_minutes_have_no_64th_box() {
    let mut run = Run::of(&boxes(63, ""));
    for place in 0..63 {
        let answer = run.commit(&any_time(63, false)(place));
        assert_eq!((answer.number, answer.values[2]), (0, u64::from(place) + 1));
    }
    for _ in 0..3 {
        let answer = run.commit(&any_time(63, false)(63));
        assert_eq!((answer.number, answer.values), (9, [0, 63, 64]));
    }
    assert_eq!((run.stamp(), run.row[1]), (63, 63));
}

/// Each box has its own minutes of the longest day, the later ones first, with an opening minute.
#[test]
fn from_an_empty_list_to_a_longest_one() {
    let full = longest();
    let order = |place: u16| full.entries[63 - usize::from(place)].clone();
    let mut run = filled(&Day { entries: vec![], ..full.clone() }, order);
    assert_eq!(run.row[..3], [1440, 64, 300]);
    is_full(&mut run, 64);
}

/// One serial for all boxes, in windows that touch.
#[test]
fn sixty_four_boxes_of_one_serial() {
    let entry = |place: u16| Entry { serial: 7, r: 2 * place, d: 2 * place + 2, p: 1, ..Entry::default() };
    let mut run = filled(&boxes(128, ""), entry);
    is_full(&mut run, 64);
}

/// From a list of n entries 64 - n commits have success, and the stamp counts these alone.
#[test]
fn from_lists_of_some_entries() {
    for n in [1, 2, 31, 60, 63] {
        let first = windows(70, &vec![(0, 70, 1); n]);
        let more = |place| Entry { serial: 900 + u32::from(place), ..any_time(70, place % 2 == 0)(place) };
        let mut run = filled(&first, more);
        is_full(&mut run, 64 - n as u64);
    }
}

#[test]
fn a_fresh_day_of_64_entries_is_full() {
    for first in [longest(), windows(64, &[(0, 64, 1); MOST_ENTRIES])] {
        is_full(&mut Run::of(&first), 0);
    }
}

/// The 64th place is the last one of all rows: the longest day, with nothing left but its last minute.
#[test]
fn the_last_place_and_the_last_minute() {
    let mut entries = vec![(0, 1439, 22); 63];
    entries[0].2 = 75;
    let mut run = Run::of(&windows(LONGEST_DAY, &entries));
    let last = Entry { serial: 7, seal: Some(8), r: 1439, d: 1440, p: 1, whole: true };
    let answer = run.commit(&last);
    assert_eq!((answer.number, answer.values), (0, [0, 0, 1]));
    assert_eq!(run.row[flat::at(63)..], [7, 1, 8, 1439, 1440, 1, 1, 1]);
    assert_eq!(run.lent.plan[1439], 63);
    is_full(&mut run, 1);
}

/// Random asks and commits on days that have 58 entries or more, to the full day and beyond.
#[test]
fn asks_and_commits_around_64_entries() {
    let mut random = Random::new(521);
    let mut told = Told::default();
    let mut filled = 0;
    for _ in 0..24 {
        let n = 58 + random.below(7);
        let first = random::long_list(&mut random, n);
        let mut run = Run::of(&first);
        for _ in 0..20 {
            run.lend(random::room_near(&mut random, first.h));
            let entry = random::one_more(&mut random, &commits::value(&run.row).list);
            let stamp = random::stamp_near(&mut random, run.stamp() as u16);
            let call = if random.once_in(4) { DayCall::Ask } else { DayCall::Commit(stamp) };
            told.count(run.call(call, &entry).number as usize);
        }
        assert!(run.committed.len() <= MOST_ENTRIES - n);
        filled += usize::from(run.row[1] == 64 && n < 64);
    }
    told.more_than(30, &[0, 17, 18]);
    told.more_than(5, &[6, 7, 11, 14]);
    assert!(filled > 5, "{filled} days filled up");
}
