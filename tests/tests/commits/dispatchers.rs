//! Several dispatchers with one day: "A stamp that is not the day's is refused as 17 before all else", and
//! carries the day's stamp.

use crate::late;
use dock_tests::abi::DayCall;
use dock_tests::check_commits::Run;
use dock_tests::commits;
use dock_tests::day::Entry;
use dock_tests::flat;
use dock_tests::random::{self, Random};
use dock_tests::samples::{boxes, one_box};
use dock_tests::told::Told;

/// A day of 12 minutes with a box, and entries for the dispatchers.
fn day() -> (Run, Entry, Entry) {
    (Run::of(&boxes(12, "p[0,12)4")), one_box(201, "w[2,8)3"), one_box(202, "p[3,6)2"))
}

/// Both ask and are told the same stamp. The first one commits; the second one gets 17 with the new stamp,
/// asks again, and commits with that.
#[test]
fn two_dispatchers_with_one_stamp() {
    let (mut run, first, second) = day();
    assert_eq!(run.ask(&first).values[2], 0);
    assert_eq!(run.ask(&second).values[2], 0);
    let answer = run.call(DayCall::Commit(0), &flat::numbers(&first));
    assert_eq!((answer.number, answer.values[2]), (0, 1));
    let answer = run.call(DayCall::Commit(0), &flat::numbers(&second));
    assert_eq!((answer.number, answer.values), (17, [1, 0, 0]));
    assert_eq!(run.ask(&second).values[2], 1);
    let answer = run.call(DayCall::Commit(1), &flat::numbers(&second));
    assert_eq!((answer.number, answer.values[2]), (0, 2));
    assert_eq!(run.committed, [first, second]);
}

/// The same in the other order: the list has the entries in the order of the commits.
#[test]
fn the_one_who_commits_first_is_first_in_the_list() {
    let (mut run, first, second) = day();
    run.ask(&first);
    run.ask(&second);
    assert_eq!(run.commit(&second).number, 0);
    assert_eq!(run.call(DayCall::Commit(0), &flat::numbers(&first)).number, 17);
    assert_eq!(run.commit(&first).number, 0);
    assert_eq!(run.committed, [second, first]);
    assert_eq!((run.row[flat::at(1)], run.row[flat::at(2)]), (202, 201));
}

/// Both were told of the same box: the second one gets 17, and asking again 14 at its place.
#[test]
fn both_with_the_same_box() {
    let (mut run, first, _) = day();
    run.ask(&first);
    run.ask(&first);
    assert_eq!(run.commit(&first).number, 0);
    assert_eq!(run.call(DayCall::Commit(0), &flat::numbers(&first)).number, 17);
    let answer = run.ask(&first);
    assert_eq!((answer.number, answer.values), (14, [2, 0, 0]));
    let answer = run.commit(&first);
    assert_eq!((answer.number, answer.values), (14, [2, 0, 0]));
}

/// What the first one did had no success, so that the second one's stamp is still the day's.
#[test]
fn a_commit_that_is_refused_makes_no_stamp_stale() {
    let (mut run, first, second) = day();
    run.ask(&second);
    for (entry, room, number) in [
        ("p[0,12)9", 12, 9),
        ("w[0,12)8", 11, 11),
        ("p[0,13)1", 12, 7),
        ("p[0,12)0", 12, 6),
        ("p[4,3)1", 12, 7),
    ] {
        run.lend(room);
        assert_eq!(run.call(DayCall::Commit(0), &late(entry)).number, number, "{entry}");
        run.lend(12);
        assert_eq!(run.call(DayCall::Commit(1), &flat::numbers(&first)).number, 17);
    }
    let answer = run.call(DayCall::Commit(0), &flat::numbers(&second));
    assert_eq!((answer.number, answer.values[2]), (0, 1));
}

/// Asks, answered or refused, make no stamp stale.
#[test]
fn an_ask_makes_no_stamp_stale() {
    let (mut run, first, second) = day();
    for _ in 0..5 {
        assert_eq!(run.ask(&first).number, 0);
        assert_eq!(run.ask(&second).number, 0);
        assert_eq!(run.ask(&one_box(203, "p[0,12)9")).number, 9);
    }
    assert_eq!(run.call(DayCall::Commit(0), &flat::numbers(&second)).number, 0);
}

/// Stale is stale, whatever the entry and the buffer are.
#[test]
fn seventeen_whatever_else_is_wrong() {
    let (mut run, first, second) = day();
    assert_eq!(run.commit(&first).number, 0);
    for room in [0, 11, 12, 40] {
        run.lend(room);
        for entry in [second.clone(), first.clone(), one_box(9, "p[0,12)0"), one_box(9, "p[0,99)1")] {
            for stamp in [0, 2, 65_537, u64::MAX] {
                let answer = run.call(DayCall::Commit(stamp), &flat::numbers(&entry));
                assert_eq!((answer.number, answer.values), (17, [1, 0, 0]), "{entry:?}, stamp {stamp}");
            }
        }
    }
}

/// Five dispatchers, each with the stamp that it was told last. A commit is 17 exactly if another one had a
/// success since.
#[test]
fn five_dispatchers_at_random() {
    let mut random = Random::new(511);
    let mut told = Told::default();
    for _ in 0..60 {
        let mut run = Run::of(&boxes(40, "p[0,40)3"));
        let mut stamps = [0; 5];
        for _ in 0..40 {
            let who = random.below(5);
            let entry = random::one_more(&mut random, &commits::value(&run.row).list);
            let call = if random.once_in(3) { DayCall::Ask } else { DayCall::Commit(stamps[who]) };
            let before = run.stamp();
            let answer = run.call(call, &entry);
            told.count(answer.number as usize);
            let stale = call != DayCall::Ask && stamps[who] != before;
            assert_eq!(answer.number == 17, stale, "{call:?}, the day has {before}");
            match answer.number {
                0 => stamps[who] = answer.values[2],
                17 => stamps[who] = answer.values[0],
                _ => {}
            }
            assert!(stamps.iter().all(|&stamp| stamp <= run.stamp()), "{stamps:?}");
        }
    }
    told.more_than(300, &[0, 17]);
}
