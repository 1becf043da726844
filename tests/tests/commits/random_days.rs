//! Random lists of asks and commits from fresh days, held against the second program after every call: "the
//! list is the first one followed by the entries committed with success, in order, asks leave the day as it
//! was".

use dock_tests::abi::DayCall;
use dock_tests::check::number;
use dock_tests::check_commits::{fresh, Run};
use dock_tests::commits;
use dock_tests::flat;
use dock_tests::random::{self, Random};
use dock_tests::told::Told;

/// How often each number was answered to a fresh day, to asks and to commits; and how often a success had
/// moves, broken entries, or a buffer longer than the day.
#[derive(Debug, Default)]
struct Seen {
    fresh: Told,
    asks: Told,
    commits: Told,
    moved: usize,
    broken: usize,
    longer: usize,
}

/// Makes so many fresh days of first lists, and so many calls on each that is made.
fn asks_and_commits(seed: u64, days: usize, calls: usize) -> Seen {
    let mut random = Random::new(seed);
    let mut seen = Seen::default();
    for _ in 0..days {
        let first = random::first_list(&mut random);
        let made = fresh(&flat::of_day(&first));
        seen.fresh.count(number(&made));
        if made.is_ok() {
            let mut run = Run::of(&first);
            (0..calls).for_each(|_| one_call(&mut random, &mut run, &mut seen));
        }
    }
    seen
}

/// An ask or a commit with one more entry, a stamp and a plan buffer, each of them right or wrong.
fn one_call(random: &mut Random, run: &mut Run, seen: &mut Seen) {
    let h = run.first.h;
    run.lend(random::room_near(random, h));
    let entry = random::one_more(random, &commits::value(&run.row).list);
    let stamp = random::stamp_near(random, run.stamp() as u16);
    let call = if random.once_in(2) { DayCall::Ask } else { DayCall::Commit(stamp) };
    let answer = run.call(call, &entry);
    let told = if call == DayCall::Ask { &mut seen.asks } else { &mut seen.commits };
    told.count(answer.number as usize);
    if answer.number == 0 {
        seen.moved += usize::from(answer.values[0] > 0);
        seen.broken += usize::from(answer.values[1] > 0);
        seen.longer += usize::from(run.lent.plan.len() > usize::from(h));
    }
}

/// Refusals of the header are never given: a fresh day's list is right. 18 is for days with more minutes.
#[test]
fn twenty_thousand_asks_and_commits() {
    let seen = asks_and_commits(551, 1_800, 16);
    seen.fresh.more_than(50, &[0, 9, 10]);
    for told in [&seen.asks, &seen.commits] {
        told.more_than(100, &[0, 6, 7, 9, 10, 11, 14, 16]);
        told.never(&[1, 2, 3, 4, 5, 8, 12, 13, 15, 18]);
    }
    seen.commits.more_than(500, &[17]);
    seen.asks.never(&[17]);
    assert!(seen.moved > 200 && seen.broken > 50 && seen.longer > 200, "{seen:?}");
}

/// The same list of calls with the asks left out leaves the same day, and the commits are answered alike:
/// "asks leave the day as it was".
#[test]
fn without_the_asks_the_commits_are_answered_alike() {
    let mut random = Random::new(552);
    let mut told = Told::default();
    for _ in 0..400 {
        let first = random::first_list(&mut random);
        if fresh(&flat::of_day(&first)).is_err() {
            continue;
        }
        let (mut run, mut alone) = (Run::of(&first), Run::of(&first));
        for _ in 0..10 {
            let entry = random::one_more(&mut random, &commits::value(&run.row).list);
            for _ in 0..random.below(3) {
                run.call(DayCall::Ask, &random::one_more(&mut random, &commits::value(&run.row).list));
            }
            let stamp = random::stamp_near(&mut random, run.stamp() as u16);
            let answer = run.call(DayCall::Commit(stamp), &entry);
            assert_eq!(alone.call(DayCall::Commit(stamp), &entry), answer, "{entry:?}");
            assert!(run.row == alone.row, "{entry:?}");
            told.count(answer.number as usize);
        }
    }
    told.more_than(100, &[0, 9, 17]);
}

/// Only successes count: a day whose list is the first one followed by the entries committed, made afresh,
/// answers the same to an ask, the stamp aside.
#[test]
fn a_day_of_commits_is_the_fresh_day_of_its_list() {
    let mut random = Random::new(553);
    let mut found = 0;
    for _ in 0..400 {
        let first = random::first_list(&mut random);
        if fresh(&flat::of_day(&first)).is_err() {
            continue;
        }
        let mut run = Run::of(&first);
        (0..8).for_each(|_| one_call(&mut random, &mut run, &mut Seen::default()));
        let list = fresh(&flat::of_day(&run.list())).expect("the longer list can be planned");
        assert_eq!(list[..commits::STAMP], run.row[..commits::STAMP]);
        let mut again = Run::of(&run.list());
        let entry = random::one_more(&mut random, &commits::value(&run.row).list);
        (run.lent, again.lent) = (again.lent.clone(), again.lent);
        let (mut one, other) = (run.call(DayCall::Ask, &entry), again.call(DayCall::Ask, &entry));
        if one.number == 0 {
            assert_eq!((one.values[2], other.values[2]), (run.stamp(), 0));
            one.values[2] = 0;
        }
        assert_eq!(one, other, "{entry:?}");
        assert!(run.lent == again.lent, "{entry:?}");
        found += usize::from(run.stamp() > 0);
    }
    assert!(found > 100, "{found} days with commits");
}
