//! "asks leave the day as it was, and what a commit with the day's stamp answers is, the stamp aside, what an
//! ask would have answered there." An ask "returns the full planned answer for the longer list, with the
//! stamp".

use crate::late;
use dock_tests::abi::{self, Answer, Call, DayCall, Lent};
use dock_tests::check_bounds::planned_by_trying_everything;
use dock_tests::check_commits::{ask, fresh, made};
use dock_tests::commits::{self, Row, STAMP};
use dock_tests::flat::{self, Numbers};
use dock_tests::ignored::contents;
use dock_tests::random::{self, Random};
use dock_tests::samples::boxes;
use dock_tests::told::Told;

/// Random days with one more entry and a plan buffer, as many as asked for: days made by fresh and commits.
fn days(seed: u64, times: usize, mut each: impl FnMut(&mut Random, &Row, &Numbers, usize)) {
    let mut random = Random::new(seed);
    let mut done = 0;
    while done < times {
        let Ok(mut row) = fresh(&flat::of_day(&random::first_list(&mut random))) else { continue };
        for _ in 0..8 {
            let entry = random::one_more(&mut random, &commits::value(&row).list);
            let room = random::room_near(&mut random, row[0] as u16);
            each(&mut random, &row, &entry, room);
            let stamp = row[STAMP].into();
            abi::call_day(DayCall::Commit(stamp), &mut row, &entry, &mut Lent::untouched(1_440));
            done += 1;
        }
    }
}

/// What is answered but for the stamp, which is the third value of a success.
fn stamp_aside(answer: Answer) -> Answer {
    match answer.number {
        0 => Answer { values: [answer.values[0], answer.values[1], 0], ..answer },
        _ => answer,
    }
}

/// From the same day and the same buffers, an ask and a commit leave the same plan, narrowed list and bounds,
/// and answer the same but for the stamp; where the commit is refused, that is the same too.
#[test]
fn a_commit_answers_what_an_ask_would_have_answered() {
    let mut told = Told::default();
    days(531, 4_000, |random, row, entry, room| {
        let before = contents(room).swap_remove(random.below(5));
        let (mut asked, mut committed) = (before.clone(), before.clone());
        let (mut day, mut longer) = (*row, *row);
        let ask = abi::call_day(DayCall::Ask, &mut day, entry, &mut asked);
        let stamp = row[STAMP].into();
        let commit = abi::call_day(DayCall::Commit(stamp), &mut longer, entry, &mut committed);
        assert_eq!(stamp_aside(ask), stamp_aside(commit), "{entry:?}");
        assert!(asked == committed, "buffers after an ask and a commit of {entry:?}");
        assert!(day == *row, "an ask changed the day, {entry:?}");
        match ask.number {
            0 => assert_eq!((ask.values[2], commit.values[2]), (stamp, stamp + 1)),
            _ => assert!(asked == before && longer == *row, "written beside a refusal, {entry:?}"),
        }
        told.count(ask.number as usize);
    });
    told.more_than(20, &[0, 6, 7, 9, 10, 11, 14, 16]);
}

/// The longer list handed to planning: the same moves, broken entries, plan, narrowed list, bounds and
/// refusals.
#[test]
fn an_ask_answers_what_planning_the_longer_list_answers() {
    let mut told = Told::default();
    days(532, 4_000, |_, row, entry, room| {
        let n = row[1] as usize;
        let mut longer = commits::list_of(row);
        longer[1] += 1;
        longer[flat::at(n)..][..entry.len()].copy_from_slice(entry);
        let (planned, wanted) = abi::ask(Call::Plan, &longer, room);
        let (mut day, mut lent) = (*row, Lent::untouched(room));
        let answer = abi::call_day(DayCall::Ask, &mut day, entry, &mut lent);
        assert_eq!(stamp_aside(answer), planned, "{entry:?} on {:?}", &row[..flat::at(n)]);
        assert!(lent == wanted, "{entry:?} on {:?}", &row[..flat::at(n)]);
        told.count(answer.number as usize);
    });
    told.more_than(20, &[0, 6, 7, 9, 10, 11, 14, 16]);
}

/// Small days with one more right entry: the answers are held against all plans of the longer list.
#[test]
fn four_thousand_asks_against_trying_everything() {
    let mut random = Random::new(534);
    let mut told = Told::default();
    for _ in 0..4_000 {
        let mut longer = match random.below(3) {
            0 => random::crossed_day(&mut random),
            _ => random::mixed_day(&mut random, 7, 4),
        };
        let Some(last) = longer.entries.pop() else { continue };
        let row = commits::row(&longer, 9);
        let (mut day, mut lent) = (row, Lent::untouched(longer.h.into()));
        let answer = abi::call_day(DayCall::Ask, &mut day, &flat::numbers(&last), &mut lent);
        assert!(answer.number != 0 || answer.values[2] == 9, "{answer:?}");
        longer.entries.push(last);
        planned_by_trying_everything(&longer, stamp_aside(answer), &lent);
        told.count(answer.number as usize);
    }
    told.more_than(100, &[0, 9, 10]);
}

/// The same list with another stamp is planned alike.
#[test]
fn an_ask_tells_the_stamp_and_does_not_look_at_it() {
    days(533, 500, |_, row, entry, room| {
        let (wanted, wanted_lent) = ask(row, entry, room);
        for stamp in [0, 1, 64, 300, 65_534, 65_535] {
            let mut other = *row;
            other[STAMP] = stamp;
            let (answer, lent) = ask(&other, entry, room);
            assert_eq!(stamp_aside(answer), stamp_aside(wanted), "stamp {stamp}");
            assert!(answer.number != 0 || answer.values[2] == stamp.into(), "stamp {stamp}");
            assert!(lent == wanted_lent, "stamp {stamp}");
        }
    });
}

/// However often it is asked, the answer is the same, and so is the day.
#[test]
fn asks_one_after_the_other() {
    let row = made(&boxes(12, "p[0,12)4 w[2,8)3 p[3,6)2"));
    let entries = ["w[6,12)2", "p[0,12)1", "p[0,12)9", "w[1,10)3", "p[0,12)0"];
    let answers = entries.map(|entry| ask(&row, &late(entry), 12).0);
    assert_eq!(answers.map(|answer| answer.number), [0, 0, 9, 10, 6]);
    let (mut day, mut lent) = (row, Lent::untouched(12));
    for turn in 0..50 {
        let entry = entries[turn % 5];
        let answer = abi::call_day(DayCall::Ask, &mut day, &late(entry), &mut lent);
        assert_eq!(answer, answers[turn % 5], "{entry}");
        assert!(day == row, "{entry}");
    }
}

/// The answer of either call does not depend on what was in the buffers.
#[test]
fn whatever_the_buffers_held_the_answer_is_the_same() {
    let row = made(&boxes(12, "p[0,12)4 w[2,8)3 p[3,6)2"));
    for (call, stamp) in [(DayCall::Ask, 0), (DayCall::Commit(0), 1)] {
        for before in contents(15) {
            let (mut day, mut lent) = (row, before.clone());
            let answer = abi::call_day(call, &mut day, &late("w[6,12)2"), &mut lent);
            assert_eq!((answer.number, answer.values), (0, [2, 0, stamp]), "{call:?}");
            let (_, wanted) = ask(&row, &late("w[6,12)2"), 12);
            assert_eq!(lent.plan, [&wanted.plan[..], &before.plan[12..]].concat(), "{call:?}");
            assert!(lent.narrowed == wanted.narrowed && lent.bounds == wanted.bounds, "{call:?}");
        }
    }
}
