//! Every small day as a room, eight rooms at a time: each ends as it would alone, within its turns.

use dock_tests::check_desk::{ends_as_alone, run, turn};
use dock_tests::day::Day;
use dock_tests::desk::{self, Desk, BEGUN, REFUSED, SETTLED};
use dock_tests::{opening, overload, small};

/// How many rooms were settled, refused with 9 and refused with 10; and of those that were settled how many took all
/// the rounds that they may take, by their number.
#[derive(Debug, Default, PartialEq, Eq)]
struct Seen {
    settled: usize,
    overloaded: usize,
    no_place: usize,
    exact: [usize; 5],
}

/// Runs these days as rooms, eight at a time and the rest in fewer, from each number in turn.
fn runs(days: impl Iterator<Item = Day>) -> Seen {
    let mut seen = Seen::default();
    let days: Vec<Day> = days.collect();
    for (number, days) in days.chunks(8).enumerate() {
        let given = Desk::of(days);
        let run = run(&given, number as u64 % 10);
        for (room, day) in days.iter().enumerate() {
            ends_as_alone(&given, &run, room);
            let [stage, rounds, _] = run.desk.row(room);
            match (stage, run.ended[room].refusal.number) {
                (SETTLED, 0) => seen.settled += 1,
                (REFUSED, 9) => seen.overloaded += 1,
                (REFUSED, 10) => seen.no_place += 1,
                other => panic!("{other:?} of {day:?}"),
            }
            let rounds = rounds as usize;
            let most = desk::most_rounds(given.share(room));
            seen.exact[rounds] += usize::from(stage == SETTLED && rounds == most);
        }
    }
    seen
}

/// 7,468 rooms take all the rounds that they may take: those whose whole boxes fill their windows take one, and in the
/// others every round but the last cuts one minute, until no whole box has one to spare.
#[test]
fn every_day_of_4_minutes_and_3_entries() {
    let seen = runs(small::days_up_to(4, 3));
    let ends = [seen.settled, seen.overloaded, seen.no_place];
    assert_eq!(ends, [small::SETTLED, small::OVERLOADED, small::NO_PLACE]);
    assert_eq!(seen.exact, [0, 5_306, 2_094, 68, 0]);
}

/// A room that is handed in as begun has no overload test. If its list is overloaded, its first whole box has no place,
/// and without a whole box it is settled as it is; else its round is that of a fresh room.
#[test]
fn every_day_as_a_begun_room() {
    for day in small::days_up_to(4, 3).filter(|day| day.h < 4 || day.entries.len() < 3) {
        let given = Desk::of(std::slice::from_ref(&day));
        let (mut fresh, mut begun) = (given.clone(), given.clone());
        begun.set_row(0, [BEGUN, 0, 0]);
        turn(&mut fresh, 0);
        let answer = turn(&mut begun, 0);
        let Some(_) = overload::shown(&day) else {
            assert!(begun == fresh, "{day:?}");
            continue;
        };
        assert_eq!(fresh.row(0), [REFUSED, 0, 0], "{day:?}");
        assert!(begun.lists == given.lists, "{day:?}");
        match day.entries.iter().position(|entry| entry.whole) {
            Some(place) => {
                assert_eq!((answer.values, begun.row(0)), ([0, 10, 0], [REFUSED, 0, 0]), "{day:?}");
                assert_eq!(begun.carried, [place as u64, 0, 0], "{day:?}");
            }
            None => assert_eq!((answer.values, begun.row(0)), ([0, 0, 0], [SETTLED, 1, 0]), "{day:?}"),
        }
    }
}

/// The same in rooms that open a minute or two after 0: the form grows where r leaves the opening minute.
#[test]
fn every_small_day_that_opens_later() {
    let seen = runs(opening::small_days());
    assert!(seen.settled > 1_000 && seen.overloaded > 1_000 && seen.no_place > 0, "{seen:?}");
}
