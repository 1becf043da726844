//! Classes of full days: each day is settled or refused as the second narrowing says, from the windows given and from
//! those that its rounds leave, and each class is what it is meant to be.

use dock_tests::check_narrow::{rounds, settle};
use dock_tests::classes::{self, Class, DAYS};
use dock_tests::day::{Day, Entry, Refusal};
use dock_tests::narrow::Rounds;
use dock_tests::{flat, overload};

/// The rounds of each day of a class that is planned.
#[track_caller]
fn planned(class: &Class) -> Vec<Rounds> {
    assert_eq!(class.number, 0, "{}", class.name);
    let made = Vec::from_iter(class.days().map(|day| rounds(&day)));
    for (seed, rounds) in (1..).zip(&made) {
        assert_eq!(rounds.refusal, None, "{}, seed {seed}", class.name);
    }
    made
}

/// The moves of all rounds of each day.
fn moves(made: &[Rounds]) -> Vec<u64> {
    made.iter().map(|rounds| rounds.moves().iter().sum()).collect()
}

/// The number of rounds of each day.
fn numbers_of_rounds(made: &[Rounds]) -> Vec<usize> {
    made.iter().map(|rounds| rounds.done.len()).collect()
}

#[test]
fn each_class_has_twelve_different_days() {
    for class in &classes::ALL {
        let days: Vec<Day> = class.days().collect();
        assert_eq!(days.len() as u64, DAYS, "{}", class.name);
        for (place, day) in days.iter().enumerate() {
            assert!(!days[..place].contains(day), "{}, seed {}", class.name, place + 1);
        }
    }
}

/// Little is moved, and something on most days.
#[test]
fn loose_windows_around_a_plan() {
    let moves = moves(&planned(&classes::LOOSE));
    assert!(moves.iter().filter(|&&moves| moves > 0).count() > 6, "{moves:?}");
    assert!(moves.iter().all(|&moves| moves < 20), "{moves:?}");
}

#[test]
fn tight_windows_around_a_plan() {
    let moves = moves(&planned(&classes::TIGHT));
    assert!(moves.iter().all(|&moves| moves > 40), "{moves:?}");
}

#[test]
fn tight_windows_of_whole_entries() {
    let moves = moves(&planned(&classes::ALL_WHOLE));
    assert!(moves.iter().all(|&moves| moves > 70), "{moves:?}");
    assert!(classes::ALL_WHOLE.days().all(|day| day.entries.iter().all(|entry| entry.whole)));
}

/// A chain of 20 to 28 entries, of which each round settles one, and a last round without moves.
#[test]
fn many_rounds() {
    let made = numbers_of_rounds(&planned(&classes::MANY_ROUNDS));
    assert!(made.iter().all(|made| (21..=29).contains(made)), "{made:?}");
}

/// In each quarter of the day each window lies inside all that begin earlier. Whole entries come to one side of those
/// inside theirs.
#[test]
fn nested_windows() {
    for mut day in classes::NESTED.days() {
        day.entries.sort_by_key(|entry| entry.r);
        for quarter in day.entries.chunks(16) {
            let inside = |pair: &[Entry]| pair[0].r < pair[1].r && pair[1].d < pair[0].d;
            assert!(quarter.windows(2).all(inside), "{quarter:?}");
        }
    }
    let moves = moves(&planned(&classes::NESTED));
    assert!(moves.iter().all(|&moves| moves > 5), "{moves:?}");
}

/// Many of the 24 whole entries begin after the last pause entry at last, though their windows begin before it.
#[test]
fn a_comb_of_pause_entries() {
    let made = planned(&classes::COMB);
    for (given, rounds) in classes::COMB.days().zip(&made) {
        let pauses = given.entries.iter().filter(|entry| !entry.whole);
        assert!(pauses.clone().all(|pause| pause.d == pause.r + 1), "{given:?}");
        assert_eq!(pauses.clone().count(), 40, "{given:?}");
        let end = pauses.map(|pause| pause.d).max().expect("a comb");
        let settled = &rounds.done.last().expect("a last round").day;
        let pairs = given.entries.iter().zip(&settled.entries).filter(|(given, _)| given.whole);
        let moved = pairs.filter(|(given, settled)| given.r < end && end <= settled.r).count();
        assert!(moved > 9, "{moved} of 24");
    }
}

/// The 40 entries of a wall have all its minutes, so that no first and no last place of another entry meets it.
#[test]
fn a_wall_of_short_deadlines() {
    for (given, rounds) in classes::WALL.days().zip(planned(&classes::WALL)) {
        let (first, end) = wall(&given).expect("a wall");
        let settled = &rounds.done.last().expect("a last round").day;
        let others = settled.entries.iter().filter(|entry| entry.r < first || end < entry.d);
        let beside = |start: u16, p: u16| start + p <= first || end <= start;
        assert!(others.clone().all(|entry| beside(entry.r, entry.p)), "{settled:?}");
        assert!(others.clone().all(|entry| beside(entry.d - entry.p, entry.p)), "{settled:?}");
        assert_eq!(others.count(), 24, "{settled:?}");
    }
}

/// An interval that the work of 40 entries inside it fills.
fn wall(day: &Day) -> Option<(u16, u16)> {
    let pairs = day.entries.iter().flat_map(|first| day.entries.iter().map(|last| (first.r, last.d)));
    let inside = |a, b| day.entries.iter().filter(|entry| a <= entry.r && entry.d <= b).count();
    pairs
        .filter(|(a, b)| a < b)
        .find(|&(a, b)| inside(a, b) == 40 && overload::work(day, a, b) == u64::from(b - a))
}

/// The pause entry may have any minute of the day.
#[test]
fn one_long_pause_entry() {
    for day in classes::LONG_PAUSE.days() {
        let long = day.entries.iter().filter(|entry| entry.p > 700).collect::<Vec<_>>();
        assert!(matches!(long[..], [entry] if !entry.whole && (entry.r, entry.d) == (0, day.h)), "{day:?}");
    }
    planned(&classes::LONG_PAUSE);
}

#[test]
fn days_refused_by_9() {
    assert_eq!(classes::REFUSED_BY_9.number, 9);
    for day in classes::REFUSED_BY_9.days() {
        let refusal = settle(&flat::of_day(&day)).expect_err("must be overloaded");
        assert!(matches!(refusal, Refusal::Overloaded(_)), "{refusal:?}");
    }
}

/// Each is refused after more than 15 rounds, all of which make moves.
#[test]
fn days_refused_by_10_late() {
    assert_eq!(classes::REFUSED_BY_10.number, 10);
    for day in classes::REFUSED_BY_10.days() {
        let Rounds { done, refusal } = rounds(&day);
        assert!(matches!(refusal, Some(Refusal::NoPlace { .. })), "{refusal:?}");
        assert!(done.len() > 15 && done.iter().all(|round| round.moves > 0), "{} rounds", done.len());
    }
}
