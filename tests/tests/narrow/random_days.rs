//! Random days of both kinds, fixed by their seeds: small ones against trying everything, longer ones against
//! the second narrowing, and others against their mirror.

use dock_tests::check::number;
use dock_tests::check_narrow::{by_trying_everything, rounds, settle};
use dock_tests::day::{Day, Refusal};
use dock_tests::random::{self, each_of, Count, Random};
use dock_tests::told::Told;
use dock_tests::{abi, flat, mirror, narrow};

/// How often days were settled without moves, in so many rounds with moves (5 or more counted as 5), refused
/// with 9, and refused with 10 in round one or later.
#[derive(Debug, Default)]
struct Seen {
    rounds: [usize; 6],
    overloaded: usize,
    no_place: usize,
    no_place_later: usize,
}

impl Count for Seen {
    fn count(&mut self, day: &Day) {
        if abi::overload(&flat::of_day(day)).number == 9 {
            self.overloaded += 1;
            return;
        }
        let rounds = narrow::rounds(day);
        match (rounds.refusal, rounds.done.len()) {
            (Some(_), 0) => self.no_place += 1,
            (Some(_), _) => self.no_place_later += 1,
            (None, all) => self.rounds[(all - 1).min(5)] += 1,
        }
    }
}

fn up_to(most: u16, n: usize) -> impl Fn(&mut Random) -> Day {
    move |random| random::mixed_day(random, most, n)
}

#[test]
fn ten_thousand_small_days_against_trying_everything() {
    let seen: Seen = each_of(10_000, 101, up_to(6, 4), by_trying_everything);
    assert!(seen.rounds[0] > 3_000 && seen.rounds[1] > 1_000 && seen.rounds[2] > 50, "{seen:?}");
    assert!(seen.overloaded > 1_000 && seen.no_place > 100, "{seen:?}");
}

#[test]
fn late_refusals_against_trying_everything() {
    let seen: Seen = each_of(2_000, 102, random::crossed_day, by_trying_everything);
    assert!(seen.no_place > 100 && seen.no_place_later > 10, "{seen:?}");
}

#[test]
fn ten_thousand_days_of_up_to_12_minutes_against_the_second_narrowing() {
    let seen: Seen = each_of(10_000, 103, up_to(12, 6), |day| settle(&flat::of_day(day)));
    assert!(seen.rounds[..3].iter().all(|&count| count > 100), "{seen:?}");
    assert!(seen.overloaded > 1_000 && seen.no_place > 200, "{seen:?}");
}

#[test]
fn three_thousand_days_of_up_to_60_minutes_against_the_second_narrowing() {
    let seen: Seen = each_of(3_000, 104, up_to(60, 12), |day| {
        if abi::overload(&flat::of_day(day)).number == 9 {
            let _ = settle(&flat::of_day(day));
        } else {
            rounds(day);
        }
    });
    assert!(seen.rounds[..4].iter().all(|&count| count > 20), "{seen:?}");
    assert!(seen.overloaded > 500 && seen.no_place > 100, "{seen:?}");
}

/// Days of which some serials are doubled: 14 before 9 and 10, and where it is not told the days are settled or
/// refused as ever, which trying everything says too.
#[test]
fn days_with_doubled_serials_against_the_second_narrowing() {
    let mut random = Random::new(106);
    let mut told = Told::default();
    for turn in 0..4_000 {
        let day = match turn % 4 {
            0 => random::crossed_day(&mut random),
            1 => random::mixed_day(&mut random, 6, 4),
            _ => random::mixed_day(&mut random, 30, 8),
        };
        let day = random::with_doubled_serials(&mut random, day, 4);
        let answer = number(&settle(&flat::of_day(&day)));
        told.count(answer);
        if turn % 4 == 1 && answer != 14 {
            assert_eq!(by_trying_everything(&day).number, answer as u64, "{day:?}");
        }
    }
    told.more_than(100, &[0, 9, 10, 14]);
}

/// A visit gives r the least and d the greatest of one set of starts, so the mirror of a day is settled with
/// the mirrored windows and as many moves, or refused with 10 at the same place; and an overloaded one is
/// overloaded.
#[test]
fn the_mirror_of_a_day_is_settled_alike() {
    let seen: Seen = each_of(5_000, 105, up_to(20, 8), |day| {
        let turned = settle(&flat::of_day(&mirror::day(day)));
        match settle(&flat::of_day(day)) {
            Ok(narrowed) => {
                let found = turned.expect("settled as well");
                let windows = Day { opening: day.opening, ..mirror::day(&found.day) };
                assert_eq!((windows, found.moves), (narrowed.day, narrowed.moves), "{day:?}");
            }
            Err(refusal @ Refusal::NoPlace { .. }) => assert_eq!(turned, Err(refusal), "{day:?}"),
            Err(_) => assert!(matches!(turned, Err(Refusal::Overloaded(_))), "{day:?}"),
        }
    });
    assert!(seen.rounds[..3].iter().all(|&count| count > 50), "{seen:?}");
    assert!(seen.overloaded > 500 && seen.no_place > 100, "{seen:?}");
}
