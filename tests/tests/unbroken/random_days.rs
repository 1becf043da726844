//! Random days of both kinds, fixed by their seeds: small ones against trying everything, longer ones against the second
//! search.

use dock_tests::check_unbroken::{by_trying_everything, search, ANY, FOUND, NONE, SPENT};
use dock_tests::day::Day;
use dock_tests::narrow::{self, Narrowed};
use dock_tests::random::{self, Random};
use dock_tests::told::Told;
use dock_tests::unbroken::{self, Ending};
use dock_tests::{flat, overload};

/// So many days of a sort.
fn days(seed: u64, times: usize, make: impl Fn(&mut Random) -> Day) -> impl Iterator<Item = Day> {
    let mut random = Random::new(seed);
    (0..times).map(move |_| make(&mut random))
}

/// How often each ending, or refusal, is answered of these days by trying everything.
fn seen(days: impl Iterator<Item = Day>) -> [usize; 11] {
    let mut seen = [0; 11];
    for day in days {
        match by_trying_everything(&day) {
            Ok((ending, _)) => seen[ending as usize] += 1,
            Err(number) => seen[number as usize] += 1,
        }
    }
    seen
}

#[test]
fn two_thousand_small_days_against_trying_everything() {
    let seen = seen(days(811, 2_000, random::small_day));
    assert!(seen[FOUND as usize] > 500 && seen[9] > 200 && seen[10] > 10, "{seen:?}");
}

/// Wide whole entries around fixed minutes: many have no unbroken day though they are settled.
#[test]
fn gapped_days_against_trying_everything() {
    let seen = seen(days(812, 600, |random| random::gapped_day(random, 8)));
    assert!(seen[FOUND as usize] > 100 && seen[NONE as usize] > 10, "{seen:?}");
}

#[test]
fn crossed_days_against_trying_everything() {
    let seen = seen(days(813, 600, random::crossed_day));
    assert!(seen[FOUND as usize] > 100 && seen[10] > 100, "{seen:?}");
}

/// The second search, which is not the library, against all lists of starts of the given windows.
#[test]
fn the_second_search_against_trying_everything() {
    let mut ends = [0; 2];
    let gapped = days(814, 800, |random| random::gapped_day(random, 9));
    for day in days(815, 1_500, random::small_day).chain(gapped) {
        if overload::shown(&day).is_some() {
            continue;
        }
        let least = unbroken::first_that_leaves_a_plan(&day);
        let Ok(Narrowed { day: settled, .. }) = narrow::rounds(&day).outcome_after(0) else {
            assert_eq!(least, None, "{day:?}");
            continue;
        };
        let second = unbroken::search(&settled, ANY);
        assert_eq!(second.ending, least.clone().map_or(Ending::None, Ending::Found), "{day:?}");
        let counted = unbroken::trials_by_counting(&settled, least.as_deref());
        assert_eq!(second.trials as usize, counted, "{day:?}");
        ends[usize::from(least.is_some())] += 1;
    }
    assert!(ends[0] > 10 && ends[1] > 500, "none, found: {ends:?}");
}

/// Longer days with any limit, against the second search.
#[test]
fn two_thousand_days_against_the_second_search() {
    let mut random = Random::new(816);
    let mut told = Told::default();
    let mut seen = [0; 4];
    for turn in 0..2_000 {
        let day = match turn % 4 {
            0 => random::mixed_day(&mut random, 40, 8),
            1 => random::nested_day(&mut random, 12, 6),
            2 => random::unbroken_day(&mut random, 60, 12, turn % 8 < 4, 15),
            _ => random::gapped_day(&mut random, if turn % 8 < 4 { 9 } else { 30 }),
        };
        let limit = random.pick(&[0, 1, 5, 20, 100, 400]);
        let (answer, _) = search(&flat::of_day(&day), limit, day.h.into());
        told.count(answer.number as usize);
        if answer.number == 0 {
            seen[answer.values[1] as usize] += 1;
        }
    }
    told.more_than(50, &[0, 9, 10]);
    let [found, none, spent] = [FOUND, NONE, SPENT].map(|ending| seen[ending as usize]);
    assert!(found > 300 && none > 5 && spent > 100, "found, none, spent: {:?}", [found, none, spent]);
}
