//! Every day of at most 4 minutes and 3 entries of both kinds: the search against all lists of starts and all plans, with
//! every limit; those of 5 minutes against the second search. None of them is without an unbroken day, but some that
//! need more entries are.

use dock_tests::check_unbroken::{by_trying_everything, every_limit, search, ANY, FOUND, NONE};
use dock_tests::narrow::{self, Narrowed};
use dock_tests::samples::{whole, windows};
use dock_tests::small::{days_of_both_kinds, days_up_to, NO_PLACE, OVERLOADED, SETTLED};
use dock_tests::told::Told;
use dock_tests::unbroken::{self, Ending};
use dock_tests::{flat, overload};

#[test]
fn every_day_is_searched_as_trying_everything_says() {
    let (mut found, mut refused) = (0, [0; 11]);
    for day in days_up_to(4, 3) {
        match by_trying_everything(&day) {
            Ok((ending, _)) => found += usize::from(ending == FOUND),
            Err(number) => refused[number as usize] += 1,
        }
    }
    assert_eq!([found, refused[9], refused[10]], [SETTLED, OVERLOADED, NO_PLACE]);
}

/// The second search, which is not the library, finds what trying everything finds, with as many trials as are counted.
/// The least starts in the given windows are those of all plans, in which no start is fixed.
#[test]
fn the_second_search_finds_what_trying_everything_finds() {
    let mut most = 0;
    let mut searched = 0;
    for day in days_up_to(4, 3).filter(|day| overload::shown(day).is_none()) {
        let least = unbroken::first_that_leaves_a_plan(&day);
        assert_eq!(least, unbroken::least_of_all_plans(&day), "{day:?}");
        let Ok(Narrowed { day: settled, .. }) = narrow::rounds(&day).outcome_after(0) else {
            assert_eq!(least, None, "{day:?}");
            continue;
        };
        let second = unbroken::search(&settled, ANY);
        let ending = least.clone().map_or(Ending::None, Ending::Found);
        assert_eq!(second.ending, ending, "{day:?}");
        let counted = unbroken::trials_by_counting(&settled, least.as_deref());
        assert_eq!(second.trials as usize, counted, "{day:?}");
        most = most.max(second.trials);
        searched += 1;
    }
    assert_eq!((searched, most), (SETTLED, 13));
}

/// Every limit from none to one more than is needed.
#[test]
fn every_limit_of_every_day() {
    let mut trials = 0;
    for day in days_up_to(4, 3).filter(|day| overload::shown(day).is_none()) {
        trials += every_limit(&day, 14).values[2];
    }
    assert!(trials > SETTLED as u64, "{trials} trials");
}

/// One minute more, searched as the second search says.
#[test]
fn the_days_of_5_minutes() {
    let mut told = Told::default();
    for day in (0..=3).flat_map(|n| days_of_both_kinds(5, n)) {
        told.count(search(&flat::of_day(&day), ANY, 5).0.number as usize);
    }
    told.more_than(1_000, &[0, 9, 10]);
    assert_eq!(told.all(), 1 + 70 + 70 * 70 + 70 * 70 * 70);
}

/// Three whole entries of two minutes in every window of 7 minutes that has room for them, around a minute that a pause
/// entry has: against trying everything. Here some days have none.
#[test]
fn three_whole_entries_around_a_fixed_minute() {
    let roomy = [(0, 7), (0, 6), (1, 7), (1, 6), (0, 5), (2, 7)];
    let mut seen = [0; 11];
    for minute in 0..7 {
        for number in 0..roomy.len().pow(3) {
            let digit = |place: u32| roomy[number / roomy.len().pow(place) % roomy.len()];
            let mut entries = Vec::from_iter((0..3).map(|place| (digit(place).0, digit(place).1, 2)));
            entries.push((minute, minute + 1, 1));
            let day = whole(windows(7, &entries), &[0, 1, 2]);
            match by_trying_everything(&day) {
                Ok((ending, _)) => seen[ending as usize] += 1,
                Err(number) => seen[number as usize] += 1,
            }
        }
    }
    let [found, none] = [FOUND, NONE].map(|ending| seen[ending as usize]);
    assert_eq!(seen.iter().sum::<usize>(), 7 * 216);
    assert!(found > 300 && none > 0 && seen[10] > 100, "{seen:?}");
}
