//! Days of 1,440 minutes and 64 entries against the second search, each with a limit, as the trials may be many.

use dock_tests::check_unbroken::{finds, searched, ANY, FOUND, SPENT};
use dock_tests::classes::{self, Class};
use dock_tests::day::{Day, IDLE, LONGEST_DAY, MOST_ENTRIES};
use dock_tests::flat;
use dock_tests::samples::{boxes, whole, windows};

/// The days of a class by what a search of so many trials answers: found and spent.
#[track_caller]
fn endings(class: &Class, days: usize, limit: u32) -> [usize; 2] {
    let mut seen = [0; 4];
    for day in class.days().take(days) {
        seen[searched(&day, limit).0.values[1] as usize] += 1;
    }
    [seen[FOUND as usize], seen[SPENT as usize]]
}

#[test]
fn full_days_of_each_class() {
    let planned = classes::ALL.iter().filter(|class| class.number == 0);
    let mut seen = [0; 2];
    for class in planned {
        let [found, spent] = endings(class, 3, 150);
        assert_eq!(found + spent, 3, "{}", class.name);
        seen = [seen[0] + found, seen[1] + spent];
    }
    assert!(seen[0] > 0 && seen[1] > 0, "found and spent: {seen:?}");
}

/// Whole entries behind a block of 1,300 minutes: entry k, from 1 on, is tried at k minutes.
#[test]
fn whole_entries_behind_a_long_block() {
    let mut entries = vec![(0, LONGEST_DAY, 1); MOST_ENTRIES];
    entries[0] = (0, 1300, 1300);
    let day = whole(windows(LONGEST_DAY, &entries), &Vec::from_iter(1..MOST_ENTRIES));
    let behind: Vec<u8> = (1..64).collect();
    let minutes = [vec![0; 1300], behind, vec![IDLE; 77]].concat();
    let starts = Vec::from_iter([0].into_iter().chain(1300..1363));
    finds(&day, 2016, &starts, &minutes);
    assert_eq!(searched(&day, 2016).0.values[0], 63, "moves");
}

/// Torn over the whole day, with very many starts: spent, and the windows are answered all the same.
#[test]
fn torn_over_the_longest_day() {
    let day = boxes(LONGEST_DAY, "w[0,1440)411 w[0,1440)411 w[0,1440)411 p[719,720)1");
    for limit in [0, 1, 1_000, 5_000] {
        let (answer, lent) = searched(&day, limit);
        assert_eq!((answer.number, answer.values), (0, [0, SPENT, limit.into()]));
        assert!(lent.narrowed == flat::of_day(&day), "settled");
    }
}

/// A day that is full, in which every whole entry has one place.
#[test]
fn a_full_day_without_a_choice() {
    let entries = Vec::from_iter((0..MOST_ENTRIES as u16).map(|turn| (22 * turn, 22 * turn + 22, 22)));
    let day = Day { h: LONGEST_DAY, ..whole(windows(1408, &entries), &Vec::from_iter(0..MOST_ENTRIES)) };
    let starts = Vec::from_iter((0..64).map(|turn| 22 * turn));
    let minutes = Vec::from_iter((0..1440_u16).map(|m| if m < 1408 { (m / 22) as u8 } else { IDLE }));
    finds(&day, 64, &starts, &minutes);
    assert_eq!(searched(&day, ANY).0.values, [0, FOUND, 64]);
}
