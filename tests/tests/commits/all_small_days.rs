//! Every day of at most 4 minutes and 2 entries of either kind that can be planned, with every entry that it
//! may have.

use dock_tests::check_commits::{commit, fresh};
use dock_tests::commits::{self, STAMP};
use dock_tests::day::{Day, Entry};
use dock_tests::{flat, small};

/// Commits each entry of either kind to the fresh day of a list. Gives the days that have success, and the
/// numbers told.
fn committed(day: &Day, told: &mut [usize; 11]) -> Vec<Day> {
    let Ok(row) = fresh(&flat::of_day(day)) else { return vec![] };
    let mut longer = vec![];
    for ((r, d, p), whole) in
        small::entries(day.h).into_iter().flat_map(|times| [(times, false), (times, true)])
    {
        let entry = Entry { serial: 201, seal: None, r, d, p, whole };
        let mut after = row;
        let (answer, _) = commit(&mut after, &flat::numbers(&entry), 0, day.h.into());
        told[answer.number as usize] += 1;
        if answer.number == 0 {
            assert_eq!(after[STAMP], 1);
            longer.push(Day { entries: [&day.entries[..], &[entry]].concat(), ..*day });
        }
    }
    longer
}

/// A list that can be planned can be planned without its last entry too. So each such list of 1 to 3 entries
/// comes of one commit to one day, and what comes of a commit is such a list.
#[test]
fn each_list_that_can_be_planned_comes_of_one_commit() {
    let mut told = [0; 11];
    for day in small::days_up_to(4, 2) {
        for longer in committed(&day, &mut told) {
            let row = fresh(&flat::of_day(&longer)).expect("a list that can be planned");
            assert!(row == commits::row(&longer, 0), "{longer:?}");
        }
    }
    let empty = 4;
    assert_eq!(told[0], small::SETTLED - empty);
    assert!(told[9] > 10_000 && told[10] > 100, "{told:?}");
    assert_eq!(told.iter().sum::<usize>(), told[0] + told[9] + told[10]);
}
