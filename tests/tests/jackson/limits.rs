//! The limits: no entries and 64, 1 minute and 1,440, one entry filling the day, and work above 65,535.

use dock_tests::check::{not_planned, overload, overloaded, planned, schedule, test_refused};
use dock_tests::day::{Interval, IDLE, LONGEST_DAY, MOST_ENTRIES};
use dock_tests::flat;
use dock_tests::samples::{plan, windows};

/// The longest day in bytes.
const LONGEST: usize = LONGEST_DAY as usize;

#[test]
fn a_day_of_one_minute() {
    assert_eq!(planned(&windows(1, &[(0, 1, 1)])), [0]);
    assert_eq!(overloaded(&windows(1, &[(0, 1, 1); 2])), Interval { a: 0, b: 1, work: 2 });
    assert_eq!(overloaded(&windows(1, &[(0, 1, 1); MOST_ENTRIES])), Interval { a: 0, b: 1, work: 64 });
}

#[test]
fn one_entry_fills_days_of_every_length() {
    for h in 1..=LONGEST_DAY {
        let (fields, bytes) = (flat::of_day(&windows(h, &[(0, h, h)])), usize::from(h));
        assert_eq!(schedule(&fields, bytes), Ok(vec![0; bytes]));
        not_planned(&fields, bytes - 1, 11, bytes);
    }
}

/// One minute more than fills the day is 7, a day of one minute more 2.
#[test]
fn one_entry_is_too_long_for_the_day() {
    let mut fields = flat::of_day(&windows(LONGEST_DAY, &[(0, 1440, 1440)]));
    fields[flat::at(0) + 5] = 1441;
    test_refused(&fields, 7, 0);
    not_planned(&fields, 1440, 7, 0);
    fields[0] = 1441;
    test_refused(&fields, 2, 0);
    not_planned(&fields, 1441, 2, 0);
}

/// The last minute of the day is planned, and the one before the first of a window is not.
#[test]
fn one_minute_at_either_end_of_the_longest_day() {
    let bytes = planned(&windows(LONGEST_DAY, &[(1439, 1440, 1), (0, 1, 1)]));
    assert_eq!((bytes[0], bytes[1439]), (1, 0));
    assert!(bytes[1..1439].iter().all(|&byte| byte == IDLE));
}

#[test]
fn sixty_four_entries_of_one_minute_each() {
    let wanted: Vec<u8> = (0..64).collect();
    assert_eq!(planned(&windows(64, &[(0, 64, 1); MOST_ENTRIES])), wanted);
    assert_eq!(overloaded(&windows(63, &[(0, 63, 1); MOST_ENTRIES])), Interval { a: 0, b: 63, work: 64 });
}

#[test]
fn sixty_four_entries_against_their_places() {
    let entries: Vec<_> = (0..64).map(|place| (63 - place, 64 - place, 1)).collect();
    let wanted: Vec<u8> = (0..64).rev().collect();
    assert_eq!(planned(&windows(64, &entries)), wanted);
}

#[test]
fn sixty_four_entries_of_22_minutes_in_the_longest_day() {
    let bytes = planned(&windows(LONGEST_DAY, &[(0, 1440, 22); MOST_ENTRIES]));
    let wanted = |minute| if minute < 64 * 22 { (minute / 22) as u8 } else { IDLE };
    assert_eq!(bytes, (0..LONGEST).map(wanted).collect::<Vec<_>>());
    let shown = overloaded(&windows(LONGEST_DAY, &[(0, 1440, 23); MOST_ENTRIES]));
    assert_eq!(shown, Interval { a: 0, b: 1440, work: 1472 });
}

/// 64 entries in a row, each interrupting the one before, and all of them ending the other way round.
#[test]
fn sixty_three_interruptions_one_inside_the_other() {
    let entries: Vec<_> = (0..64).map(|place| (place, 128 - place, 2)).collect();
    let wanted: Vec<u8> = (0..64).chain([63]).chain((0..63).rev()).collect();
    assert_eq!(planned(&windows(128, &entries)), wanted);
}

/// The work passes 65,535: 64 entries of p 1,440 in [0, 1440) have 92,160.
#[test]
fn the_greatest_work_is_92160() {
    let day = windows(LONGEST_DAY, &[(0, 1440, 1440); MOST_ENTRIES]);
    assert_eq!(overloaded(&day), Interval { a: 0, b: 1440, work: 92_160 });
    not_planned(&flat::of_day(&day), 1439, 11, 1440);
}

/// Work that is 65,536 more than a small number must not be taken for that number.
#[test]
fn work_is_not_reckoned_in_16_bits() {
    let mut entries = vec![(0, 1440, 1440); 45];
    entries.extend([(0, 1440, 736), (0, 1440, 1)]);
    let day = windows(LONGEST_DAY, &entries);
    assert_eq!(45 * 1440 + 736 + 1, 65_537);
    assert_eq!(overloaded(&day), Interval { a: 0, b: 1440, work: 65_537 });
    entries.truncate(46);
    let day = windows(LONGEST_DAY, &entries);
    assert_eq!(overloaded(&day), Interval { a: 0, b: 1440, work: 65_536 });
}

/// Work that fills its interval exactly is no overload, in the smallest and the longest interval.
#[test]
fn work_may_fill_its_interval() {
    assert_eq!(overload(&flat::of_day(&windows(LONGEST_DAY, &[(0, 1440, 720); 2]))), Ok(()));
    let shown = overloaded(&windows(LONGEST_DAY, &[(0, 1440, 720), (0, 1440, 721)]));
    assert_eq!(shown, Interval { a: 0, b: 1440, work: 1441 });
    assert_eq!(planned(&windows(3, &[(0, 3, 2), (1, 2, 1)])), plan("0 1 0"));
}
