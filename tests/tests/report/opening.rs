//! Days with an opening minute. The report has no field for it, and all its minutes are the day's: it is the report of
//! the day that has every r written and no opening minute.

use dock_tests::check_report::{number, report};
use dock_tests::opening::{later, possible, without};
use dock_tests::random::{self, Random};
use dock_tests::samples::{boxes, hex, longest, opened_document};
use dock_tests::told::Told;
use dock_tests::{day::Day, small, writer};

/// Document 01's sample five minutes later: the texts of the sample with 5 added to every minute.
#[test]
fn the_sample_five_minutes_later() {
    let lines = [
        "day 17 entries 3 moves 1 broken 0",
        "0 501 - pause 5 17 4 14 13",
        "1 502 77 whole 10 13 3 13 10",
        "2 503 78 pause 8 11 2 10 8",
        "5 8 0",
        "8 10 2",
        "10 13 1",
        "13 14 0",
    ];
    assert_eq!(report(&opened_document()), lines.join("\n") + "\n");
}

#[test]
fn days_without_entries() {
    for (h, opening) in [(2, 1), (100, 99), (1440, 258), (1440, 1439)] {
        let text = report(&writer::form(&Day { h, opening, entries: vec![] }));
        assert_eq!(text, format!("day {h} entries 0 moves 0 broken 0\n"));
    }
}

#[test]
fn how_15_and_16_print() {
    assert_eq!(report(&hex("64 00 80 00 00")), "refused 15 at 3\n");
    assert_eq!(report(&hex("64 00 80 64 00")), "refused 15 at 3\n");
    assert_eq!(report(&hex("01 00 80 01 00")), "refused 15 at 3\n");
    assert_eq!(report(&hex("64 00 81 07 00 | 15 09000000 0000 0100")), "refused 16 at 5\n");
    assert_eq!(
        report(&hex("64 00 82 07 00 | 11 08000000 0100 | 15 09000000 0600 0100")),
        "refused 16 at 12\n"
    );
    assert_eq!(report(&hex("64 00 80")), "refused 1 at 3\n");
    assert_eq!(report(&hex("64 00 80 07")), "refused 1 at 4\n");
    assert_eq!(report(&hex("64 00 C1")), "refused 3 at 2\n");
}

/// 9 tells minutes of the day, not of the time since the room opened.
#[test]
fn how_9_and_10_print() {
    let overloaded = Day { opening: 7, ..boxes(17, "p[9,12)2 p[9,12)2") };
    assert_eq!(report(&writer::form(&overloaded)), "refused 9 from 9 to 12 work 4\n");
    let no_place = Day { opening: 7, ..boxes(13, "w[7,13)3 p[9,11)2") };
    assert_eq!(report(&writer::form(&no_place)), "refused 10 entry 0\n");
}

/// The report is the same whenever the room opens. How often it opens after 0.
#[track_caller]
fn same_whenever_it_opens(day: &Day) -> usize {
    let wanted = report(&writer::form(&without(day)));
    for opening in possible(day) {
        assert_eq!(report(&writer::form(&Day { opening, ..day.clone() })), wanted, "{opening}, {day:?}");
    }
    possible(day).len() - 1
}

#[test]
fn every_small_day_with_every_opening_minute() {
    let days = small::days_up_to(3, 2).chain(small::days_of_both_kinds(4, 2));
    let opened: usize = days.map(|day| same_whenever_it_opens(&day)).sum();
    assert!(opened > 200, "{opened} with an opening minute");
}

#[test]
fn a_thousand_days_with_every_opening_minute() {
    let mut random = Random::new(251);
    let mut told = Told::default();
    let mut opened = 0;
    for _ in 0..1_000 {
        let day = random::mixed_day(&mut random, 12, 5);
        let by = random.within(1, 9);
        let day = later(&day, by);
        opened += same_whenever_it_opens(&day);
        told.count(number(&report(&writer::form(&day))));
    }
    told.at_least(&[(0, 400), (9, 150), (10, 10)]);
    assert!(opened > 3_000, "{opened} with an opening minute");
}

#[test]
fn a_longest_list() {
    let text = report(&writer::form(&longest()));
    assert!(text.starts_with("day 1440 entries 64 moves 0 broken 0\n0 17040130 0 pause 301 318 1 302 317\n"));
    assert_eq!(text, report(&writer::form(&without(&longest()))));
    assert_eq!(text.lines().count(), 1 + 64 + 64);
}
