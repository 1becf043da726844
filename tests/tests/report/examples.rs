//! Document 01's examples (a) to (h) as reports, and days that show one rule of the lines. The texts are
//! worked out by hand.

use dock_tests::check_report::report;
use dock_tests::clashes::{depot, merged};
use dock_tests::day::Day;
use dock_tests::samples::{boxes, with_serials};
use dock_tests::writer;

/// Both programs report this day so.
#[track_caller]
fn says(day: &Day, lines: &[&str]) {
    let text = report(&writer::form(day));
    assert_eq!(text, lines.join("\n") + "\n", "{day:?}");
}

/// "(a) both whole, H 4, [0,3) p 2 and [0,4) p 2: settled [0,2) and [2,4)"
#[test]
fn example_a() {
    let lines = [
        "day 4 entries 2 moves 2 broken 0",
        "0 101 - whole 0 2 2 2 0",
        "1 102 - whole 2 4 2 4 2",
        "0 2 0",
        "2 4 1",
    ];
    says(&boxes(4, "w[0,3)2 w[0,4)2"), &lines);
}

/// "(b) the same, second entry pause: no move; its least end is 4, greatest start 2."
#[test]
fn example_b() {
    let lines = [
        "day 4 entries 2 moves 0 broken 0",
        "0 101 - whole 0 3 2 2 1",
        "1 102 - pause 0 4 2 4 2",
        "0 2 0",
        "2 4 1",
    ];
    says(&boxes(4, "w[0,3)2 p[0,4)2"), &lines);
}

/// "(c) H 10, [2,5) p 2 twice: 9, from 2 to 5, work 4. With p 2 and 1: accepted." The shorter one goes first.
#[test]
fn example_c() {
    says(&boxes(10, "p[2,5)2 p[2,5)2"), &["refused 9 from 2 to 5 work 4"]);
    let lines = [
        "day 10 entries 2 moves 0 broken 0",
        "0 101 - pause 2 5 2 4 3",
        "1 102 - pause 2 5 1 3 4",
        "2 3 1",
        "3 5 0",
    ];
    says(&boxes(10, "p[2,5)2 p[2,5)1"), &lines);
}

/// "(d) H 4, [0,4) p 2, [2,4) p 2, [2,4) p 1: 9, from 2 to 4, work 3."
#[test]
fn example_d() {
    says(&boxes(4, "p[0,4)2 p[2,4)2 p[2,4)1"), &["refused 9 from 2 to 4 work 3"]);
}

/// "(e) H 6, whole [0,6) p 3, pause [2,4) p 2: 10, entry 0."
#[test]
fn example_e() {
    says(&boxes(6, "w[0,6)3 p[2,4)2"), &["refused 10 entry 0"]);
}

/// "(f) H 6, pause [1,6) p 2, pause [0,6) p 3: place 1 has minutes 0 to 2, place 0 has 3 and 4."
#[test]
fn example_f() {
    let lines = [
        "day 6 entries 2 moves 0 broken 0",
        "0 101 - pause 1 6 2 3 4",
        "1 102 - pause 0 6 3 3 3",
        "0 3 1",
        "3 5 0",
    ];
    says(&boxes(6, "p[1,6)2 p[0,6)3"), &lines);
}

/// "(g) as (f), place 0 with d 5: place 1 at 0, place 0 at 1 and 2, place 1 at 3 and 4."
#[test]
fn example_g() {
    let lines = [
        "day 6 entries 2 moves 0 broken 0",
        "0 101 - pause 1 5 2 3 3",
        "1 102 - pause 0 6 3 3 3",
        "0 1 1",
        "1 3 0",
        "3 5 1",
    ];
    says(&boxes(6, "p[1,5)2 p[0,6)3"), &lines);
}

/// "(h) `01 00 00`: accepted, one idle minute." An idle minute has no line.
#[test]
fn example_h() {
    assert_eq!(report(&[1, 0, 0]), "day 1 entries 0 moves 0 broken 0\n");
}

/// Idle minutes before, between and after the entries have no line.
#[test]
fn idle_minutes_have_no_line() {
    let lines = [
        "day 9 entries 2 moves 0 broken 0",
        "0 101 - pause 5 7 2 7 5",
        "1 102 - pause 1 3 2 3 1",
        "1 3 1",
        "5 7 0",
    ];
    says(&boxes(9, "p[5,7)2 p[1,3)2"), &lines);
}

/// A run ends where another entry begins, though no minute is idle between them.
#[test]
fn a_run_is_of_one_entry() {
    let lines = [
        "day 3 entries 3 moves 0 broken 0",
        "0 101 - pause 2 3 1 3 2",
        "1 102 - pause 1 2 1 2 1",
        "2 103 - pause 0 1 1 1 0",
        "0 1 2",
        "1 2 1",
        "2 3 0",
    ];
    says(&boxes(3, "p[2,3)1 p[1,2)1 p[0,1)1"), &lines);
}

/// Windows, bounds and runs are those after narrowing: as given, place 0 could have minutes 0 and 2, and
/// place 2 the last one. One move is counted.
#[test]
fn all_is_said_of_the_settled_windows() {
    let lines = [
        "day 4 entries 3 moves 1 broken 0",
        "0 101 - whole 2 4 2 4 2",
        "1 102 - pause 1 2 1 2 1",
        "2 103 - pause 0 4 1 1 0",
        "0 1 2",
        "1 2 1",
        "2 4 0",
    ];
    says(&boxes(4, "w[0,4)2 p[1,2)1 p[0,4)1"), &lines);
}

/// "`broken` counts whole entries whose planned minutes are not consecutive": once each, and no pause
/// entries.
#[test]
fn broken_counts_whole_entries_once() {
    let broken = |h, entries| {
        let text = report(&writer::form(&boxes(h, entries)));
        let head = text.lines().next().expect("a head line");
        head.rsplit(' ').next().expect("a field").to_string()
    };
    assert_eq!(broken(4, "w[0,4)2 w[1,3)1"), "1");
    assert_eq!(broken(4, "p[0,4)2 w[1,3)1"), "0", "a broken pause entry");
    assert_eq!(broken(9, "w[0,9)3 w[1,5)1 w[3,7)1"), "1", "broken in three pieces");
    assert_eq!(broken(9, "w[0,9)2 w[1,8)2 w[2,4)1"), "2", "one inside the other");
}

/// A doubled serial stands in two lines, with a place of its own in each.
#[test]
fn one_serial_twice() {
    let lines = [
        "day 6 entries 2 moves 0 broken 0",
        "0 7 - pause 1 3 2 3 1",
        "1 7 - pause 3 6 2 5 4",
        "1 3 0",
        "3 5 1",
    ];
    says(&with_serials(boxes(6, "p[1,3)2 p[3,6)2"), &[7, 7]), &lines);
}

/// Where the windows share a minute the list is turned back, by the place of the later entry's map: 3 bytes of the
/// header, and 11 of an entry with r and d, 9 with one of them, 7 with none.
#[test]
fn one_box_in_two_places() {
    says(&with_serials(boxes(6, "p[1,5)2 p[1,5)2"), &[7, 7]), &["refused 14 at 14"]);
    says(&with_serials(boxes(6, "p[0,5)2 p[4,6)2"), &[7, 7]), &["refused 14 at 12"]);
    says(&with_serials(boxes(6, "p[0,6)2 p[4,6)2"), &[0, 0]), &["refused 14 at 10"]);
    says(&with_serials(boxes(6, "p[0,6)2 p[1,5)2 p[2,6)1"), &[7, 8, 7]), &["refused 14 at 21"]);
    says(&with_serials(boxes(6, "p[0,6)2 p[1,5)2 p[2,6)1"), &[7, 8, 8]), &["refused 14 at 21"]);
    says(&with_serials(boxes(6, "p[0,6)2 p[1,5)2 p[2,6)1"), &[7, 7, 7]), &["refused 14 at 10"]);
}

/// 14 comes before 9 and 10: without it these days would be refused by their windows.
#[test]
fn one_box_in_two_places_comes_before_the_windows() {
    says(&boxes(10, "p[2,5)2 p[2,5)2"), &["refused 9 from 2 to 5 work 4"]);
    says(&with_serials(boxes(10, "p[2,5)2 p[2,5)2"), &[7, 7]), &["refused 14 at 14"]);
    says(&boxes(6, "w[0,6)3 p[2,4)2"), &["refused 10 entry 0"]);
    says(&with_serials(boxes(6, "w[0,6)3 p[2,4)2"), &[7, 7]), &["refused 14 at 10"]);
}

/// 8 comes before 14, and so do 6 and 7 of a later entry.
#[test]
fn one_box_in_two_places_comes_after_the_bytes() {
    let bytes = writer::form(&with_serials(boxes(9, "p[0,9)2 p[0,9)2 p[0,9)2"), &[7, 7, 7]));
    assert_eq!(report(&bytes), "refused 14 at 10\n");
    assert_eq!(report(&[&bytes[..], &[0]].concat()), "refused 8 at 24\n");
    assert_eq!(report(&bytes[..23]), "refused 1 at 23\n");
    for (p, text) in [(0, "refused 6 at 17\n"), (10, "refused 7 at 17\n")] {
        let mut wrong = bytes.clone();
        wrong[22] = p;
        assert_eq!(report(&wrong), text);
    }
}

/// Two depots' lists of one day in one: in other hours each box has its line, and its runs.
#[test]
fn two_depots_in_one_report() {
    let (morning, noon) = (depot(0), depot(120));
    let text = report(&writer::form(&merged(&[&morning, &noon])));
    let lines: Vec<&str> = text.lines().collect();
    assert_eq!(lines[0], "day 600 entries 8 moves 0 broken 0");
    let serials: Vec<&str> = lines[1..9].iter().filter_map(|line| line.split(' ').nth(1)).collect();
    assert_eq!(serials, ["1", "2", "3", "4", "1", "2", "3", "4"]);
    let runs = lines[9..].iter().map(|line| {
        let [first, end, place] =
            line.split(' ').map(|word| word.parse().expect("a number")).collect::<Vec<_>>()[..]
        else {
            panic!("{line} is no run")
        };
        (end - first, place)
    });
    let mut minutes = [0; 8];
    runs.for_each(|(length, place): (usize, usize)| minutes[place] += length);
    assert_eq!(minutes, [25, 20, 10, 30, 25, 20, 10, 30]);
    // 3 bytes of the header, then 9, 15, 11 and 15 of the first depot's entries
    assert_eq!(report(&writer::form(&merged(&[&morning, &depot(60)]))), "refused 14 at 53\n");
    assert_eq!(report(&writer::form(&merged(&[&depot(60), &morning]))), "refused 14 at 55\n");
}

/// Serials and seals at the limits of one to ten digits. A seal of 0 is a number.
#[test]
fn numbers_of_every_length() {
    let mut numbers = vec![0, u32::MAX];
    numbers.extend((1..10).flat_map(|digits| [10_u32.pow(digits) - 1, 10_u32.pow(digits)]));
    numbers.extend((1..32).flat_map(|bits| [(1_u32 << bits) - 1, 1 << bits]));
    for number in numbers {
        let mut day = with_serials(boxes(2, "p[0,2)1 p[0,2)1"), &[number, !number]);
        day.entries[1].seal = Some(number);
        let lines = [
            "day 2 entries 2 moves 0 broken 0",
            &format!("0 {number} - pause 0 2 1 1 1"),
            &format!("1 {} {number} pause 0 2 1 1 1", !number),
            "0 1 0",
            "1 2 1",
        ];
        says(&day, &lines);
    }
}

/// 10 carries the rounds' place, in the first round or a later one.
#[test]
fn ten_in_every_round() {
    says(&boxes(5, "p[2,3)1 w[0,5)2 w[1,4)2"), &["refused 10 entry 1"]);
    says(&boxes(7, "w[0,7)2 p[4,6)1 w[0,7)3 p[1,3)1"), &["refused 10 entry 0"]);
    says(&boxes(11, "w[0,11)2 w[0,11)2 w[5,6)1 w[0,11)4 w[0,7)2"), &["refused 10 entry 1"]);
}
