//! The days in the folder samples: each has a description, the list that says the same in bytes, and the
//! report that the built program prints.

use dock_tests::cases::{self, Case};
use dock_tests::day::{Day, Entry};
use dock_tests::{program, writer};
use std::fs;
use std::path::PathBuf;

const SAMPLES: [&str; 6] = ["late-opening", "morning", "no-place", "one-box-twice", "overloaded", "tight"];

fn folder() -> PathBuf {
    cases::root().join("samples")
}

/// The day that a description tells after an empty line, in the form `day 240`, or `day 240 opens 30` with an opening
/// minute, and then, for each entry, `serial 501 seal - pause from 0 to 240 needs 60`.
fn told(description: &str) -> Day {
    let (_, lines) = description.split_once("\n\n").expect("an empty line before the day");
    let mut lines = lines.lines();
    let head = lines.next().and_then(|line| line.strip_prefix("day ")).expect("the day's length");
    let (h, opening) = head.split_once(" opens ").unwrap_or((head, "0"));
    let minutes = |word: &str| word.parse().expect("minutes");
    Day { h: minutes(h), opening: minutes(opening), entries: lines.map(entry).collect() }
}

fn entry(line: &str) -> Entry {
    let words: Vec<&str> = line.split(' ').collect();
    let &["serial", serial, "seal", seal, kind, "from", r, "to", d, "needs", p] = &words[..] else {
        panic!("{line} is no entry")
    };
    assert!(["pause", "whole"].contains(&kind), "{line}");
    let minute = |word: &str| word.parse().expect("a minute");
    Entry {
        serial: serial.parse().expect("a serial"),
        seal: (seal != "-").then(|| seal.parse().expect("a seal")),
        r: minute(r),
        d: minute(d),
        p: minute(p),
        whole: kind == "whole",
    }
}

#[test]
fn each_day_has_its_files_and_a_line_in_the_table() {
    for ending in ["txt", "list", "report"] {
        assert_eq!(cases::names(&folder(), ending), SAMPLES, "files of ending {ending}");
    }
    let page = fs::read_to_string(folder().join("README.md")).expect("the table");
    let mut rows: Vec<_> =
        page.lines().filter_map(|line| line.strip_prefix("| [")?.split(']').next()).collect();
    rows.sort_unstable();
    assert_eq!(rows, SAMPLES);
}

#[test]
fn each_list_is_the_one_form_of_the_day_told() {
    for name in SAMPLES {
        let description =
            fs::read_to_string(folder().join(name).with_extension("txt")).expect("a description");
        let list = cases::of(&folder(), name.to_string()).list;
        assert_eq!(list, writer::form(&told(&description)), "{name}");
    }
}

#[test]
fn the_program_prints_each_report() {
    for name in SAMPLES {
        let Case { list, report, .. } = cases::of(&folder(), name.to_string());
        assert_eq!(program::output(&list), report, "{name}");
    }
}

/// Its report tells the map byte of place 4. Without that entry the two depots' list is planned, and so is each depot's.
#[test]
fn one_box_twice_is_turned_back_for_one_entry() {
    let description = fs::read_to_string(folder().join("one-box-twice.txt")).expect("a description");
    let day = told(&description);
    let of = |places: &[usize]| {
        let entries = places.iter().map(|&place| day.entries[place].clone()).collect();
        writer::form(&Day { h: day.h, opening: day.opening, entries })
    };
    let head = |text: String| text.lines().next().map(String::from).expect("a line");
    let at = of(&[0, 1, 2, 3]).len();
    assert_eq!(program::output(&of(&[0, 1, 2, 3, 4, 5])), format!("refused 14 at {at}\n"));
    assert_eq!(head(program::output(&of(&[0, 1, 2, 3, 5]))), "day 300 entries 5 moves 0 broken 0");
    assert_eq!(head(program::output(&of(&[0, 1, 2]))), "day 300 entries 3 moves 0 broken 0");
    assert_eq!(head(program::output(&of(&[3, 4, 5]))), "day 300 entries 3 moves 0 broken 0");
}
