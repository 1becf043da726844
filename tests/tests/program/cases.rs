//! The cases in the folder tests/cases: the built program prints each case's report when it gets the list
//! through a pipe, and the library has it too.

use dock_tests::cases::{self, Case};
use dock_tests::check_report::{number, report};
use dock_tests::samples::{self, hex};
use dock_tests::{program, writer};
use std::collections::BTreeSet;
use std::fs;

/// A case as the folder's README lists it: "- **NAME** `BYTES`: ..", or "- **NAME**, N bytes: ..". The bytes may go on in
/// the next line.
fn listed() -> Vec<(String, Result<Vec<u8>, usize>)> {
    let page = fs::read_to_string(cases::folder().join("README.md")).expect("the list of cases");
    let rows = page.split("\n- **").skip(1);
    rows.map(|row| {
        let (name, rest) = row.split_once("**").expect("a name");
        let bytes = match rest.strip_prefix(", ") {
            None => Ok(hex(rest.split('`').nth(1).expect("bytes"))),
            Some(rest) => Err(rest.split_once(" bytes").expect("a length").0.replace(',', "")),
        };
        (name.to_string(), bytes.map_err(|length| length.parse().expect("a length")))
    })
    .collect()
}

#[test]
fn the_files_are_those_that_are_listed() {
    let mut listed = listed();
    listed.sort_unstable();
    let names: Vec<_> = listed.iter().map(|(name, _)| name.clone()).collect();
    assert_eq!(cases::names(&cases::folder(), "list"), names);
    assert_eq!(cases::names(&cases::folder(), "report"), names);
    for (case, (name, bytes)) in cases::all().iter().zip(&listed) {
        match bytes {
            Ok(bytes) => assert_eq!(case.list, *bytes, "bytes of {name}"),
            Err(length) => assert_eq!(case.list.len(), *length, "length of {name}"),
        }
    }
}

/// Each number that the program can print, a day without entries and one with 64.
#[test]
fn the_cases_are_of_every_kind() {
    let numbers: BTreeSet<_> = cases::all().iter().map(|case| number(&case.report)).collect();
    assert_eq!(numbers, (0..=10).chain(14..=16).collect());
    let heads: Vec<_> =
        cases::all().iter().filter_map(|case| case.report.lines().next().map(String::from)).collect();
    assert!(heads.iter().any(|head| head.starts_with("day 1 entries 0 ")), "{heads:?}");
    assert!(heads.iter().any(|head| head.starts_with("day 1440 entries 64 ")), "{heads:?}");
}

/// The lists that the tests know by other names.
#[test]
fn the_long_cases_are_what_they_are_said_to_be() {
    let list = |name: &str| cases::of(&cases::folder(), name.to_string()).list;
    let longest = writer::form(&samples::longest());
    assert_eq!(list("document"), samples::document());
    assert_eq!(list("longest-list"), longest);
    assert_eq!(list("longest-list-and-1")[..965], longest);
    assert_eq!(list("far-over")[..965], longest);
    assert_eq!(list("longest-list-from-0"), writer::form(&samples::longest_from_0()));
    assert_eq!(list("full-day"), writer::form(&samples::four_of(&samples::many_moves())));
    assert_eq!(list("long-text"), writer::form(&samples::long_text()));
}

#[test]
fn the_program_prints_the_report_of_each_case() {
    for Case { name, list, report } in cases::all() {
        assert_eq!(program::output(&list), report, "{name}");
    }
}

#[test]
fn the_library_has_the_report_of_each_case() {
    for case in cases::all() {
        assert_eq!(report(&case.list), case.report, "{}", case.name);
    }
}
