//! The buffer that is lent to the writer: exactly long enough, too short, longer, empty.

use dock_tests::check::{accepted, not_written, written};
use dock_tests::day::Day;
use dock_tests::{flat, samples, writer};

fn lists() -> Vec<Day> {
    let document = accepted(&samples::document());
    vec![
        Day { h: 1, opening: 0, entries: vec![] },
        Day { h: 2, opening: 1, entries: vec![] },
        document,
        accepted(&samples::opened_document()),
        samples::every_shape(),
        samples::longest_from_0(),
        samples::longest(),
    ]
}

#[test]
fn a_buffer_that_is_exactly_long_enough_is_filled() {
    for day in lists() {
        let form = writer::form(&day);
        assert_eq!(written(&flat::of_day(&day), form.len()), form);
    }
}

#[test]
fn a_buffer_that_is_too_short_is_12_with_the_bytes_needed() {
    for day in lists() {
        let needed = writer::form(&day).len();
        for room in 0..needed {
            not_written(&flat::of_day(&day), room, 12, needed);
        }
    }
}

#[test]
fn a_longer_buffer_keeps_the_bytes_after_the_form() {
    for day in lists() {
        let form = writer::form(&day);
        for room in [form.len() + 1, form.len() + 2, 966, 2000] {
            assert_eq!(written(&flat::of_day(&day), room), form);
        }
    }
}

#[test]
fn an_empty_list_needs_3_bytes() {
    let fields = flat::of_day(&Day { h: 258, opening: 0, entries: vec![] });
    for room in 0..3 {
        not_written(&fields, room, 12, 3);
    }
    assert_eq!(written(&fields, 3), [2, 1, 0]);
}
