//! The inputs that document 01 writes out, and others where the order of the rows decides.

use dock_tests::day::LONGEST_LIST;
use dock_tests::samples::{self, hex};
use dock_tests::{abi, check, writer};

#[test]
fn the_documents_sample_in_flat_form() {
    check::accepted(&samples::document());
    let (answer, fields) = abi::read(&samples::document());
    assert_eq!((answer.number, answer.values), (0, [0, 0, 0]));
    assert_eq!(fields[..3], [12, 3, 0]);
    assert_eq!(fields[3..10], [501, 0, 0, 0, 12, 4, 0]);
    assert_eq!(fields[10..17], [502, 1, 77, 2, 8, 3, 1]);
    assert_eq!(fields[17..24], [503, 1, 78, 3, 6, 2, 0]);
    assert!(fields[24..].iter().all(|&number| number == 0));
}

#[test]
fn the_documents_sample_is_written() {
    let (_, fields) = abi::read(&samples::document());
    let (answer, out) = abi::write(&fields, 41);
    assert_eq!((answer.number, answer.values), (0, [40, 0, 0]));
    assert_eq!(out[..40], samples::document());
    assert_eq!(out[40], abi::untouched_bytes(41)[40]);
}

#[test]
fn a_missing_field_comes_before_a_written_default_in_one_entry() {
    check::refused(&hex("64 00 01 | 1F 01000000 02000000 0000 3200 01"), 1, 17);
}

#[test]
fn a_fault_of_one_entry_comes_before_the_next_entry_that_is_missing() {
    check::refused(&hex("64 00 02 | 1F 01000000 02000000 0000 3200 0100"), 5, 3);
}

#[test]
fn a_broken_map_byte_is_told_even_as_the_last_byte() {
    check::refused(&hex("64 00 01 | 51"), 4, 3);
    check::refused(&hex("64 00 02 | 11 01000000 0100 | 01"), 4, 10);
}

#[test]
fn the_longest_list_has_965_bytes() {
    let bytes = writer::form(&samples::longest());
    assert_eq!((bytes.len(), LONGEST_LIST), (965, 965));
    assert_eq!(check::accepted(&bytes), samples::longest());
}

#[test]
fn the_longest_list_without_an_opening_minute_has_963_bytes() {
    let bytes = writer::form(&samples::longest_from_0());
    assert_eq!(bytes.len(), 963);
    assert_eq!(check::accepted(&bytes), samples::longest_from_0());
}
