//! What a flat value may hold besides the list: places from n on, a number beside no seal, any flag.

use crate::write_value::ROOM;
use dock_tests::check::{not_written, written};
use dock_tests::flat::{self, Fields};
use dock_tests::ignored::with_rest;
use dock_tests::random::{self, Random};
use dock_tests::{check, samples, writer};

/// The flat form of document 01's sample.
fn sample() -> Fields {
    flat::of_day(&check::accepted(&samples::document()))
}

#[test]
fn places_from_n_on_are_never_written() {
    for number in [1, 0x55, 65_535, u32::MAX] {
        assert_eq!(written(&with_rest(&sample(), || number), ROOM), samples::document());
    }
}

#[test]
fn places_from_n_on_are_never_checked() {
    let mut fields = sample();
    fields[1] = 2;
    fields[flat::at(2) + 5] = 0;
    assert_eq!(written(&fields, ROOM).len(), 25);
    fields[1] = 3;
    not_written(&fields, ROOM, 6, 2);
}

#[test]
fn an_empty_list_before_sixty_four_places_of_junk() {
    let mut fields = [0; flat::SIZE];
    fields[0] = 1;
    assert_eq!(written(&with_rest(&fields, || u32::MAX), 3), [1, 0, 0]);
}

#[test]
fn lists_that_differ_only_from_n_on_are_written_alike() {
    let mut random = Random::new(6);
    for _ in 0..2_000 {
        let day = random::any_day(&mut random);
        let fields = flat::of_day(&day);
        let one = with_rest(&fields, || random.any() as u32);
        let two = with_rest(&fields, || random.any() as u32);
        assert_eq!(written(&one, ROOM), writer::form(&day));
        assert_eq!(written(&two, ROOM), writer::form(&day));
    }
}

#[test]
fn any_number_but_0_is_a_yes() {
    for yes in [1, 2, 255, 256, 65_536, u32::MAX] {
        let mut fields = sample();
        fields[11] = yes;
        fields[16] = yes;
        assert_eq!(written(&fields, ROOM), samples::document());
    }
}

#[test]
fn a_number_beside_a_missing_seal_is_nothing() {
    let mut fields = sample();
    fields[5] = 0xDEAD_BEEF;
    assert_eq!(written(&fields, ROOM), samples::document());
}
