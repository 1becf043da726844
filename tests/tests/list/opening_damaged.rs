//! Damaged inputs with an opening minute, held against the second reader: number, what it carries, and the fields.

use crate::damaged_bytes::{every_byte_more, every_change, every_truncation, told_of, with_noise};
use dock_tests::told::Told;
use dock_tests::{random, samples};

#[test]
fn every_truncation_lacks_a_byte() {
    every_truncation(&samples::opened_inputs());
}

#[test]
fn every_byte_more_is_left_over() {
    every_byte_more(&samples::opened_inputs());
}

/// Without entries; document 01's sample; the sample day late-opening; each shape of an entry.
#[test]
fn every_change_of_one_byte_of_small_lists() {
    let told: Vec<Told> = samples::opened_inputs().into_iter().take(4).map(every_change).collect();
    told[0].more_than(0, &[0, 1, 2, 3, 8, 15]);
    told[1].more_than(0, &[0, 1, 2, 3, 4, 5, 6, 7, 8, 14, 15, 16]);
    told[2].more_than(0, &[0, 1, 2, 3, 4, 5, 6, 7, 8, 14, 15, 16]);
    told[3].more_than(0, &[0, 1, 2, 3, 4, 5, 6, 7, 8, 15, 16]);
}

/// Here all windows are the same, and each change of a serial to another's makes one box stand in two places.
#[test]
fn every_change_of_one_byte_of_a_full_list_of_short_entries() {
    let told = every_change(samples::opened_inputs().swap_remove(4));
    told.more_than(1_000, &[0, 14]);
    told.more_than(100, &[15]);
}

/// Here no two windows share a minute, and no entry but the first begins near the opening minute.
#[test]
fn every_change_of_one_byte_of_a_longest_list() {
    let told = every_change(samples::opened_inputs().swap_remove(5));
    told.more_than(1_000, &[0, 4, 7, 16]);
    told.more_than(100, &[15]);
}

/// One in ten is still a list, and in most of them bit 7 still stands.
#[test]
fn a_hundred_thousand_damaged_lists() {
    let mut standing = 0;
    let told = told_of(7, 100_000, |random| {
        let bytes = random::damaged_opened(random);
        standing += usize::from(bytes.get(2).is_some_and(|count| *count >= 128));
        bytes
    });
    told.more_than(500, &[0, 1, 2, 3, 4, 5, 6, 7, 8, 14, 15, 16]);
    told.at_least(&[(0, 10_000)]);
    assert!(standing > 70_000, "{standing} with bit 7");
}

#[test]
fn noise_after_a_right_header() {
    let told = told_of(8, 20_000, |random| {
        let header = vec![100, 0, 128 + random.below(4) as u8, 50, 0];
        with_noise(random, header, &[0x11, 0x1F, 0x3F, 0, 1, 49, 50, 51, 100, 255])
    });
    told.more_than(20, &[0, 1, 4, 7, 8, 16]);
    told.never(&[2, 3, 15]);
}
