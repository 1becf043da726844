//! Damaged inputs, held against the second reader: number, what it carries, and the fields. Those with an opening minute
//! are tried in the same ways in opening_damaged.rs.

use dock_tests::check;
use dock_tests::random::{self, Random};
use dock_tests::told::Told;
use dock_tests::{samples, writer};

/// Each of these inputs is accepted, and lacks bytes wherever it is cut.
#[track_caller]
pub fn every_truncation(inputs: &[Vec<u8>]) {
    for bytes in inputs {
        check::accepted(bytes);
        for length in 0..bytes.len() {
            check::refused(&bytes[..length], 1, length);
        }
    }
}

/// Whatever follows one of these inputs is left over.
#[track_caller]
pub fn every_byte_more(inputs: &[Vec<u8>]) {
    for bytes in inputs {
        for byte in 0..=u8::MAX {
            check::refused(&[&bytes[..], &[byte]].concat(), 8, bytes.len());
        }
        check::refused(&[&bytes[..], bytes].concat(), 8, bytes.len());
    }
}

/// Tries each other value of each byte, and counts what is told.
pub fn every_change(mut bytes: Vec<u8>) -> Told {
    let mut told = Told::default();
    for place in 0..bytes.len() {
        let right = bytes[place];
        for change in 1..=u8::MAX {
            bytes[place] = right ^ change;
            told.count(check::number(&check::read(&bytes)));
        }
        bytes[place] = right;
    }
    told
}

/// Tries so many random inputs, and counts what is told.
pub fn told_of(seed: u64, times: usize, mut draw: impl FnMut(&mut Random) -> Vec<u8>) -> Told {
    let mut random = Random::new(seed);
    let mut told = Told::default();
    for _ in 0..times {
        told.count(check::number(&check::read(&draw(&mut random))));
    }
    told
}

/// This header, and up to 39 of these bytes after it.
pub fn with_noise(random: &mut Random, mut header: Vec<u8>, noise: &[u8]) -> Vec<u8> {
    let length = random.below(40);
    header.extend((0..length).map(|_| random.pick(noise)));
    header
}

#[test]
fn every_truncation_lacks_a_field() {
    every_truncation(&samples::inputs());
}

#[test]
fn every_byte_more_is_left_over() {
    every_byte_more(&samples::inputs());
}

#[test]
fn every_change_of_one_byte_of_small_lists() {
    let told: Vec<Told> = samples::inputs().into_iter().take(3).map(every_change).collect();
    told[0].more_than(0, &[0, 1, 2, 3]);
    told[1].more_than(0, &[0, 1, 2, 3, 4, 5, 6, 7, 8, 14]);
    told[2].more_than(0, &[0, 1, 2, 3, 4, 5, 6, 7, 8]);
}

/// Here all windows are the same, and each change of a serial to another's makes one box stand in two places.
#[test]
fn every_change_of_one_byte_of_a_full_list_of_short_entries() {
    let told = every_change(samples::inputs().swap_remove(3));
    told.more_than(1_000, &[0, 14]);
}

/// Here no two windows share a minute.
#[test]
fn every_change_of_one_byte_of_a_longest_list() {
    let told = every_change(samples::inputs().swap_remove(4));
    told.more_than(1_000, &[0, 4, 7]);
}

#[test]
fn a_hundred_thousand_damaged_lists() {
    let told = told_of(1, 100_000, random::damaged);
    told.more_than(500, &[0, 1, 2, 3, 4, 5, 6, 7, 8, 14, 15]);
    told.more_than(100, &[16]);
}

#[test]
fn noise_after_a_right_header() {
    let told = told_of(2, 20_000, |random| {
        let header = vec![100, 0, random.below(4) as u8];
        with_noise(random, header, &[0x11, 0x1F, 0x3F, 0, 1, 50, 100, 255])
    });
    told.more_than(20, &[0, 1, 4, 7, 8]);
    told.never(&[2, 3, 15, 16]);
}

/// Lists of few serials and few minutes, damaged or not.
#[test]
fn thirty_thousand_lists_of_few_serials() {
    let told = told_of(3, 30_000, |random| {
        let day = random::small_day(random);
        let doubled = random::with_doubled_serials(random, day, 3);
        match random.below(3) {
            0 => random::damaged_form(random, &doubled),
            _ => writer::form(&doubled),
        }
    });
    told.more_than(5_000, &[0, 14]);
    told.more_than(50, &[1, 2, 3, 4, 5, 6, 7, 8]);
}
