//! Lists with damages: other bytes, or other numbers.

use super::{any_day, any_drawn_day, opened, Random};
use crate::day::{Day, MOST_ENTRIES};
use crate::flat::{self, Fields};
use crate::samples::told_apart;
use crate::writer;

/// This list, once in three times with its serials as they are drawn.
fn apart_or_not(random: &mut Random, drawn: Day) -> Day {
    if random.once_in(3) {
        drawn
    } else {
        told_apart(drawn)
    }
}

/// The bytes of a random list with one to three damages.
pub fn damaged(random: &mut Random) -> Vec<u8> {
    let drawn = any_drawn_day(random);
    let day = apart_or_not(random, drawn);
    damaged_form(random, &day)
}

/// The bytes of a random list that has an opening minute, with one to three damages: in the header, the opening minute
/// written anywhere, or any other.
pub fn damaged_opened(random: &mut Random) -> Vec<u8> {
    let mut day = any_drawn_day(random);
    while day.h == 1 {
        day = any_drawn_day(random);
    }
    let drawn = opened(random, day);
    let day = apart_or_not(random, drawn);
    with_damages(random, &day, |random, bytes| match random.below(4) {
        0 => change_header(random, bytes),
        1 => copy_opening(random, bytes),
        _ => damage(random, bytes),
    })
}

/// The bytes of this list after one to three damages of such a sort.
fn with_damages(random: &mut Random, day: &Day, damage: impl Fn(&mut Random, &mut Vec<u8>)) -> Vec<u8> {
    let mut bytes = writer::form(day);
    for _ in 0..=random.below(3) {
        damage(random, &mut bytes);
    }
    bytes
}

/// Writes the two bytes of the opening minute over any two after them, if there are such.
fn copy_opening(random: &mut Random, bytes: &mut [u8]) {
    if bytes.len() >= 7 {
        let at = 5 + random.below(bytes.len() - 6);
        bytes.copy_within(3..5, at);
    }
}

/// The bytes of this list with one to three damages.
pub fn damaged_form(random: &mut Random, day: &Day) -> Vec<u8> {
    with_damages(random, day, damage)
}

/// The bytes of this list with another byte in its header.
pub fn with_header_changed(random: &mut Random, day: &Day) -> Vec<u8> {
    let mut bytes = writer::form(day);
    change_header(random, &mut bytes);
    bytes
}

/// How many bytes the header of an input has: three, and the opening minute's two where they stand.
fn header(bytes: &[u8]) -> usize {
    let opened = bytes.get(2).is_some_and(|count| *count >= 128);
    bytes.len().min(if opened { 5 } else { 3 })
}

/// Changes a byte of the header, if there is one.
fn change_header(random: &mut Random, bytes: &mut [u8]) {
    if bytes.is_empty() {
        return;
    }
    let at = random.below(header(bytes));
    let byte = bytes[at];
    while bytes[at] == byte {
        let any = random.any() as u8;
        let near = random.pick(&[byte.wrapping_sub(1), byte.wrapping_add(1), byte ^ 128]);
        bytes[at] = random.pick(&[0, 1, 5, 6, 64, 65, 128, 193, near, near, any]);
    }
}

fn damage(random: &mut Random, bytes: &mut Vec<u8>) {
    let end = bytes.len();
    let at = random.below(end + 1);
    let byte = random.any() as u8;
    match random.below(7) {
        0 if at < end => bytes[at] = byte,
        1 if at < end => bytes[at] ^= 1 << (byte % 8),
        2 if at < end => bytes[at] = random.pick(&[0, 1, bytes[0], bytes[end - 1], 0xFF]),
        3 => bytes.truncate(at),
        4 => bytes.extend((0..=random.below(20)).map(|i| byte.wrapping_mul(i as u8))),
        5 => {
            let other = writer::form(&any_day(random));
            drop(bytes.splice(at.., other[header(&other)..].iter().copied())); // its entries
        }
        6 => drop(bytes.drain(at..(at + random.below(4)).min(end))),
        _ => bytes.insert(at, byte),
    }
}

/// A flat value that may break any rule: a list, often with noise behind it, with up to three numbers
/// changed.
pub fn wild_fields(random: &mut Random) -> Fields {
    let drawn = any_drawn_day(random);
    let day = apart_or_not(random, drawn);
    let mut fields = flat::of_day(&day);
    if random.once_in(2) {
        let n = flat::at(day.entries.len());
        fields[n..].fill_with(|| random.any() as u32);
    }
    for _ in 0..random.below(4) {
        let used = flat::at((day.entries.len() + 1).min(MOST_ENTRIES));
        let r_or_p = flat::at(random.below(day.entries.len().max(1))) + random.pick(&[3, 5]);
        let any = random.below(used);
        fields[random.pick(&[r_or_p, any, any])] = wild_number(random, day.h);
    }
    fields
}

fn wild_number(random: &mut Random, h: u16) -> u32 {
    let h = u32::from(h);
    let any = random.any() as u32;
    random.pick(&[0, 1, h - 1, h, h + 1, 64, 65, 255, 256, 1441, 65_535, 65_536, 65_536 + h, any % 1500, any])
}
