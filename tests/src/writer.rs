//! The second writer: the one form of a list, and the refusals of a list that is handed over as a value.

use crate::day::{Day, Entry, Refusal, LONGEST_DAY, MOST_ENTRIES};
use crate::flat::Value;

/// The one form of a list.
pub fn form(day: &Day) -> Vec<u8> {
    let mut bytes = day.h.to_le_bytes().to_vec();
    bytes.push(day.entries.len() as u8);
    if day.opening != 0 {
        bytes[2] |= 0b1000_0000;
        bytes.extend(day.opening.to_le_bytes());
    }
    for entry in &day.entries {
        push_entry(&mut bytes, entry, day);
    }
    bytes
}

fn push_entry(bytes: &mut Vec<u8>, entry: &Entry, &Day { h, opening, .. }: &Day) {
    let map_at = bytes.len();
    bytes.push(0b01_0001);
    bytes.extend(entry.serial.to_le_bytes());
    if let Some(seal) = entry.seal {
        bytes[map_at] |= 0b00_0010;
        bytes.extend(seal.to_le_bytes());
    }
    if entry.r != opening {
        bytes[map_at] |= 0b00_0100;
        bytes.extend(entry.r.to_le_bytes());
    }
    if entry.d != h {
        bytes[map_at] |= 0b00_1000;
        bytes.extend(entry.d.to_le_bytes());
    }
    bytes.extend(entry.p.to_le_bytes());
    if entry.whole {
        bytes[map_at] |= 0b10_0000;
    }
}

/// What a writer with `room` bytes makes of a value: its one form, or the first refusal.
pub fn write(value: &Value, room: usize) -> Result<Vec<u8>, Refusal> {
    let bytes = form(&checked(value)?);
    if bytes.len() > room {
        return Err(Refusal::ShortBuffer { needed: bytes.len() });
    }
    Ok(bytes)
}

/// The list that a value stands for: what follows its n entries is no part of it. 15 comes after 3 and carries "0 for a
/// value, where only H or more is wrong", and 14 comes "after the last 7".
pub fn checked(value: &Value) -> Result<Day, Refusal> {
    if value.h == 0 || value.h > LONGEST_DAY {
        return Err(Refusal::DayLength);
    }
    let n = usize::from(value.n);
    if n > MOST_ENTRIES {
        return Err(Refusal::TooMany { carries: 0 });
    }
    if value.opening >= value.h {
        return Err(Refusal::Opening { carries: 0 });
    }
    let day = Day { h: value.h, opening: value.opening, entries: value.places[..n].to_vec() };
    for (place, entry) in day.entries.iter().enumerate() {
        entry.fault(day.h, day.opening, place)?;
    }
    match day.first_clash() {
        Some(place) => Err(Refusal::SerialClash { place }),
        None => Ok(day),
    }
}
