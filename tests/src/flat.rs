//! A list as 451 numbers, the form in which the static library takes and gives it: H, n, the opening minute, then for
//! each of 64 places the serial, whether a seal stands, the seal's number, r, d, p, and whether the entry is whole.

use crate::day::{Day, Entry, MOST_ENTRIES};

/// How many numbers a place has.
pub const WIDTH: usize = 7;
/// How many numbers a list has.
pub const SIZE: usize = at(MOST_ENTRIES);
/// Where the opening minute stands.
pub const OPENING: usize = 2;

/// Where the numbers of a place begin.
pub const fn at(place: usize) -> usize {
    3 + WIDTH * place
}

pub type Fields = [u32; SIZE];
pub type Numbers = [u32; WIDTH];

/// A list handed over as a value: any n, and 64 places of which those from n on mean nothing.
#[derive(Clone, Debug)]
pub struct Value {
    pub h: u16,
    pub n: u8,
    pub opening: u16,
    pub places: Vec<Entry>,
}

/// The flat form of a list; the places from n on are zeros.
pub fn of_day(day: &Day) -> Fields {
    let mut fields = [0; SIZE];
    fields[0] = u32::from(day.h);
    fields[1] = day.entries.len() as u32;
    fields[OPENING] = u32::from(day.opening);
    for (place, entry) in day.entries.iter().enumerate() {
        put(&mut fields, place, entry);
    }
    fields
}

/// Puts an entry at a place.
pub fn put(fields: &mut Fields, place: usize, entry: &Entry) {
    fields[at(place)..][..WIDTH].copy_from_slice(&numbers(entry));
}

/// The numbers of an entry.
pub fn numbers(entry: &Entry) -> Numbers {
    [
        entry.serial,
        u32::from(entry.seal.is_some()),
        entry.seal.unwrap_or(0),
        u32::from(entry.r),
        u32::from(entry.d),
        u32::from(entry.p),
        u32::from(entry.whole),
    ]
}

/// The number of a field of 16 bits: one that is too large as 65,535.
pub fn minute(number: u32) -> u16 {
    u16::try_from(number).unwrap_or(u16::MAX)
}

/// The entry that a place's numbers stand for.
pub fn entry(&[serial, stands, seal, r, d, p, whole]: &Numbers) -> Entry {
    let seal = (stands != 0).then_some(seal);
    Entry { serial, seal, r: minute(r), d: minute(d), p: minute(p), whole: whole != 0 }
}

/// The value that 451 numbers stand for: a number too large for its field as the field's largest, which the
/// rules then refuse, and any other number than 0 as a yes.
pub fn value(fields: &Fields) -> Value {
    let places = fields[at(0)..].chunks_exact(WIDTH);
    let places = places.map(|place| entry(place.try_into().expect("as many numbers as a place has")));
    let n = u8::try_from(fields[1]).unwrap_or(u8::MAX);
    Value { h: minute(fields[0]), n, opening: minute(fields[OPENING]), places: places.collect() }
}
