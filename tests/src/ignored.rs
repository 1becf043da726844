//! Values that differ only in what a call must not look at. Serials count for 14 alone: where they change, no box is
//! in two places before or after.

use crate::abi::Lent;
use crate::day::{Day, MOST_ENTRIES};
use crate::flat::{self, Fields, OPENING, SIZE};
use crate::random::Random;
use crate::samples::{longest, told_apart};

/// The numbers of a place that are not its window or its minutes.
pub const SERIAL: usize = 0;
pub const STANDS: usize = 1;
pub const SEAL: usize = 2;
pub const WHOLE: usize = 6;

/// The value with any numbers, large and small ones, in place of these of every entry. Serials are told apart; in half
/// of the values they are few, so that one stands in several entries.
pub fn with_any(random: &mut Random, fields: &Fields, numbers: &[usize]) -> Fields {
    let mut fields = *fields;
    for place in 0..fields[1] as usize {
        for number in numbers {
            fields[flat::at(place) + number] = random.any() as u32 >> random.below(32);
        }
    }
    if numbers.contains(&SERIAL) {
        if random.once_in(2) {
            (0..fields[1] as usize).for_each(|place| fields[flat::at(place) + SERIAL] %= 3);
        }
        for (place, entry) in told_apart(list(&fields)).entries.iter().enumerate() {
            fields[flat::at(place) + SERIAL] = entry.serial;
        }
    }
    fields
}

/// The list that a right value stands for.
pub fn list(fields: &Fields) -> Day {
    let mut entries = flat::value(fields).places;
    entries.truncate(fields[1] as usize);
    Day { h: fields[0] as u16, opening: fields[OPENING] as u16, entries }
}

/// The value with this serial in every entry.
pub fn with_one_serial(fields: &Fields, serial: u32) -> Fields {
    let mut fields = *fields;
    for place in 0..fields[1] as usize {
        fields[flat::at(place) + SERIAL] = serial;
    }
    fields
}

/// Whether a serial stands in two entries.
pub fn has_a_serial_twice(fields: &Fields) -> bool {
    let serials: Vec<u32> = list(fields).entries.iter().map(|entry| entry.serial).collect();
    (1..serials.len()).any(|place| serials[..place].contains(&serials[place]))
}

/// The value with other numbers in all its places from n on.
pub fn with_rest(fields: &Fields, other: impl FnMut() -> u32) -> Fields {
    let mut fields = *fields;
    let used = flat::at(fields[1] as usize);
    fields[used..].fill_with(other);
    fields
}

/// The value with junk of four sorts from n on: the largest numbers, any, minutes of the day, and ones.
pub fn with_junk(random: &mut Random, fields: &Fields) -> [Fields; 4] {
    [0, 1, 2, 3].map(|sort| {
        with_rest(fields, || match sort {
            0 => u32::MAX,
            1 => random.any() as u32,
            2 => random.below(fields[0] as usize + 1) as u32,
            _ => 1,
        })
    })
}

/// What may stand in the lent buffers: zeros, ones, the largest numbers, a list with its plan.
pub fn contents(room: usize) -> Vec<Lent> {
    let filled = |byte, number| Lent {
        plan: vec![byte; room],
        narrowed: [number; SIZE],
        bounds: [number; 2 * MOST_ENTRIES],
    };
    let mut list = filled(0, 0);
    list.narrowed = flat::of_day(&longest());
    list.bounds = std::array::from_fn(|i| i as u32);
    vec![filled(0, 0), filled(1, 1), filled(255, u32::MAX), list, Lent::untouched(room)]
}
