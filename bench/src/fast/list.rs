//! A list as numbers: the value check, and the list with other windows.

use super::windows::Windows;
use dock_tests::day::{Refusal, LONGEST_DAY, MOST_ENTRIES};
use dock_tests::flat::{self, Fields, Numbers, OPENING};

/// The windows of a list, or the first of rows 2, 3, 15, then 16, 6 and 7 per entry, then 14.
pub fn checked(fields: &Fields) -> Result<Windows, Refusal> {
    let (h, n, opening) = (fields[0], fields[1] as usize, fields[OPENING]);
    if h == 0 || h > LONGEST_DAY.into() {
        return Err(Refusal::DayLength);
    }
    if n > MOST_ENTRIES {
        return Err(Refusal::TooMany { carries: 0 });
    }
    if opening >= h {
        return Err(Refusal::Opening { carries: 0 });
    }
    let none = [0; MOST_ENTRIES];
    let mut windows = Windows { h, n, r: none, d: none, p: none, whole: [false; MOST_ENTRIES] };
    for place in 0..n {
        let &[_, _, _, r, d, p, whole] = numbers(fields, place);
        fault(h, opening, place, [r, d, p])?;
        (windows.r[place], windows.d[place], windows.p[place]) = (r, d, p);
        windows.whole[place] = whole != 0;
    }
    match first_clash(fields, &windows) {
        Some(place) => Err(Refusal::SerialClash { place }),
        None => Ok(windows),
    }
}

fn numbers(fields: &Fields, place: usize) -> &Numbers {
    fields[flat::at(place)..].first_chunk().expect("a place has its numbers")
}

/// Rows 16, 6 and 7 of an entry. A number that is too large for its field counts as the field's largest, which no day
/// has.
fn fault(h: u32, opening: u32, place: usize, [r, d, p]: [u32; 3]) -> Result<(), Refusal> {
    if r < opening {
        Err(Refusal::BeforeOpening { place })
    } else if p == 0 {
        Err(Refusal::NoMinutes { place })
    } else if d > h || r > d || p > d - r {
        Err(Refusal::Window { place })
    } else {
        Ok(())
    }
}

/// The first entry that shares a minute with an earlier one of its serial.
fn first_clash(fields: &Fields, windows: &Windows) -> Option<usize> {
    let serials: [u32; MOST_ENTRIES] = std::array::from_fn(|place| fields[flat::at(place)]);
    let clash = |one: usize, other: usize| {
        serials[one] == serials[other]
            && windows.r[one] < windows.d[other]
            && windows.r[other] < windows.d[one]
    };
    (0..windows.n).find(|&place| (0..place).any(|earlier| clash(earlier, place)))
}

/// The list with these windows, in the form in which a list is answered.
pub fn with_windows(fields: &Fields, windows: &Windows) -> Fields {
    let mut narrowed = [0; flat::SIZE];
    narrowed[..flat::at(0)].copy_from_slice(&fields[..flat::at(0)]);
    for place in 0..windows.n {
        let &[serial, stands, seal, _, _, p, whole] = numbers(fields, place);
        let (stands, seal) = if stands == 0 { (0, 0) } else { (1, seal) };
        let (r, d) = (windows.r[place], windows.d[place]);
        let numbers = [serial, stands, seal, r, d, p, u32::from(whole != 0)];
        narrowed[flat::at(place)..][..flat::WIDTH].copy_from_slice(&numbers);
    }
    narrowed
}
