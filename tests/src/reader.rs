//! The second reader: takes the fields one after the other, as documents 01 and 02 name them. One box in two places is
//! looked for last, when the whole input is known to be a list: "after 8 when reading".

use crate::day::{Day, Entry, Refusal, LONGEST_DAY, MOST_ENTRIES};

/// What is left of the input, and how long the whole of it is.
struct Cursor<'a> {
    left: &'a [u8],
    length: usize,
}

impl Cursor<'_> {
    fn place(&self) -> usize {
        self.length - self.left.len()
    }

    /// The next bytes as a number, lowest byte first.
    fn number(&mut self, bytes: usize) -> Result<u32, Refusal> {
        if self.left.len() < bytes {
            return Err(Refusal::Missing { length: self.length });
        }
        let (now, later) = self.left.split_at(bytes);
        self.left = later;
        Ok(now.iter().rev().fold(0, |sum, byte| sum << 8 | u32::from(*byte)))
    }

    fn two(&mut self) -> Result<u16, Refusal> {
        self.number(2).map(|number| number as u16)
    }

    /// A field that stands only if its bit in the map does.
    fn field(&mut self, stands: bool, bytes: usize) -> Result<Option<u32>, Refusal> {
        stands.then(|| self.number(bytes)).transpose()
    }
}

/// Reads a list, or gives the first refusal.
pub fn read(input: &[u8]) -> Result<Day, Refusal> {
    let found = listed(input)?;
    if found.end < input.len() {
        return Err(Refusal::LeftOver { first: found.end });
    }
    found.told_apart()
}

/// Reads the list that a room's share of a longer buffer begins with: "A share is read from its first byte; bytes after
/// the list are not tested."
pub fn read_share(share: &[u8]) -> Result<Day, Refusal> {
    listed(share)?.told_apart()
}

/// A list whose entries are right one by one, the places of their map bytes, and where it ends.
struct Listed {
    day: Day,
    maps: Vec<usize>,
    end: usize,
}

impl Listed {
    /// The list, if no box is in two places.
    fn told_apart(self) -> Result<Day, Refusal> {
        match self.day.first_clash() {
            Some(place) => Err(Refusal::SerialClash { place: self.maps[place] }),
            None => Ok(self.day),
        }
    }
}

/// The header and the entries that an input begins with, or the first refusal before 8.
fn listed(input: &[u8]) -> Result<Listed, Refusal> {
    let length = input.len();
    if length < 3 {
        return Err(Refusal::Missing { length });
    }
    let mut cursor = Cursor { left: input, length };
    let h = cursor.two()?;
    if h == 0 || h > LONGEST_DAY {
        return Err(Refusal::DayLength);
    }
    // "Bit 7 of the count byte now says that two bytes with the opening minute follow the header; bits 0 to 6 are n"
    let count = cursor.number(1)? as usize;
    let n = count % 128;
    if n > MOST_ENTRIES {
        return Err(Refusal::TooMany { carries: 2 });
    }
    let opening = if count >= 128 { written_opening(&mut cursor, h)? } else { 0 };
    let (mut maps, mut entries) = (vec![], vec![]);
    for _ in 0..n {
        maps.push(cursor.place());
        entries.push(entry(&mut cursor, h, opening)?);
    }
    Ok(Listed { day: Day { h, opening, entries }, maps, end: cursor.place() })
}

/// "If the two bytes are missing that is 1, after 3. An opening minute written as 0, or one of H or more, is refused as
/// 15 next, carrying 3".
fn written_opening(cursor: &mut Cursor, h: u16) -> Result<u16, Refusal> {
    match cursor.two()? {
        opening if (1..h).contains(&opening) => Ok(opening),
        _ => Err(Refusal::Opening { carries: 3 }),
    }
}

/// Reads one entry. All its fields are taken before any of them is judged.
fn entry(cursor: &mut Cursor, h: u16, opening: u16) -> Result<Entry, Refusal> {
    let place = cursor.place();
    let map = cursor.number(1)?;
    let bit = |number: u32| map >> number & 1 == 1;
    if !bit(0) || !bit(4) || bit(6) || bit(7) {
        return Err(Refusal::MapByte { place });
    }
    let serial = cursor.number(4)?;
    let seal = cursor.field(bit(1), 4)?;
    let r = cursor.field(bit(2), 2)?;
    let d = cursor.field(bit(3), 2)?;
    let p = cursor.two()?;
    // "A missing r means the opening minute, and a written r equal to it is 5."
    if r == Some(u32::from(opening)) || d == Some(u32::from(h)) {
        return Err(Refusal::WrittenDefault { place });
    }
    let r = r.map_or(opening, |r| r as u16);
    let d = d.map_or(h, |d| d as u16);
    let entry = Entry { serial, seal, r, d, p, whole: bit(5) };
    entry.fault(h, opening, place)?;
    Ok(entry)
}
