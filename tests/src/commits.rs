//! Document 02's "Ask for a late box, then commit it": a day with its stamp, and what asks and commits make
//! of it. The longer list is planned by the second planner.

use crate::abi::Call;
use crate::bounds;
use crate::day::{Day, Entry, Refusal, MOST_ENTRIES};
use crate::flat::{self, Value};
use crate::narrow::{self, Narrowed};

/// How many numbers a stamped day has: those of its list, then its stamp.
pub const SIZE: usize = flat::SIZE + 1;
/// Where the stamp stands.
pub const STAMP: usize = flat::SIZE;
/// "(at 65,535, never reached from fresh, it stays)"
pub const LARGEST_STAMP: u16 = u16::MAX;

/// A stamped day as numbers.
pub type Row = [u32; SIZE];

/// "A day value holds its list and a stamp, the number of successful commits so far". A day that is handed in
/// may hold any list and any stamp.
#[derive(Clone, Debug)]
pub struct Stamped {
    pub list: Value,
    pub stamp: u16,
}

impl Stamped {
    /// "A fresh day is made from a list that can be planned, else that list's refusal is given." No plan
    /// buffer is lent, so that 11 is passed over.
    pub fn fresh(list: &Value) -> Result<Stamped, Refusal> {
        narrow::settle(list)?;
        Ok(Stamped { list: list.clone(), stamp: 0 })
    }

    /// "Asking takes the day and one more entry and returns the full planned answer for the longer list": its
    /// settled windows, of which all else follows. "a day of 64 entries or more as 18 .., for an ask first of
    /// all".
    pub fn ask(&self, entry: &Entry, room: usize) -> Result<Narrowed, Refusal> {
        if usize::from(self.list.n) >= MOST_ENTRIES {
            return Err(Refusal::DayFull { stamp: self.stamp });
        }
        bounds::settle(Call::Plan, &longer(&self.list, entry), room)
    }

    /// "Commit takes entry and stamp, plans again, and appends the entry exactly when that gives a plan". "A
    /// stamp that is not the day's is refused as 17 before all else".
    pub fn commit(&mut self, entry: &Entry, stamp: u64, room: usize) -> Result<Narrowed, Refusal> {
        if stamp != u64::from(self.stamp) {
            return Err(Refusal::StaleStamp { stamp: self.stamp });
        }
        let planned = self.ask(entry, room)?;
        self.list = longer(&self.list, entry);
        self.stamp = if self.stamp == LARGEST_STAMP { LARGEST_STAMP } else { self.stamp + 1 };
        Ok(planned)
    }

    /// The numbers of a day of at most 64 entries; the places from n on are zeros.
    pub fn row(&self) -> Row {
        let Value { h, n, opening, places } = &self.list;
        let entries = places[..usize::from(*n)].to_vec();
        row(&Day { h: *h, opening: *opening, entries }, self.stamp.into())
    }
}

/// The list with one more entry after its first n.
fn longer(list: &Value, entry: &Entry) -> Value {
    let mut places = list.places[..usize::from(list.n)].to_vec();
    places.push(entry.clone());
    Value { n: list.n + 1, places, ..*list }
}

/// The numbers of a day with this list and this stamp.
pub fn row(list: &Day, stamp: u32) -> Row {
    with_stamp(&flat::of_day(list), stamp)
}

/// A list's numbers, right or wrong, and this stamp after them.
pub fn with_stamp(list: &flat::Fields, stamp: u32) -> Row {
    let mut row = [stamp; SIZE];
    row[..STAMP].copy_from_slice(list);
    row
}

/// The numbers of a day's list.
pub fn list_of(row: &Row) -> flat::Fields {
    row[..STAMP].try_into().expect("as many numbers as a list has")
}

/// The day that 452 numbers stand for: a number too large for its field as the field's largest.
pub fn value(row: &Row) -> Stamped {
    Stamped { list: flat::value(&list_of(row)), stamp: flat::minute(row[STAMP]) }
}
