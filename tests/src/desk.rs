//! Document 02's "Eight rooms at one control desk": the rows and shares that are lent to a turn, and what it makes of
//! them. A share is read by the second reader, and a round is the second narrowing's.

use crate::day::{Day, Entry, Refusal, LONGEST_LIST};
use crate::narrow::{self, Narrowed};
use crate::{abi, overload, reader, writer};

/// "its stage (fresh, begun, settled, refused)", as numbers. A larger one counts as refused.
pub const FRESH: u32 = 0;
pub const BEGUN: u32 = 1;
pub const SETTLED: u32 = 2;
pub const REFUSED: u32 = 3;

/// How many numbers a row has: stage, rounds and moves.
pub const WIDTH: usize = 3;
/// "965 bytes a room"
pub const SHARE: usize = LONGEST_LIST;
/// "No rooms, or over eight, is refused as 19"
pub const MOST_ROOMS: usize = 8;
/// "Rounds and moves stop counting at 100,000"
pub const MOST_COUNTED: u32 = 100_000;

/// A room's row.
pub type Row = [u32; WIDTH];

/// All that is lent to a turn: the rooms' rows, the buffer beside them, and room for what a room's refusal carries.
#[derive(Clone, PartialEq, Eq)]
pub struct Desk {
    pub rooms: Vec<u32>,
    pub lists: Vec<u8>,
    pub carried: [u64; 3],
}

/// What the three values hold before a call.
pub const UNTOUCHED: [u64; 3] = [0xCA_0001, u64::MAX, 0xCA_0003];

/// A share that begins with these bytes. What follows them has bit 7 and is no right map byte.
pub fn share(list: &[u8]) -> Vec<u8> {
    let mut share = abi::untouched_bytes(SHARE);
    share[..list.len()].copy_from_slice(list);
    share
}

/// A share that begins with this list in its one form.
pub fn share_of(day: &Day) -> Vec<u8> {
    share(&writer::form(day))
}

impl Desk {
    /// Rooms with these rows and shares.
    pub fn new(rows: &[Row], shares: &[Vec<u8>]) -> Desk {
        assert!(rows.len() == shares.len() && shares.iter().all(|share| share.len() == SHARE));
        Desk { rooms: rows.concat(), lists: shares.concat(), carried: UNTOUCHED }
    }

    /// Fresh rooms with both counts 0.
    pub fn fresh(shares: &[Vec<u8>]) -> Desk {
        Desk::new(&vec![[FRESH, 0, 0]; shares.len()], shares)
    }

    /// Fresh rooms with these lists and both counts 0.
    pub fn of(days: &[Day]) -> Desk {
        Desk::fresh(&days.iter().map(share_of).collect::<Vec<_>>())
    }

    /// How many whole rows there are.
    pub fn m(&self) -> usize {
        self.rooms.len() / WIDTH
    }

    pub fn row(&self, room: usize) -> Row {
        self.rooms[WIDTH * room..][..WIDTH].try_into().expect("as many numbers as a row has")
    }

    pub fn set_row(&mut self, room: usize, row: Row) {
        self.rooms[WIDTH * room..][..WIDTH].copy_from_slice(&row);
    }

    pub fn rows(&self) -> Vec<Row> {
        (0..self.m()).map(|room| self.row(room)).collect()
    }

    pub fn share(&self, room: usize) -> &[u8] {
        &self.lists[SHARE * room..][..SHARE]
    }

    pub fn share_mut(&mut self, room: usize) -> &mut [u8] {
        &mut self.lists[SHARE * room..][..SHARE]
    }

    /// A turn from this number: the values that it answers, or its own refusal, beside which nothing is written.
    pub fn turn(&mut self, number: u64) -> Result<[u64; 3], Refusal> {
        let m = self.lent()?;
        // "any number past the last counts as 0"
        let from = if number < m as u64 { number as usize } else { 0 };
        let mut in_cyclic_order = (from..m).chain(0..from);
        let next = in_cyclic_order.find(|&room| is_unfinished(self.row(room)));
        let Some(room) = next else {
            return Ok([m as u64, 0, from as u64]); // "changes nothing and says so"
        };
        let (refusal, carried) = match self.round(room) {
            Ok(()) => (0, [0; 3]),
            Err(refusal) => {
                self.rooms[WIDTH * room] = REFUSED; // "of all that is lent only its stage is written"
                refusal.code()
            }
        };
        self.carried = carried;
        let after = if room + 1 == m { 0 } else { room + 1 };
        Ok([room as u64, refusal.into(), after as u64])
    }

    /// The number of rooms, or a refusal: 100 of numbers that are no rows, 19 "before all else, carrying that number; a
    /// buffer too short for its rooms is 12 next, carrying the bytes needed".
    fn lent(&self) -> Result<usize, Refusal> {
        let over = self.rooms.len() % WIDTH;
        if over > 0 {
            return Err(Refusal::RowLength { numbers: self.rooms.len() - over });
        }
        let m = self.m();
        if !(1..=MOST_ROOMS).contains(&m) {
            return Err(Refusal::RoomCount { rooms: m });
        }
        if self.lists.len() < SHARE * m {
            return Err(Refusal::ShortBuffer { needed: SHARE * m });
        }
        Ok(m)
    }

    /// One round of a room, or "A share that does not read, 9 or 10", which write nothing.
    fn round(&mut self, room: usize) -> Result<(), Refusal> {
        let list = reader::read_share(self.share(room))?;
        let [stage, rounds, moves] = self.row(room);
        if stage == FRESH {
            // "A first round starts with the overload test."
            overload::shown(&list).map_or(Ok(()), |interval| Err(Refusal::Overloaded(interval)))?;
        }
        let Narrowed { day, moves: made } = narrow::one_round(&list)?;
        let form = writer::form(&day);
        self.share_mut(room)[..form.len()].copy_from_slice(&form);
        let stage = if made == 0 { SETTLED } else { BEGUN };
        self.set_row(room, [stage, counted(rounds, 1), counted(moves, made)]);
        Ok(())
    }
}

/// Whether a room is to have a round.
pub fn is_unfinished([stage, ..]: Row) -> bool {
    matches!(stage, FRESH | BEGUN)
}

/// A count after so many more, one by one: it stops at 100,000, and "a larger one handed in stays".
fn counted(count: u32, more: u64) -> u32 {
    (0..more).fold(count, |count, _| if count < MOST_COUNTED { count + 1 } else { count })
}

/// "1 + the sum of d - r - p over its whole entries, 0 where its share does not read": with m rooms a fresh one is
/// finished within m times so many turns.
pub fn most_rounds(share: &[u8]) -> usize {
    let Ok(day) = reader::read_share(share) else { return 1 };
    let spare = |entry: &Entry| usize::from(entry.d - entry.r - entry.p);
    1 + day.entries.iter().filter(|entry| entry.whole).map(spare).sum::<usize>()
}
