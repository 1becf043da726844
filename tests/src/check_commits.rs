//! Holds the static library's fresh days, asks and commits against the second program's: the answer, the
//! day's row, and all else that is lent.

use crate::abi::{self, Answer, Call, DayCall, Lent};
use crate::check::refusing;
use crate::check_bounds;
use crate::commits::{self, Row, Stamped, STAMP};
use crate::day::{Day, Entry, Refusal, MOST_ENTRIES};
use crate::flat::{self, Fields, Numbers};

/// What a call must answer, and leave in the day's row and in what is lent: nothing is written beside a
/// refusal, and an ask writes nothing to the day.
fn wanted(call: DayCall, row: &Row, entry: &Numbers, lent: &Lent) -> (Answer, Row, Lent) {
    let mut day = commits::value(row);
    let (entry, room) = (flat::entry(entry), lent.plan.len());
    let outcome = match call {
        DayCall::Ask => day.ask(&entry, room),
        DayCall::Commit(stamp) => day.commit(&entry, stamp, room),
    };
    let (mut answer, lent) = check_bounds::wanted(Call::Plan, &outcome, lent.clone());
    if outcome.is_err() {
        return (answer, *row, lent);
    }
    answer.values[2] = day.stamp.into();
    let row = if call == DayCall::Ask { *row } else { day.row() };
    (answer, row, lent)
}

/// A day in a failure's text: its header, its entries as far as there are, and its stamp.
fn in_short(row: &Row) -> String {
    let n = (row[1] as usize).min(MOST_ENTRIES);
    format!("{:?}, stamp {}", &row[..flat::at(n)], row[STAMP])
}

/// Makes a call with both programs. The answer, the day's row and all that is lent must be alike.
#[track_caller]
pub fn call(call: DayCall, row: &mut Row, entry: &Numbers, lent: &mut Lent) -> Answer {
    let (wanted, wanted_row, wanted_lent) = wanted(call, row, entry, lent);
    let given = format!("{call:?} of {entry:?} in {} bytes, {}", lent.plan.len(), in_short(row));
    let answer = abi::call_day(call, row, entry, lent);
    assert_eq!(answer, wanted, "{given}");
    let differs = (0..commits::SIZE).find(|&i| row[i] != wanted_row[i]);
    assert_eq!(differs, None, "the first number of the day that is wrong after {given}");
    assert_eq!(lent.plan, wanted_lent.plan, "plan buffer after {given}");
    let differs = (0..flat::SIZE).find(|&i| lent.narrowed[i] != wanted_lent.narrowed[i]);
    assert_eq!(differs, None, "the first field that is wrong after {given}");
    let differs = (0..2 * MOST_ENTRIES).find(|&i| lent.bounds[i] != wanted_lent.bounds[i]);
    assert_eq!(differs, None, "the first bound that is wrong after {given}");
    answer
}

/// Asks with both programs, with `room` bytes for the plan, and gives all that was lent.
#[track_caller]
pub fn ask(row: &Row, entry: &Numbers, room: usize) -> (Answer, Lent) {
    let (mut row, mut lent) = (*row, Lent::untouched(room));
    let answer = call(DayCall::Ask, &mut row, entry, &mut lent);
    (answer, lent)
}

/// Commits with both programs, with `room` bytes for the plan, and gives all that was lent.
#[track_caller]
pub fn commit(row: &mut Row, entry: &Numbers, stamp: u64, room: usize) -> (Answer, Lent) {
    let mut lent = Lent::untouched(room);
    let answer = call(DayCall::Commit(stamp), row, entry, &mut lent);
    (answer, lent)
}

/// Makes a call that must be refused with this number, carrying this value.
#[track_caller]
pub fn refused(day_call: DayCall, row: &Row, entry: &Numbers, room: usize, number: u64, carries: u64) {
    let (mut row, mut lent) = (*row, Lent::untouched(room));
    let answer = call(day_call, &mut row, entry, &mut lent);
    assert_eq!((answer.number, answer.values), (number, [carries, 0, 0]), "{day_call:?} in {room} bytes");
}

/// Asks, and commits with the day's stamp: both must be refused with this number, carrying this value.
#[track_caller]
pub fn both_refused(row: &Row, entry: &Numbers, room: usize, number: u64, carries: u64) {
    let stamp = commits::value(row).stamp.into();
    for call in [DayCall::Ask, DayCall::Commit(stamp)] {
        refused(call, row, entry, room, number, carries);
    }
}

/// Makes a fresh day with both programs in this row. The answer and the row must be alike: the list's first n
/// entries, zeros after them and the stamp 0, or a refusal and the row as it was.
#[track_caller]
pub fn fresh_in(fields: &Fields, row: &mut Row) -> Result<(), Refusal> {
    let expected = Stamped::fresh(&flat::value(fields));
    let (wanted, wanted_row) = match &expected {
        Ok(day) => (Answer { number: 0, values: [0; 3] }, day.row()),
        Err(refusal) => (refusing(refusal), *row),
    };
    assert_eq!(abi::fresh(fields, row), wanted, "fresh day of {:?}", &fields[..]);
    let differs = (0..commits::SIZE).find(|&i| row[i] != wanted_row[i]);
    assert_eq!(differs, None, "the first number that is wrong in the fresh day of {:?}", &fields[..]);
    expected.map(|_| ())
}

/// Makes a fresh day with both programs.
#[track_caller]
pub fn fresh(fields: &Fields) -> Result<Row, Refusal> {
    let mut row = abi::untouched_day();
    fresh_in(fields, &mut row)?;
    Ok(row)
}

/// The fresh day of a list that can be planned.
#[track_caller]
pub fn made(day: &Day) -> Row {
    fresh(&flat::of_day(day)).unwrap_or_else(|refusal| panic!("{refusal:?} of {day:?}"))
}

/// A day from its first list on, the entries committed with success, and the buffers, which are lent to one
/// call after the other.
pub struct Run {
    pub first: Day,
    pub committed: Vec<Entry>,
    pub row: Row,
    pub lent: Lent,
}

impl Run {
    /// Begins with the fresh day of a list that can be planned.
    #[track_caller]
    pub fn of(first: &Day) -> Run {
        Run {
            first: first.clone(),
            committed: vec![],
            row: made(first),
            lent: Lent::untouched(first.h.into()),
        }
    }

    /// The list "is the first one followed by the entries committed with success, in order".
    pub fn list(&self) -> Day {
        let entries = [&self.first.entries[..], &self.committed].concat();
        Day { entries, ..self.first }
    }

    /// "a stamp, the number of successful commits so far"
    pub fn stamp(&self) -> u64 {
        self.committed.len() as u64
    }

    /// Lends so many bytes for the plan from now on.
    pub fn lend(&mut self, room: usize) {
        self.lent.plan.resize(room, 0xA5);
    }

    /// Makes a call with both programs. Then the day has the list and the stamp that it must have.
    #[track_caller]
    pub fn call(&mut self, day_call: DayCall, entry: &Numbers) -> Answer {
        let answer = call(day_call, &mut self.row, entry, &mut self.lent);
        if answer.number == 0 && day_call != DayCall::Ask {
            self.committed.push(flat::entry(entry));
        }
        let wanted = commits::row(&self.list(), self.committed.len() as u32);
        assert!(self.row == wanted, "{}, and not {}", in_short(&self.row), in_short(&wanted));
        answer
    }

    /// Commits an entry with the day's stamp.
    #[track_caller]
    pub fn commit(&mut self, entry: &Entry) -> Answer {
        self.call(DayCall::Commit(self.stamp()), &flat::numbers(entry))
    }

    /// Asks for an entry.
    #[track_caller]
    pub fn ask(&mut self, entry: &Entry) -> Answer {
        self.call(DayCall::Ask, &flat::numbers(entry))
    }
}
