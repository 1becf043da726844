//! The calls of the static library. They check nothing beforehand; what is lent to the library is filled
//! with values that it does not write by chance, so that what it leaves alone can be told. A list crosses as a row of
//! numbers with its length. Most calls here take any row, so that one of another length can be tried too.

use crate::commits::Row;
use crate::day::MOST_ENTRIES;
use crate::flat::Fields;

extern "C" {
    fn dock_read(bytes: *const u8, len: usize, fields: *mut u32, numbers: usize) -> Answer;
    fn dock_write(fields: *const u32, numbers: usize, out: *mut u8, len: usize) -> Answer;
    fn dock_overload(fields: *const u32, numbers: usize) -> Answer;
    fn dock_schedule(fields: *const u32, numbers: usize, plan: *mut u8, len: usize) -> Answer;
    fn dock_settle(fields: *const u32, numbers: usize, narrowed: *mut u32, narrowed_numbers: usize)
        -> Answer;
    fn dock_plan(
        fields: *const u32,
        numbers: usize,
        plan: *mut u8,
        len: usize,
        narrowed: *mut u32,
        narrowed_numbers: usize,
        bounds: *mut Bounds,
    ) -> Answer;
    fn dock_early(
        fields: *const u32,
        numbers: usize,
        place: u64,
        plan: *mut u8,
        len: usize,
        narrowed: *mut u32,
        narrowed_numbers: usize,
    ) -> Answer;
    fn dock_late(
        fields: *const u32,
        numbers: usize,
        place: u64,
        plan: *mut u8,
        len: usize,
        narrowed: *mut u32,
        narrowed_numbers: usize,
    ) -> Answer;
    fn dock_unbroken(
        fields: *const u32,
        numbers: usize,
        limit: u32,
        plan: *mut u8,
        len: usize,
        narrowed: *mut u32,
        narrowed_numbers: usize,
        starts: *mut Starts,
    ) -> Answer;
    fn dock_fresh(fields: *const u32, numbers: usize, day: *mut u32, day_numbers: usize) -> Answer;
    fn dock_ask(
        day: *const u32,
        day_numbers: usize,
        entry: *const u32,
        entry_numbers: usize,
        plan: *mut u8,
        len: usize,
        narrowed: *mut u32,
        narrowed_numbers: usize,
        bounds: *mut Bounds,
    ) -> Answer;
    fn dock_commit(
        day: *mut u32,
        day_numbers: usize,
        entry: *const u32,
        entry_numbers: usize,
        stamp: u64,
        plan: *mut u8,
        len: usize,
        narrowed: *mut u32,
        narrowed_numbers: usize,
        bounds: *mut Bounds,
    ) -> Answer;
    fn dock_turn(
        rooms: *mut u32,
        numbers: usize,
        lists: *mut u8,
        len: usize,
        number: u64,
        carried: *mut [u64; 3],
    ) -> Answer;
    fn dock_report(bytes: *const u8, len: usize, out: *mut u8, room: usize) -> Answer;
    fn dock_refusal_line(number: u64, values: *const [u64; 3], out: *mut u8, room: usize) -> Answer;
}

/// What a call answers: 0 or a refusal's number, and three values, 0 where there are fewer.
#[repr(C)]
#[derive(Clone, Copy, Debug, PartialEq, Eq)]
pub struct Answer {
    pub number: u64,
    pub values: [u64; 3],
}

/// What stands before and behind the bytes and the numbers that are lent to a call.
const BYTE_BESIDE: u8 = 0xEE;
const NUMBER_BESIDE: u32 = 0xEEEE_EEEE;
const VALUE_BESIDE: u64 = 0xEEEE_EEEE_EEEE_EEEE;

/// What `fields` hold before a call.
pub fn untouched_fields() -> Fields {
    std::array::from_fn(|i| 0xF1E1_D000 + i as u32)
}

/// What the row of a stamped day holds before a call.
pub fn untouched_day() -> Row {
    std::array::from_fn(|i| 0xDA15_0000 + i as u32)
}

/// What `out` and `plan` hold before a call: no byte of it is a place or 255.
pub fn untouched_bytes(room: usize) -> Vec<u8> {
    (0..room).map(|place| 0x80 | (place % 101) as u8).collect()
}

/// Lends these values to a call between margins, which it has no business with, and keeps what it makes of them.
fn lending<T: Copy + PartialEq, R>(values: &mut [T], margin: T, call: impl FnOnce(&mut [T]) -> R) -> R {
    let margin = [margin; 16];
    let mut memory = [&margin, &*values, &margin].concat();
    let lent = &mut memory[margin.len()..][..values.len()];
    let answer = call(lent);
    values.copy_from_slice(lent);
    assert!(memory.starts_with(&margin) && memory.ends_with(&margin), "written where nothing was lent");
    answer
}

/// Lends fields to a call, and gives them back.
fn lending_fields(call: impl FnOnce(&mut [u32]) -> Answer) -> (Answer, Fields) {
    let mut fields = untouched_fields();
    let answer = lending(&mut fields, NUMBER_BESIDE, call);
    (answer, fields)
}

/// Lends `room` bytes to a call, and gives all of them back.
fn lending_bytes(room: usize, call: impl FnOnce(&mut [u8]) -> Answer) -> (Answer, Vec<u8>) {
    let mut bytes = untouched_bytes(room);
    let answer = lending(&mut bytes, BYTE_BESIDE, call);
    (answer, bytes)
}

/// Reads a list through the library.
pub fn read(bytes: &[u8]) -> (Answer, Fields) {
    lending_fields(|fields| read_into(bytes, fields))
}

/// Reads a list through the library into this row, whatever it holds.
pub fn read_into(bytes: &[u8], fields: &mut [u32]) -> Answer {
    // SAFETY: the library reads `bytes.len()` bytes and writes the numbers of `fields`, all of them lent here.
    unsafe { dock_read(bytes.as_ptr(), bytes.len(), fields.as_mut_ptr(), fields.len()) }
}

/// Writes a list through the library into `room` bytes, and gives all of them back.
pub fn write(fields: &[u32], room: usize) -> (Answer, Vec<u8>) {
    // SAFETY: the library reads the numbers of `fields` and writes the bytes of `out`, all of them lent here.
    lending_bytes(room, |out| unsafe {
        dock_write(fields.as_ptr(), fields.len(), out.as_mut_ptr(), out.len())
    })
}

/// Tests a list for overload through the library.
pub fn overload(fields: &[u32]) -> Answer {
    // SAFETY: the library reads the numbers of `fields`, all of them lent here.
    unsafe { dock_overload(fields.as_ptr(), fields.len()) }
}

/// Plans a list through the library into `room` bytes, and gives all of them back.
pub fn schedule(fields: &[u32], room: usize) -> (Answer, Vec<u8>) {
    lending_bytes(room, |plan| schedule_into(fields, plan))
}

/// Plans a list through the library into these bytes, whatever they hold.
pub fn schedule_into(fields: &[u32], plan: &mut [u8]) -> Answer {
    // SAFETY: the library reads the numbers of `fields` and writes the bytes of `plan`, all of them lent here.
    unsafe { dock_schedule(fields.as_ptr(), fields.len(), plan.as_mut_ptr(), plan.len()) }
}

/// Settles a list's windows through the library.
pub fn settle(fields: &[u32]) -> (Answer, Fields) {
    lending_fields(|narrowed| settle_into(fields, narrowed))
}

/// Settles a list's windows through the library into this row, whatever it holds.
pub fn settle_into(fields: &[u32], narrowed: &mut [u32]) -> Answer {
    // SAFETY: the library reads the numbers of `fields` and writes those of `narrowed`, all of them lent here.
    unsafe { dock_settle(fields.as_ptr(), fields.len(), narrowed.as_mut_ptr(), narrowed.len()) }
}

/// The least ends of 64 places, then their greatest starts.
pub type Bounds = [u32; 2 * MOST_ENTRIES];

/// The calls that plan a list in its settled windows: its own plan, and the early or late plan of a place.
#[derive(Clone, Copy, Debug, PartialEq, Eq)]
pub enum Call {
    Plan,
    Early(u64),
    Late(u64),
}

/// What is lent to such a call. The bounds are lent to planning alone.
#[derive(Clone, PartialEq, Eq)]
pub struct Lent {
    pub plan: Vec<u8>,
    pub narrowed: Fields,
    pub bounds: Bounds,
}

impl Lent {
    /// What is lent before a call, with `room` bytes for the plan.
    pub fn untouched(room: usize) -> Lent {
        let bounds = std::array::from_fn(|i| 0xB0B0_0000 + i as u32);
        Lent { plan: untouched_bytes(room), narrowed: untouched_fields(), bounds }
    }
}

/// Makes a call of the library with `room` bytes for the plan, and gives back all that was lent.
pub fn ask(call: Call, fields: &[u32], room: usize) -> (Answer, Lent) {
    let mut lent = Lent::untouched(room);
    let answer = lending(&mut lent.plan, BYTE_BESIDE, |plan| {
        lending(&mut lent.narrowed, NUMBER_BESIDE, |narrowed| {
            lending(&mut lent.bounds, NUMBER_BESIDE, |bounds| {
                let bounds = bounds.try_into().expect("as many bounds as were lent");
                ask_lending(call, fields, plan, narrowed, bounds)
            })
        })
    });
    (answer, lent)
}

/// Makes a call of the library with this lent to it, whatever it holds.
pub fn ask_into(call: Call, fields: &[u32], lent: &mut Lent) -> Answer {
    ask_lending(call, fields, &mut lent.plan, &mut lent.narrowed, &mut lent.bounds)
}

/// Makes a call of the library with these bytes, this row and these bounds lent to it, whatever they hold.
pub fn ask_lending(
    call: Call,
    fields: &[u32],
    plan: &mut [u8],
    narrowed: &mut [u32],
    bounds: &mut Bounds,
) -> Answer {
    let (fields, numbers) = (fields.as_ptr(), fields.len());
    let (plan, len) = (plan.as_mut_ptr(), plan.len());
    let (narrowed, more) = (narrowed.as_mut_ptr(), narrowed.len());
    // SAFETY: the library reads one row and writes bytes, another row and perhaps the bounds, all of them lent here.
    unsafe {
        match call {
            Call::Plan => dock_plan(fields, numbers, plan, len, narrowed, more, bounds),
            Call::Early(place) => dock_early(fields, numbers, place, plan, len, narrowed, more),
            Call::Late(place) => dock_late(fields, numbers, place, plan, len, narrowed, more),
        }
    }
}

/// The starts of 64 places, 0 where there is no whole entry.
pub type Starts = [u32; MOST_ENTRIES];

/// What is lent to the search for an unbroken day.
#[derive(Clone, PartialEq, Eq)]
pub struct SearchLent {
    pub plan: Vec<u8>,
    pub narrowed: Fields,
    pub starts: Starts,
}

impl SearchLent {
    /// What is lent before a call, with `room` bytes for the plan.
    pub fn untouched(room: usize) -> SearchLent {
        let starts = std::array::from_fn(|i| 0x57A2_0000 + i as u32);
        SearchLent { plan: untouched_bytes(room), narrowed: untouched_fields(), starts }
    }
}

/// Searches for an unbroken day through the library with `room` bytes for the plan, and gives back all that was lent.
pub fn unbroken(fields: &[u32], limit: u32, room: usize) -> (Answer, SearchLent) {
    let mut lent = SearchLent::untouched(room);
    let answer = unbroken_into(fields, limit, &mut lent);
    (answer, lent)
}

/// The same with this lent to it, whatever it holds.
pub fn unbroken_into(fields: &[u32], limit: u32, lent: &mut SearchLent) -> Answer {
    let SearchLent { plan, narrowed, starts } = lent;
    unbroken_lending(fields, limit, (plan, narrowed, starts))
}

/// What is lent to the search, with a row of any length for the narrowed list.
pub type SearchSlices<'a> = (&'a mut [u8], &'a mut [u32], &'a mut Starts);

/// The same with these slices.
pub fn unbroken_lending(fields: &[u32], limit: u32, (plan, narrowed, starts): SearchSlices) -> Answer {
    lending(plan, BYTE_BESIDE, |plan| {
        lending(narrowed, NUMBER_BESIDE, |narrowed| {
            lending(starts, NUMBER_BESIDE, |starts| {
                let starts = starts.try_into().expect("as many starts as were lent");
                unbroken_unguarded(fields, limit, (plan, narrowed, starts))
            })
        })
    })
}

/// The same without margins beside what is lent, for the benchmark.
pub fn unbroken_unguarded(fields: &[u32], limit: u32, (plan, narrowed, starts): SearchSlices) -> Answer {
    let (len, more) = (plan.len(), narrowed.len());
    let (plan, narrowed) = (plan.as_mut_ptr(), narrowed.as_mut_ptr());
    // SAFETY: the library reads one row and writes bytes, another row and the starts, all of them lent here.
    unsafe { dock_unbroken(fields.as_ptr(), fields.len(), limit, plan, len, narrowed, more, starts) }
}

/// Makes a fresh day of a list through the library in this row, whatever it holds.
pub fn fresh(fields: &[u32], day: &mut [u32]) -> Answer {
    // SAFETY: the library reads the numbers of `fields` and writes those of `day`, all of them lent here.
    lending(day, NUMBER_BESIDE, |day| unsafe {
        dock_fresh(fields.as_ptr(), fields.len(), day.as_mut_ptr(), day.len())
    })
}

/// The calls that take a stamped day and one more entry. A commit takes a stamp too.
#[derive(Clone, Copy, Debug, PartialEq, Eq)]
pub enum DayCall {
    Ask,
    Commit(u64),
}

/// Makes such a call of the library with this day and all else lent to it, whatever that holds.
pub fn call_day(call: DayCall, day: &mut [u32], entry: &[u32], lent: &mut Lent) -> Answer {
    let Lent { plan, narrowed, bounds } = lent;
    call_day_lending(call, day, entry, plan, narrowed, bounds)
}

/// The same with a row of any length for the narrowed list.
pub fn call_day_lending(
    call: DayCall,
    day: &mut [u32],
    entry: &[u32],
    plan: &mut [u8],
    narrowed: &mut [u32],
    bounds: &mut Bounds,
) -> Answer {
    lending(day, NUMBER_BESIDE, |day| {
        lending(plan, BYTE_BESIDE, |plan| {
            lending(narrowed, NUMBER_BESIDE, |narrowed| {
                lending(bounds, NUMBER_BESIDE, |bounds| {
                    let bounds = bounds.try_into().expect("as many bounds as were lent");
                    dock_day(call, day, entry, plan, narrowed, bounds)
                })
            })
        })
    })
}

fn dock_day(
    call: DayCall,
    day: &mut [u32],
    entry: &[u32],
    plan: &mut [u8],
    narrowed: &mut [u32],
    bounds: &mut Bounds,
) -> Answer {
    let (day, numbers) = (day.as_mut_ptr(), day.len());
    let (entry, fields) = (entry.as_ptr(), entry.len());
    let (plan, len) = (plan.as_mut_ptr(), plan.len());
    let (narrowed, more) = (narrowed.as_mut_ptr(), narrowed.len());
    // SAFETY: the library reads two rows and writes bytes, a row and the bounds, a commit the day's row too,
    // all of them lent here.
    unsafe {
        match call {
            DayCall::Ask => dock_ask(day, numbers, entry, fields, plan, len, narrowed, more, bounds),
            DayCall::Commit(stamp) => {
                dock_commit(day, numbers, entry, fields, stamp, plan, len, narrowed, more, bounds)
            }
        }
    }
}

/// Makes a turn of the library from this room number, with any numbers for the rooms' rows, any bytes for their lists
/// and three values for what a room's refusal carries lent to it, whatever they hold.
pub fn turn(rooms: &mut [u32], lists: &mut [u8], number: u64, carried: &mut [u64; 3]) -> Answer {
    lending(rooms, NUMBER_BESIDE, |rooms| {
        lending(lists, BYTE_BESIDE, |lists| {
            lending(carried, VALUE_BESIDE, |carried| {
                let (rooms, numbers) = (rooms.as_mut_ptr(), rooms.len());
                let (lists, len) = (lists.as_mut_ptr(), lists.len());
                let carried: &mut [u64; 3] = carried.try_into().expect("as many values as were lent");
                // SAFETY: the library reads and writes the rows, the bytes and the values, all of them lent here.
                unsafe { dock_turn(rooms, numbers, lists, len, number, carried) }
            })
        })
    })
}

/// Reports an input through the library into `room` bytes, and gives all of them back.
pub fn report(bytes: &[u8], room: usize) -> (Answer, Vec<u8>) {
    lending_bytes(room, |out| report_into(bytes, out))
}

/// Reports an input through the library into these bytes, whatever they hold.
pub fn report_into(bytes: &[u8], out: &mut [u8]) -> Answer {
    // SAFETY: the library reads `bytes.len()` bytes and writes the bytes of `out`, all of them lent here.
    unsafe { dock_report(bytes.as_ptr(), bytes.len(), out.as_mut_ptr(), out.len()) }
}

/// Stores the line of a refusal through the library in `room` bytes, and gives all of them back.
pub fn refusal_line(refusal: Answer, room: usize) -> (Answer, Vec<u8>) {
    lending_bytes(room, |out| refusal_line_into(refusal, out))
}

/// Stores the line of a refusal through the library in these bytes, whatever they hold.
pub fn refusal_line_into(refusal: Answer, out: &mut [u8]) -> Answer {
    let Answer { number, values } = refusal;
    // SAFETY: the library reads three values and writes the bytes of `out`, all of them lent here.
    unsafe { dock_refusal_line(number, &values, out.as_mut_ptr(), out.len()) }
}
