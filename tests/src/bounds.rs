//! The second planner of settled windows: bounds and shown plans from document 01's section "Least ends,
//! greatest starts, shown plans". Whether a plan exists is asked of Jackson's schedule, for one minute after
//! the other, and starts are not found through the mirror.

use crate::abi::Call;
use crate::day::{Day, Refusal};
use crate::flat::Value;
use crate::narrow::{self, Narrowed};
use crate::{brute, jackson, mirror, planner, writer};

/// The settled windows in which a call plans a value, or its refusal: the value's own rows, then 13, 11, 9
/// and 10. "a row about a buffer or place that a call doesn't take is passed over"
pub fn settle(call: Call, value: &Value, room: usize) -> Result<Narrowed, Refusal> {
    let day = writer::checked(value)?;
    if let Call::Early(place) | Call::Late(place) = call {
        if place >= day.entries.len() as u64 {
            return Err(Refusal::UnknownPlace { place });
        }
    }
    planner::long_enough(&day, room)?;
    narrow::settle(value)
}

/// "a pause entry has its least end .. over all plans. A whole entry has r + p": a plan has the entry ended
/// by e exactly if it is one when the entry's d is e.
pub fn least_end(settled: &Day, place: usize) -> u16 {
    let entry = &settled.entries[place];
    if entry.whole {
        return entry.r + entry.p;
    }
    let mut ends = entry.r + entry.p..=entry.d;
    ends.find(|&e| jackson::is_plan(&with_end(settled, place, e))).expect("settled windows have a plan")
}

/// "and greatest start over all plans. A whole entry has .. d - p."
pub fn greatest_start(settled: &Day, place: usize) -> u16 {
    let entry = &settled.entries[place];
    if entry.whole {
        return entry.d - entry.p;
    }
    let mut starts = (entry.r..=entry.d - entry.p).rev();
    starts.find(|&s| jackson::is_plan(&with_start(settled, place, s))).expect("settled windows have a plan")
}

/// "Early: Jackson's schedule with k's d set to its least end."
pub fn early_plan(settled: &Day, place: usize, least_end: u16) -> Vec<u8> {
    jackson::schedule(&with_end(settled, place, least_end))
}

/// "Late: the mirror .. of Jackson's schedule of the mirrored list, k's r set first to its greatest start."
pub fn late_plan(settled: &Day, place: usize, greatest_start: u16) -> Vec<u8> {
    let mirrored = mirror::day(&with_start(settled, place, greatest_start));
    mirror::plan(&jackson::schedule(&mirrored))
}

/// The day with this d at a place.
pub fn with_end(day: &Day, place: usize, d: u16) -> Day {
    let mut day = day.clone();
    day.entries[place].d = d;
    day
}

/// The day with this r at a place.
pub fn with_start(day: &Day, place: usize, r: u16) -> Day {
    let mut day = day.clone();
    day.entries[place].r = r;
    day
}

/// "`broken` counts whole entries whose planned minutes are not consecutive."
pub fn broken(day: &Day, plan: &[u8]) -> u64 {
    let is_broken = |place: &usize| !is_consecutive(&brute::minutes_of(plan, *place));
    let wholes = (0..day.entries.len()).filter(|&place| day.entries[place].whole);
    wholes.filter(is_broken).count() as u64
}

/// Whether each of these minutes is the one after the last.
pub fn is_consecutive(minutes: &[u16]) -> bool {
    minutes.windows(2).all(|pair| pair[1] == pair[0] + 1)
}
