//! The second planner: the refusals of its two calls in the order of document 01's table, then the schedule.

use crate::day::{Day, Refusal};
use crate::flat::Value;
use crate::{jackson, overload, writer};

/// What the overload test makes of a value: 2, 3, 15, then 16, 6 and 7 per entry, 14, then 9.
pub fn overload(value: &Value) -> Result<(), Refusal> {
    given_windows(&writer::checked(value)?)
}

/// What planning the given windows in `room` bytes makes of a value: 11 stands between the value's own
/// refusals and 9.
pub fn schedule(value: &Value, room: usize) -> Result<Vec<u8>, Refusal> {
    let day = writer::checked(value)?;
    long_enough(&day, room)?;
    given_windows(&day)?;
    Ok(jackson::schedule(&day))
}

/// Row 11, "plan buffer under H bytes".
pub fn long_enough(day: &Day, room: usize) -> Result<(), Refusal> {
    if room < usize::from(day.h) {
        return Err(Refusal::ShortPlan { h: day.h });
    }
    Ok(())
}

fn given_windows(day: &Day) -> Result<(), Refusal> {
    overload::shown(day).map_or(Ok(()), |interval| Err(Refusal::Overloaded(interval)))
}
