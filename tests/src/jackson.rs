//! Jackson's preemptive schedule, minute by minute, from document 01's section "Jackson's minute" and document 02's
//! "Clear the nearly finished box first".

use crate::day::{Day, IDLE};

/// The schedule of the windows as they are given. "A plan is H bytes: the place, or 255 for idle."
pub fn schedule(day: &Day) -> Vec<u8> {
    let mut left: Vec<u16> = day.entries.iter().map(|entry| entry.p).collect();
    let mut before = None;
    let mut plan = Vec::with_capacity(usize::from(day.h));
    for minute in 0..day.h {
        before = taken(day, &left, minute, before);
        if let Some(place) = before {
            left[place] -= 1;
        }
        plan.push(before.map_or(IDLE, |place| place as u8));
    }
    plan
}

/// The place that has this minute, where `left` are the minutes that each entry has left and `before` had
/// the minute before.
fn taken(day: &Day, left: &[u16], minute: u16, before: Option<usize>) -> Option<usize> {
    let d = |place: usize| day.entries[place].d;
    // "among entries with r reached and minutes left, take the smallest d"; "When several boxes share the smallest
    // latest minute and the running box is not among them, take the one with the fewest minutes left, then the
    // lowest place."
    let ready = |&place: &usize| day.entries[place].r <= minute && left[place] > 0;
    let first = (0..day.entries.len()).filter(ready).min_by_key(|&place| (d(place), left[place], place))?;
    // "The entry that had the minute before, if it has minutes left, goes on unless another d is strictly smaller."
    match before {
        Some(running) if left[running] > 0 && d(first) >= d(running) => Some(running),
        _ => Some(first),
    }
}

/// Whether the schedule is a plan, found from one arrival or end to the next instead of minute by minute. Who
/// goes first of two with the same d does not matter to that.
pub fn is_plan(day: &Day) -> bool {
    let mut left: Vec<u16> = day.entries.iter().map(|entry| entry.p).collect();
    let mut minute = 0;
    loop {
        let arrival = day.entries.iter().map(|entry| entry.r).filter(|&r| r > minute).min();
        let Some(place) = taken(day, &left, minute, None) else {
            match arrival {
                Some(r) => minute = r,
                None => return true,
            }
            continue;
        };
        let end = minute + left[place];
        let until = arrival.map_or(end, |r| r.min(end));
        if until > day.entries[place].d {
            return false;
        }
        left[place] -= until - minute;
        minute = until;
    }
}
