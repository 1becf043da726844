//! Jackson's preemptive schedule, minute by minute.

use super::windows::Windows;
use dock_tests::day::{IDLE, MOST_ENTRIES};

/// A number of minutes for each place.
type Minutes = [u16; MOST_ENTRIES];

/// The d of an entry that cannot have the minute.
const NEVER: u16 = u16::MAX;

/// "among entries with r reached and minutes left, take the smallest d": that d. It is inlined, as are the two below,
/// so that its loops are over the caller's own arrays, which is faster.
#[inline(always)]
fn smallest_d(r: &Minutes, d: &Minutes, left: &Minutes, minute: u16) -> Option<u16> {
    (0..MOST_ENTRIES).map(|place| d_if_ready(r, d, left, minute, place)).min().filter(|&d| d < NEVER)
}

/// The d of an entry that may have the minute, NEVER of any other.
#[inline(always)]
fn d_if_ready(r: &Minutes, d: &Minutes, left: &Minutes, minute: u16, place: usize) -> u16 {
    if r[place] <= minute && left[place] > 0 {
        d[place]
    } else {
        NEVER
    }
}

/// Of several that share the smallest d "take the one with the fewest minutes left, then the lowest place".
#[inline(always)]
fn nearly_finished(r: &Minutes, d: &Minutes, left: &Minutes, minute: u16, smallest: u16) -> Option<usize> {
    let left_if_tied = |place: usize| {
        if d_if_ready(r, d, left, minute, place) == smallest {
            left[place]
        } else {
            NEVER
        }
    };
    let fewest = (0..MOST_ENTRIES).map(left_if_tied).min()?;
    (0..MOST_ENTRIES).find(|&place| left_if_tied(place) == fewest)
}

/// Writes the schedule. "A plan is H bytes: the place, or 255 for idle."
pub fn schedule(windows: &Windows, plan: &mut [u8]) {
    let Windows { r, d, p: mut left, .. } = *windows;
    let mut before: Option<usize> = None;
    for (minute, byte) in (0..windows.h).zip(plan) {
        // "The entry that had the minute before, if it has minutes left, goes on unless another d is strictly
        // smaller."
        let running = before.filter(|&place| left[place] > 0);
        before = smallest_d(&r, &d, &left, minute).and_then(|smallest| match running {
            Some(running) if d[running] <= smallest => Some(running),
            _ => nearly_finished(&r, &d, &left, minute, smallest),
        });
        *byte = before.map_or(IDLE, |place| place as u8);
        if let Some(place) = before {
            left[place] -= 1;
        }
    }
}

/// Whether a plan exists: whether Jackson's schedule is one, which ends when all work is done, or an entry
/// has minutes left at its d. Who goes first of two with the same d does not matter to that. Intervals would
/// do as well ("A plan exists exactly when no interval is overloaded"); but this is what going minute by
/// minute means, and the library's own test is not repeated.
pub fn has_plan(windows: &Windows) -> bool {
    let Windows { r, d, p: mut left, .. } = *windows;
    let mut work: u32 = left.iter().copied().map(u32::from).sum();
    for minute in 0..windows.h {
        if work == 0 {
            break;
        }
        if let Some(smallest) = smallest_d(&r, &d, &left, minute) {
            if smallest <= minute {
                return false;
            }
            let has_it = |&place: &usize| d_if_ready(&r, &d, &left, minute, place) == smallest;
            let place = (0..MOST_ENTRIES).find(has_it).expect("an entry with the smallest d");
            left[place] -= 1;
            work -= 1;
        }
    }
    work == 0
}
