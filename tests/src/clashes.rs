//! Document 02's "One box in two places": lists in which a serial stands twice, and whether they are turned back. The
//! second reader looks for a minute that two windows share; here they are told apart by their ends.

use crate::day::{Day, Entry};

/// A window [r, d).
pub type Window = (u16, u16);

/// All windows of a day of `h` minutes that have a minute: r below d, d at most H.
pub fn windows(h: u16) -> Vec<Window> {
    (0..h).flat_map(|r| (r + 1..=h).map(move |d| (r, d))).collect()
}

/// Whether two windows of at most `h` share one of its minutes, by looking at each.
pub fn share_a_minute(h: u16, one: Window, other: Window) -> bool {
    (0..h).any(|t| one.0 <= t && t < one.1 && other.0 <= t && t < other.1)
}

/// A day of `h` minutes with an entry of a minute for each serial and window, pause and whole in turn.
pub fn day(h: u16, entries: &[(u32, Window)]) -> Day {
    let entry = |(place, &(serial, (r, d)))| Entry { serial, seal: None, r, d, p: 1, whole: place % 2 == 1 };
    Day { h, opening: 0, entries: entries.iter().enumerate().map(entry).collect() }
}

/// Whether one of two windows ends by the time that the other begins: "Windows that only touch are fine."
fn apart(one: Window, other: Window) -> bool {
    one.1 <= other.0 || other.1 <= one.0
}

/// The place of the entry that is turned back: of all pairs of one serial whose windows are not apart, the least
/// later place.
pub fn told(entries: &[(u32, Window)]) -> Option<usize> {
    let mut least = None;
    for later in 0..entries.len() {
        for earlier in 0..later {
            let ((one, first), (other, second)) = (entries[earlier], entries[later]);
            if one == other && !apart(first, second) {
                least = Some(least.map_or(later, |place: usize| place.min(later)));
            }
        }
    }
    least
}

/// The lists of a day's depots, one after the other, with the serials that each depot gives.
pub fn merged(depots: &[&Day]) -> Day {
    let h = depots[0].h;
    assert!(depots.iter().all(|depot| depot.h == h), "the same day");
    Day { h, opening: 0, entries: depots.iter().flat_map(|depot| depot.entries.clone()).collect() }
}

/// A depot's list of a spring day of ten hours. Each depot numbers its boxes from 1; its hours begin at minute
/// `first` and are two.
pub fn depot(first: u16) -> Day {
    let entry = |(serial, (r, d, p, whole)): (u32, (u16, u16, u16, bool))| Entry {
        serial,
        seal: (serial % 2 == 0).then_some(70 + serial),
        r: first + r,
        d: first + d,
        p,
        whole,
    };
    let boxes = [(0, 120, 25, false), (10, 70, 20, true), (30, 60, 10, false), (60, 120, 30, true)];
    Day { h: 600, opening: 0, entries: (1..).zip(boxes).map(entry).collect() }
}
