//! Document 02's "Eight rooms at one control desk": turns, each a round of the next unfinished room.

mod bound;
mod counts;
mod examples;
mod number;
mod refusals;
mod runs;
mod shares;
mod small_days;
mod stages;
mod unreadable;
mod untouched;

use dock_tests::desk::share_of;
use dock_tests::samples::boxes;

/// The share of a room that has this list, in short.
fn room(h: u16, entries: &str) -> Vec<u8> {
    share_of(&boxes(h, entries))
}
