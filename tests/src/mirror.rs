//! The mirror: "minute t becomes H-1-t, [r, d) becomes [H-d, H-r), places kept", and "the mirrored list has opening
//! minute 0".

use crate::day::{Day, Entry};

/// The mirrored list.
pub fn day(day: &Day) -> Day {
    let turned = |entry: &Entry| Entry { r: day.h - entry.d, d: day.h - entry.r, ..entry.clone() };
    Day { h: day.h, opening: 0, entries: day.entries.iter().map(turned).collect() }
}

/// The mirrored plan of H minutes.
pub fn plan(plan: &[u8]) -> Vec<u8> {
    plan.iter().rev().copied().collect()
}
