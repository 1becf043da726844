//! Overloaded intervals, from document 01's section of that name.

use crate::day::{Day, Interval};

/// "the work of [a, b) is the sum of p over entries with r at least a and d at most b"
pub fn work(day: &Day, a: u16, b: u16) -> u64 {
    let inside = day.entries.iter().filter(|entry| entry.r >= a && entry.d <= b);
    inside.map(|entry| u64::from(entry.p)).sum()
}

/// "For a an earliest and b a latest minute of the list .. With a below b, it is overloaded if the work
/// exceeds b - a; other pairs are no intervals. .. The interval shown has the smallest b, and with it the
/// largest a."
pub fn shown(day: &Day) -> Option<Interval> {
    let mut earliest: Vec<u16> = day.entries.iter().map(|entry| entry.r).collect();
    let mut latest: Vec<u16> = day.entries.iter().map(|entry| entry.d).collect();
    earliest.sort_unstable();
    latest.sort_unstable();
    for &b in &latest {
        for &a in earliest.iter().rev().filter(|&&a| a < b) {
            let work = work(day, a, b);
            if work > u64::from(b - a) {
                return Some(Interval { a, b, work });
            }
        }
    }
    None
}
