//! Row 9, with a sum that is kept while the left end walks down.

use super::windows::{Order, Windows};
use dock_tests::day::{Interval, Refusal};

/// "The interval shown has the smallest b, and with it the largest a."
pub fn test(windows: &Windows) -> Result<(), Refusal> {
    let order = windows.order();
    let mut shown: Option<Shown> = None;
    for &b in &windows.d[..windows.n] {
        if shown.as_ref().is_none_or(|shown| b < shown.b) {
            shown = largest_left_end(windows, &order, b).or(shown);
        }
    }
    shown.map_or(Ok(()), |Shown { a, b, work }| {
        Err(Refusal::Overloaded(Interval { a: a as u16, b: b as u16, work: work.into() }))
    })
}

struct Shown {
    a: u32,
    b: u32,
    work: u32,
}

/// The overloaded interval with this right end and the largest left end, if there is one.
fn largest_left_end(windows: &Windows, order: &Order, b: u32) -> Option<Shown> {
    let places = order.places();
    let mut work = 0;
    for (at, &place) in places.iter().enumerate() {
        if windows.d[place] <= b {
            work += windows.p[place];
        }
        let a = windows.r[place];
        // All entries with this r belong to the interval.
        if places.get(at + 1).is_some_and(|&next| windows.r[next] == a) {
            continue;
        }
        if a < b && b - a < work {
            return Some(Shown { a, b, work });
        }
    }
    None
}
