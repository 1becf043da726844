//! Narrowing: rounds in which every start and every end is tried, one after the other.

use super::jackson::has_plan;
use super::windows::Windows;
use dock_tests::day::{Refusal, MOST_ENTRIES};

/// Rounds until one makes no move, or row 10. Answers the moves. "A round visits places from 0 up; pause
/// entries are passed over."
pub fn rounds(windows: &mut Windows, whole: &[bool; MOST_ENTRIES]) -> Result<u64, Refusal> {
    let mut moves = 0;
    loop {
        let before = moves;
        for place in (0..windows.n).filter(|&place| whole[place]) {
            moves += visit(windows, place).ok_or(Refusal::NoPlace { place })?;
        }
        if moves == before {
            return Ok(moves);
        }
    }
}

/// "its r becomes the least s .. Then its d becomes the greatest e .. A changed r is one move, a changed d
/// another."
fn visit(windows: &mut Windows, place: usize) -> Option<u64> {
    let s = least_start(windows, place)?;
    let earlier = std::mem::replace(&mut windows.r[place], s);
    let e = greatest_end(windows, place)?;
    let later = std::mem::replace(&mut windows.d[place], e);
    Some(u64::from(earlier != s) + u64::from(later != e))
}

/// "the least s, from its r up, with s + p at most its d, for which a plan exists when its window is [s, s +
/// p) and the others keep theirs"
fn least_start(windows: &Windows, place: usize) -> Option<u16> {
    let (r, d, p) = (windows.r[place], windows.d[place], windows.p[place]);
    (r..=d - p).find(|&s| has_plan(&windows.with(place, s, s + p)))
}

/// "the greatest e, from its d down, with the r just found plus p at most e, for which a plan exists when its
/// window is [e - p, e) and the others keep theirs"
fn greatest_end(windows: &Windows, place: usize) -> Option<u16> {
    let (r, d, p) = (windows.r[place], windows.d[place], windows.p[place]);
    (r + p..=d).rev().find(|&e| has_plan(&windows.with(place, e - p, e)))
}
