//! Least ends and greatest starts, in settled windows.

use super::jackson::has_plan;
use super::windows::Windows;

/// "a pause entry has its least end .. over all plans. A whole entry has r + p": every end is tried as its d.
pub fn least_end(windows: &Windows, place: usize, whole: bool) -> u16 {
    let (r, d, p) = (windows.r[place], windows.d[place], windows.p[place]);
    let mut ends = r + p..=d;
    ends.find(|&e| whole || has_plan(&windows.with(place, r, e))).expect("settled windows have a plan")
}

/// "and greatest start over all plans. A whole entry has .. d - p.": every start is tried as its r.
pub fn greatest_start(windows: &Windows, place: usize, whole: bool) -> u16 {
    let (r, d, p) = (windows.r[place], windows.d[place], windows.p[place]);
    let mut starts = (r..=d - p).rev();
    starts.find(|&s| whole || has_plan(&windows.with(place, s, d))).expect("settled windows have a plan")
}
