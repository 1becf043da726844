//! The least ends of all places at once, each as a pause entry: document 004's pass over right ends.

use super::windows::{Minutes, Windows};

/// The windows have a plan.
pub fn least_ends(windows: &Windows) -> Minutes {
    let order = windows.order();
    let mut ends = windows.r;
    for (end, &p) in ends.iter_mut().zip(&windows.p) {
        *end += p;
    }
    for &b in &windows.d[..windows.n] {
        raise(windows, order.places(), b, &mut ends);
    }
    ends
}

/// Raises the ends of the entries that may end after b, from the smallest r up.
fn raise(windows: &Windows, order: &[usize], b: u32, ends: &mut Minutes) {
    let inside = (0..windows.n).filter(|&i| windows.d[i] <= b);
    let mut kept: u32 = inside.map(|i| windows.p[i]).sum();
    let mut high = 0;
    for &i in order.iter().rev() {
        high = high.max(windows.r[i] + kept);
        if windows.d[i] <= b {
            kept -= windows.p[i];
        } else if b < high + windows.p[i] {
            ends[i] = ends[i].max(high + windows.p[i]);
        }
    }
}
