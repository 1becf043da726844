//! The least start of an entry, by jumps. A jump from s goes over starts that an interval bars, and where no right end
//! gives one s has a plan. The windows have a plan as they stand.

use super::windows::{Order, Windows};

/// The least start of an entry for which there is a plan, if it has one.
pub fn least_start(windows: &Windows, place: usize) -> Option<u32> {
    let order = windows.order();
    let mut others = *windows;
    others.p[place] = 0;
    let (d, p) = (windows.d[place], windows.p[place]);
    let mut s = windows.r[place];
    loop {
        if d < s + p {
            return None;
        }
        let next = pass(&others, &order, place, p, s);
        if next == s {
            return Some(s);
        }
        s = next;
    }
}

/// The greatest end, as the least start in the mirror.
pub fn greatest_end(windows: &Windows, place: usize) -> Option<u32> {
    least_start(&windows.mirrored(), place).map(|s| windows.h - s)
}

/// Jumps over all right ends, those of the smallest r first, each from where the last one led. At the entry's r none from
/// its d on gives a jump.
fn pass(others: &Windows, order: &Order, place: usize, p: u32, first: u32) -> u32 {
    let limit = if first == others.r[place] { others.d[place] - 1 } else { u32::MAX };
    let mut s = first;
    for &i in order.places().iter().rev() {
        let b = others.d[i];
        if s < b && b <= limit {
            s = jump(others, order, p, s, b);
        }
    }
    s
}

/// Jumps over one right end, for each left end with the work of the others between the two.
fn jump(others: &Windows, order: &Order, p: u32, mut s: u32, b: u32) -> u32 {
    let mut kept = 0;
    for &i in order.places() {
        if others.d[i] > b {
            continue;
        }
        kept += others.p[i];
        let end = others.r[i] + kept;
        if s < end && b < others.r[i].min(s) + kept + p {
            s = end;
        }
    }
    s
}
