//! Days that have settled windows and no unbroken day, with the trials that a search needs to tell so. These are counted
//! here without a search.

use crate::day::Day;
use crate::samples::boxes;

/// One of the smallest: the pause entry leaves three minutes at either side, in each of which one of the three fits.
pub fn smallest() -> Day {
    boxes(7, "w[0,7)2 w[0,7)2 w[0,7)2 p[3,4)1")
}

/// The same of an odd number of minutes, with three whole entries of p minutes. At either side of the middle minute an
/// entry has c starts. Each start of the first entry is tried, for each of 2c that have a plan each start of the second,
/// and for each of 2cc pairs each of the third.
pub fn of_minutes(h: u16, p: u16) -> (Day, u32) {
    let side = (h - 1) / 2;
    assert!(
        h % 2 == 1 && p <= side && 2 * p > side && 3 * p < h,
        "one fits at either side, and there is a plan"
    );
    let entry = format!("w[0,{h}){p}");
    let c = u32::from(side - p + 1);
    let trials = u32::from(h - p + 1) * (1 + 2 * c + 2 * c * c);
    (boxes(h, &format!("{entry} {entry} {entry} p[{side},{})1", side + 1)), trials)
}

/// The same with more entries: so many whole ones of two minutes, at least 3, and fixed minutes of pause entries that
/// leave one gap less than that, of three minutes each, in which one of them fits in two ways. With j of them in gaps
/// the next one's starts are tried, all over the day.
pub fn of_boxes(wholes: u16) -> (Day, u32) {
    let gaps = wholes - 1;
    let h = 4 * gaps - 1;
    let mut entries = vec![format!("w[0,{h})2"); wholes.into()];
    entries.extend((1..gaps).map(|gap| format!("p[{},{})1", 4 * gap - 1, 4 * gap)));
    let ways = (0..u32::from(gaps)).scan(1, |ways, taken| {
        *ways *= 2 * (u32::from(gaps) - taken);
        Some(*ways)
    });
    (boxes(h, &entries.join(" ")), u32::from(h - 1) * (1 + ways.sum::<u32>()))
}
