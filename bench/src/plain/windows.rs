//! Windows by place, and the overload test of document 01.

use dock_tests::day::{Day, Interval, Refusal, MOST_ENTRIES};

/// The windows and minutes of n entries. The places from n on have no minutes.
#[derive(Clone, Copy)]
pub struct Windows {
    pub h: u16,
    pub n: usize,
    pub r: [u16; MOST_ENTRIES],
    pub d: [u16; MOST_ENTRIES],
    pub p: [u16; MOST_ENTRIES],
}

impl Windows {
    pub fn of(day: &Day) -> Windows {
        let none = [0; MOST_ENTRIES];
        let mut windows = Windows { h: day.h, n: day.entries.len(), r: none, d: none, p: none };
        for (place, entry) in day.entries.iter().enumerate() {
            windows.r[place] = entry.r;
            windows.d[place] = entry.d;
            windows.p[place] = entry.p;
        }
        windows
    }

    /// The same with another window for an entry.
    pub fn with(&self, place: usize, r: u16, d: u16) -> Windows {
        let mut windows = *self;
        (windows.r[place], windows.d[place]) = (r, d);
        windows
    }

    /// Row 9, for "a an earliest and b a latest minute of the list .. The interval shown has the smallest b,
    /// and with it the largest a."
    pub fn test(&self) -> Result<(), Refusal> {
        let earliest = in_order(&self.r[..self.n]);
        for b in in_order(&self.d[..self.n]) {
            for &a in earliest.iter().rev().filter(|&&a| a < b) {
                let work = self.work(a, b);
                if work > u32::from(b - a) {
                    return Err(Refusal::Overloaded(Interval { a, b, work: work.into() }));
                }
            }
        }
        Ok(())
    }

    /// "the work of [a, b) is the sum of p over entries with r at least a and d at most b"
    fn work(&self, a: u16, b: u16) -> u32 {
        let Windows { r, d, p, .. } = *self; // a copy, as the loop over it is faster
        let mut work = 0;
        for place in 0..MOST_ENTRIES {
            if r[place] >= a && d[place] <= b {
                work += u32::from(p[place]);
            }
        }
        work
    }
}

fn in_order(minutes: &[u16]) -> Vec<u16> {
    let mut minutes = minutes.to_vec();
    minutes.sort_unstable();
    minutes.dedup();
    minutes
}
