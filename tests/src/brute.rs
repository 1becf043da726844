//! Plans and overloaded intervals of small days by trying everything: neither Jackson's rule nor the law
//! between plans and intervals is used.

use crate::day::{Day, Interval, IDLE};
use std::collections::BTreeSet;

/// "A plan gives each minute 0 to H-1 to one entry or none; entry i has exactly p minutes, all in [r, d)."
pub fn is_plan(day: &Day, bytes: &[u8]) -> bool {
    let known = |&byte: &u8| byte == IDLE || usize::from(byte) < day.entries.len();
    bytes.len() == usize::from(day.h)
        && bytes.iter().all(known)
        && day.entries.iter().enumerate().all(|(place, entry)| {
            let minutes = minutes_of(bytes, place);
            minutes.len() == usize::from(entry.p)
                && minutes.iter().all(|minute| (entry.r..entry.d).contains(minute))
        })
}

/// The minutes that a plan gives to an entry.
pub fn minutes_of(bytes: &[u8], place: usize) -> Vec<u16> {
    (0..).zip(bytes).filter(|&(_, &byte)| usize::from(byte) == place).map(|(minute, _)| minute).collect()
}

/// All plans of a day.
pub fn plans(day: &Day) -> Vec<Vec<u8>> {
    let mut all = vec![];
    Search::new(day).go_on(&mut |plan| {
        all.push(plan.to_vec());
        false
    });
    all
}

/// Whether a day has a plan.
pub fn has_plan(day: &Day) -> bool {
    Search::new(day).go_on(&mut |_| true)
}

/// A plan in the making: the minutes given so far, and what is left of each entry.
struct Search<'a> {
    day: &'a Day,
    given: Vec<u8>,
    left: Vec<u16>,
}

impl Search<'_> {
    fn new(day: &Day) -> Search<'_> {
        Search { day, given: vec![], left: day.entries.iter().map(|entry| entry.p).collect() }
    }

    /// Gives the next minute to each entry that may have it and to none, in turn, and so on to the day's
    /// end. `found` gets each plan and says whether to stop there; so does the answer.
    fn go_on(&mut self, found: &mut dyn FnMut(&[u8]) -> bool) -> bool {
        let minute = self.given.len() as u16;
        let mut rest = self.left.iter().zip(&self.day.entries);
        if rest.any(|(&left, entry)| left > entry.d.saturating_sub(minute)) {
            return false; // an entry cannot end in its window any more
        }
        if minute == self.day.h {
            return found(&self.given);
        }
        for (place, entry) in self.day.entries.iter().enumerate() {
            if self.left[place] > 0 && (entry.r..entry.d).contains(&minute) {
                self.left[place] -= 1;
                let stop = self.next(place as u8, found);
                self.left[place] += 1;
                if stop {
                    return true;
                }
            }
        }
        self.next(IDLE, found)
    }

    /// Goes on after the next minute has this byte.
    fn next(&mut self, byte: u8, found: &mut dyn FnMut(&[u8]) -> bool) -> bool {
        self.given.push(byte);
        let stop = self.go_on(found);
        self.given.pop();
        stop
    }
}

/// All overloaded intervals of a day: each r is tried with each d behind it, whether the work is more than the
/// minutes.
pub fn overloaded_intervals(day: &Day) -> Vec<Interval> {
    let earliest = BTreeSet::from_iter(day.entries.iter().map(|entry| entry.r));
    let latest = BTreeSet::from_iter(day.entries.iter().map(|entry| entry.d));
    let mut all = vec![];
    for &a in &earliest {
        for &b in latest.range(a + 1..) {
            let mut work = 0;
            for entry in &day.entries {
                if a <= entry.r && entry.d <= b {
                    work += u64::from(entry.p);
                }
            }
            if work > u64::from(b) - u64::from(a) {
                all.push(Interval { a, b, work });
            }
        }
    }
    all
}
