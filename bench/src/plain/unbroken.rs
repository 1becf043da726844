//! The search for an unbroken day: every start is tried, one after the other.

use super::jackson::has_plan;
use super::windows::Windows;
use dock_tests::day::MOST_ENTRIES;

/// How a search ends.
#[derive(PartialEq, Eq)]
pub enum Ending {
    Found,
    None,
    Spent,
}

/// A search with a limit of trials, those that it made, and the windows, in which the start of every whole entry is fixed
/// where a day is found.
pub struct Search<'a> {
    pub whole: &'a [bool; MOST_ENTRIES],
    pub limit: u32,
    pub trials: u32,
    pub windows: Windows,
}

impl Search<'_> {
    /// "whole entries by place, starts upward, going back to the previous entry's next start when an entry has no start
    /// left": those from this place on, with the starts before it fixed.
    pub fn from(&mut self, place: usize) -> Ending {
        let Some(place) = (place..self.windows.n).find(|&place| self.whole[place]) else {
            return Ending::Found;
        };
        let (r, d, p) = (self.windows.r[place], self.windows.d[place], self.windows.p[place]);
        for s in r..=d - p {
            // "Spent: only when one more trial is needed and all were used."
            if self.trials == self.limit {
                return Ending::Spent;
            }
            self.trials += 1;
            (self.windows.r[place], self.windows.d[place]) = (s, s + p);
            if has_plan(&self.windows) {
                let ending = self.from(place + 1);
                if ending != Ending::None {
                    return ending;
                }
            }
        }
        (self.windows.r[place], self.windows.d[place]) = (r, d);
        Ending::None
    }
}
