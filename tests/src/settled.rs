//! Narrowing of small days by trying everything: all plans, all sets of windows inside the given ones, and
//! all lists of narrowing steps. No start is searched for minute by minute, and Jackson's rule is not used.

use crate::brute;
use crate::day::{Day, Refusal};
use crate::narrow::Side;
use std::collections::HashSet;

/// The r and d of each entry, by place. "A set of windows has one for each entry."
pub type Windows = Vec<(u16, u16)>;

/// The windows of a list.
pub fn windows_of(day: &Day) -> Windows {
    day.entries.iter().map(|entry| (entry.r, entry.d)).collect()
}

/// "It lies inside another if each of its r is at least, and each of its d at most, the other's."
pub fn inside(windows: &Windows, others: &Windows) -> bool {
    windows.iter().zip(others).all(|(window, other)| window.0 >= other.0 && window.1 <= other.1)
}

/// A small day with all its plans. Of a plan only the start and the end of each entry are kept, "its first
/// minute" and "its last minute plus 1": a plan has every entry in its window exactly if these lie inside the
/// windows, and an entry's p minutes are consecutive exactly if its end is its start plus p.
pub struct Plans<'a> {
    day: &'a Day,
    spans: Vec<Windows>,
}

/// What lists of narrowing steps, the empty one too, lead to.
#[derive(Debug, Default)]
pub struct Steps {
    /// All windows that a list leaves.
    pub left: HashSet<Windows>,
    /// Those of them in which no step changes a window and none is refused.
    pub complete: HashSet<Windows>,
    /// The entries for which a step is refused in some of them.
    pub refused: HashSet<usize>,
}

impl Plans<'_> {
    /// Finds all plans of a day.
    pub fn of(day: &Day) -> Plans<'_> {
        let mut spans: Vec<Windows> = brute::plans(day).iter().map(|plan| spans_of(day, plan)).collect();
        spans.sort_unstable();
        spans.dedup();
        Plans { day, spans }
    }

    /// Whether a plan fits the given windows.
    pub fn any(&self) -> bool {
        !self.spans.is_empty()
    }

    /// The plans that have every entry in its window. The windows lie inside the given ones.
    fn fitting<'a>(&'a self, windows: &'a Windows) -> impl Iterator<Item = &'a Windows> {
        self.spans.iter().filter(|spans| inside(spans, windows))
    }

    /// The plans that keep every whole entry in one piece.
    pub fn unbroken(&self) -> impl Iterator<Item = &Windows> {
        let consecutive = |spans: &Windows, place: usize| spans[place].1 - spans[place].0 == self.p(place);
        self.spans.iter().filter(move |spans| self.wholes().all(|place| consecutive(spans, place)))
    }

    fn p(&self, place: usize) -> u16 {
        self.day.entries[place].p
    }

    fn wholes(&self) -> impl Iterator<Item = usize> + '_ {
        (0..self.day.entries.len()).filter(|&place| self.day.entries[place].whole)
    }

    /// "It is settled if a plan has every entry in its window, and if each whole entry has such a plan with
    /// its minutes consecutive from its r on, and one with them consecutive up to its d."
    pub fn is_settled(&self, windows: &Windows) -> bool {
        let plans: Vec<&Windows> = self.fitting(windows).collect();
        let has = |place: usize, span| plans.iter().any(|spans| spans[place] == span);
        !plans.is_empty()
            && self.wholes().all(|place| {
                let ((r, d), p) = (windows[place], self.p(place));
                has(place, (r, r + p)) && has(place, (d - p, d))
            })
    }

    /// All settled sets of windows inside the given ones. Windows with less than p minutes are left out: no
    /// plan has an entry in them.
    pub fn settled_sets(&self) -> Vec<Windows> {
        let mut sets = vec![vec![]];
        for entry in &self.day.entries {
            let starts = entry.r..=entry.d - entry.p;
            let roomy: Windows = starts.flat_map(|r| (r + entry.p..=entry.d).map(move |d| (r, d))).collect();
            let longer =
                |set: &Windows| -> Vec<_> { roomy.iter().map(|&w| [&set[..], &[w]].concat()).collect() };
            sets = sets.iter().flat_map(longer).collect();
        }
        sets.retain(|set| self.is_settled(set));
        sets
    }

    /// "it makes a round's search for that entry's r, or the one for its d with the r it then has": of all
    /// plans that have this entry's minutes consecutive, the least start or the greatest end.
    pub fn step(&self, windows: &Windows, place: usize, side: Side) -> Option<Windows> {
        let spans = self.fitting(windows).map(|spans| spans[place]);
        let one_piece = spans.filter(|(start, end)| end - start == self.p(place));
        let mut windows = windows.clone();
        match side {
            Side::Earliest => windows[place].0 = one_piece.map(|(start, _)| start).min()?,
            Side::Latest => windows[place].1 = one_piece.map(|(_, end)| end).max()?,
        }
        Some(windows)
    }

    /// The least end and the greatest start of an entry "over all plans" that fit the given windows; of a
    /// whole entry, over those that have it in one piece.
    pub fn bounds(&self, place: usize) -> (u16, u16) {
        let all = self.spans.iter().map(|spans| spans[place]);
        let kept =
            |&(start, end): &(u16, u16)| !self.day.entries[place].whole || end - start == self.p(place);
        let spans = Vec::from_iter(all.filter(kept));
        let end = spans.iter().map(|span| span.1).min();
        let start = spans.iter().map(|span| span.0).max();
        end.zip(start).expect("a plan")
    }

    /// All steps that can be named, in the order of a round.
    fn named(&self) -> impl Iterator<Item = (usize, Side)> + '_ {
        self.wholes().flat_map(|place| [(place, Side::Earliest), (place, Side::Latest)])
    }

    /// All lists of narrowing steps from the given windows on.
    pub fn steps(&self) -> Steps {
        let mut found = Steps::default();
        let mut waiting = vec![windows_of(self.day)];
        while let Some(windows) = waiting.pop() {
            if !found.left.insert(windows.clone()) {
                continue;
            }
            let mut complete = true;
            for (place, side) in self.named() {
                let next = self.step(&windows, place, side);
                complete &= next.as_ref() == Some(&windows);
                if next.is_none() {
                    found.refused.insert(place);
                }
                waiting.extend(next);
            }
            if complete {
                found.complete.insert(windows);
            }
        }
        found
    }

    /// Rounds of such steps: the windows that the last one leaves and all moves made, or row 10.
    pub fn rounds(&self) -> Result<(Windows, u64), Refusal> {
        let mut windows = windows_of(self.day);
        let mut moves = 0;
        loop {
            let before = moves;
            for (place, side) in self.named() {
                let next = self.step(&windows, place, side).ok_or(Refusal::NoPlace { place })?;
                moves += u64::from(next != windows);
                windows = next;
            }
            if moves == before {
                return Ok((windows, moves));
            }
        }
    }
}

/// The start and the end of each entry in a plan.
fn spans_of(day: &Day, plan: &[u8]) -> Windows {
    let span = |place| match brute::minutes_of(plan, place)[..] {
        [first, .., last] => (first, last + 1),
        [only] => (only, only + 1),
        [] => unreachable!("every entry has a minute"),
    };
    (0..day.entries.len()).map(span).collect()
}

/// The narrowest windows inside which all these sets lie.
pub fn hull(sets: &[Windows]) -> Option<Windows> {
    let wider = |one: &Windows, other: &Windows| -> Windows {
        one.iter().zip(other).map(|(a, b)| (a.0.min(b.0), a.1.max(b.1))).collect()
    };
    sets.iter().cloned().reduce(|one, other| wider(&one, &other))
}
