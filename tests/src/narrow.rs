//! The second narrowing: searches, steps, visits and rounds from document 01's section "Narrowing". Whether a
//! start has a plan is asked of Jackson's schedule and not of the intervals.

use crate::day::{Day, Refusal};
use crate::flat::Value;
use crate::{jackson, planner, writer};

/// A list with narrowed windows, and the moves that were made.
#[derive(Clone, Debug, PartialEq, Eq)]
pub struct Narrowed {
    pub day: Day,
    pub moves: u64,
}

/// A side of a window: its earliest minute r, or its latest minute d.
#[derive(Clone, Copy, Debug, PartialEq, Eq)]
pub enum Side {
    Earliest,
    Latest,
}

/// What settling makes of a value: "First the given windows are tested for overload. Then rounds follow."
pub fn settle(value: &Value) -> Result<Narrowed, Refusal> {
    planner::overload(value)?;
    rounds(&writer::checked(value)?).outcome_after(0)
}

/// Rounds, each with the windows that it left and its own moves, and the refusal that ended them, if one did.
pub struct Rounds {
    pub done: Vec<Narrowed>,
    pub refusal: Option<Refusal>,
}

impl Rounds {
    /// The last windows with the moves of all rounds but the first ones, so many of which are left out; or
    /// the refusal.
    pub fn outcome_after(&self, first: usize) -> Result<Narrowed, Refusal> {
        self.refusal.map_or(Ok(()), Err)?;
        let last = self.done.last().expect("a last round");
        Ok(Narrowed { day: last.day.clone(), moves: self.moves()[first..].iter().sum() })
    }

    /// The moves of each round.
    pub fn moves(&self) -> Vec<u64> {
        self.done.iter().map(|round| round.moves).collect()
    }
}

/// The rounds from these windows on. "A round without moves is the last".
pub fn rounds(day: &Day) -> Rounds {
    let mut done: Vec<Narrowed> = vec![];
    loop {
        let windows = done.last().map_or(day, |last| &last.day);
        match one_round(windows) {
            Err(refusal) => return Rounds { done, refusal: Some(refusal) },
            Ok(round) => {
                let last = round.moves == 0;
                done.push(round);
                if last {
                    return Rounds { done, refusal: None };
                }
            }
        }
    }
}

/// "A round visits places from 0 up; pause entries are passed over. For a whole entry, its r becomes .. Then
/// its d becomes .. A changed r is one move, a changed d another."
pub fn one_round(day: &Day) -> Result<Narrowed, Refusal> {
    let mut day = day.clone();
    let mut moves = 0;
    for place in 0..day.entries.len() {
        if day.entries[place].whole {
            for side in [Side::Earliest, Side::Latest] {
                moves += u64::from(step(&mut day, place, side)?);
            }
        }
    }
    Ok(Narrowed { day, moves })
}

/// A narrowing step, which says whether it changed the window. "A step that finds no minute is refused and
/// changes no window."
pub fn step(day: &mut Day, place: usize, side: Side) -> Result<bool, Refusal> {
    let found = match side {
        Side::Earliest => least_start(day, place),
        Side::Latest => greatest_end(day, place),
    };
    let minute = found.ok_or(Refusal::NoPlace { place })?;
    let entry = &mut day.entries[place];
    let changed = match side {
        Side::Earliest => &mut entry.r,
        Side::Latest => &mut entry.d,
    };
    Ok(std::mem::replace(changed, minute) != minute)
}

/// "the least s, from its r up, with s + p at most its d, for which a plan exists when its window is [s, s +
/// p) and the others keep theirs"
fn least_start(day: &Day, place: usize) -> Option<u16> {
    let entry = &day.entries[place];
    (entry.r..=entry.d - entry.p).find(|&s| has_plan_from(day, place, s))
}

/// "the greatest e, from its d down, with the r just found plus p at most e, for which a plan exists when its
/// window is [e - p, e) and the others keep theirs"
fn greatest_end(day: &Day, place: usize) -> Option<u16> {
    let entry = &day.entries[place];
    (entry.r + entry.p..=entry.d).rev().find(|&e| has_plan_from(day, place, e - entry.p))
}

/// Whether a plan exists when an entry has the p minutes from `start` on as its window.
fn has_plan_from(day: &Day, place: usize, start: u16) -> bool {
    let mut day = day.clone();
    let entry = &mut day.entries[place];
    (entry.r, entry.d) = (start, start + entry.p);
    jackson::is_plan(&day)
}

/// "The minutes cut are the sum, over all entries, of answered r minus given r and given d minus answered d."
pub fn minutes_cut(given: &Day, answered: &Day) -> u64 {
    let pairs = given.entries.iter().zip(&answered.entries);
    pairs.map(|(given, answered)| u64::from(answered.r - given.r) + u64::from(given.d - answered.d)).sum()
}
