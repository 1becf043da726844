//! Document 02's "A plan with no box torn apart": its search, and beside it unbroken days by trying everything, which
//! knows nothing of the search.

use crate::abi::Call;
use crate::day::{Day, Refusal};
use crate::flat::Value;
use crate::narrow::Narrowed;
use crate::settled::Plans;
use crate::{bounds, brute, jackson};

/// The places of the whole entries, in their order.
pub fn wholes(day: &Day) -> Vec<usize> {
    (0..day.entries.len()).filter(|&place| day.entries[place].whole).collect()
}

/// The list with the starts of its first whole entries fixed: the window of each is then the p minutes from its start on.
pub fn fixed(day: &Day, starts: &[u16]) -> Day {
    let mut day = day.clone();
    for (place, &start) in wholes(&day).into_iter().zip(starts) {
        let entry = &mut day.entries[place];
        (entry.r, entry.d) = (start, start + entry.p);
    }
    day
}

/// How a search ends.
#[derive(Clone, Debug, PartialEq, Eq)]
pub enum Ending {
    /// With these starts of the whole entries.
    Found(Vec<u16>),
    None,
    Spent,
}

/// A search's ending, and the trials that it made.
#[derive(Clone, Debug, PartialEq, Eq)]
pub struct Searched {
    pub ending: Ending,
    pub trials: u32,
}

/// "Search inside the settled windows: whole entries by place, starts upward, going back to the previous entry's next
/// start when an entry has no start left; one trial is one start of one entry, tested by whether a plan still exists with
/// the starts fixed so far." Whether one does is asked of Jackson's schedule and not of the intervals.
pub fn search(settled: &Day, limit: u32) -> Searched {
    let wholes = wholes(settled);
    let first = |at: usize| wholes.get(at).map_or(0, |&place| settled.entries[place].r);
    let mut trials = 0;
    let mut starts = vec![];
    let mut next = first(0);
    while starts.len() < wholes.len() {
        let entry = &settled.entries[wholes[starts.len()]];
        if next + entry.p > entry.d {
            match starts.pop() {
                Some(start) => next = start + 1,
                None => return Searched { ending: Ending::None, trials },
            }
            continue;
        }
        // "Spent: only when one more trial is needed and all were used."
        if trials == limit {
            return Searched { ending: Ending::Spent, trials };
        }
        trials += 1;
        starts.push(next);
        if jackson::is_plan(&fixed(settled, &starts)) {
            next = first(starts.len());
        } else {
            starts.pop();
            next += 1;
        }
    }
    Searched { ending: Ending::Found(starts), trials }
}

/// What the call makes of a value: its refusals are those of planning, else its settled windows and the search in them.
pub fn unbroken(value: &Value, limit: u32, room: usize) -> Result<(Narrowed, Searched), Refusal> {
    let narrowed = bounds::settle(Call::Plan, value, room)?;
    let searched = search(&narrowed.day, limit);
    Ok((narrowed, searched))
}

/// All lists of starts of the first `count` whole entries in a day's windows, "compared from place 0 on".
pub fn lists_of_starts(day: &Day, count: usize) -> Vec<Vec<u16>> {
    let mut lists = vec![vec![]];
    for &place in &wholes(day)[..count] {
        let entry = &day.entries[place];
        let longer = |list: &Vec<u16>| -> Vec<Vec<u16>> {
            (entry.r..=entry.d - entry.p).map(|start| [&list[..], &[start]].concat()).collect()
        };
        lists = lists.iter().flat_map(longer).collect();
    }
    lists
}

/// The first list of starts in the GIVEN windows that leaves a plan, of all of them.
pub fn first_that_leaves_a_plan(given: &Day) -> Option<Vec<u16>> {
    let mut lists = lists_of_starts(given, wholes(given).len()).into_iter();
    lists.find(|starts| brute::has_plan(&fixed(given, starts)))
}

/// The least starts of the whole entries "among all unbroken days", of all plans: no start is fixed.
pub fn least_of_all_plans(given: &Day) -> Option<Vec<u16>> {
    let wholes = wholes(given);
    let plans = Plans::of(given);
    let starts = plans.unbroken().map(|spans| wholes.iter().map(|&place| spans[place].0).collect());
    starts.min()
}

/// How many trials there are, without a search: a list of the first starts is tried if a plan exists with all of them but
/// the last, and if it is not after those of the day that is found.
pub fn trials_by_counting(settled: &Day, found: Option<&[u16]>) -> usize {
    let all = (1..=wholes(settled).len()).flat_map(|count| lists_of_starts(settled, count));
    let tried = |starts: &Vec<u16>| {
        found.is_none_or(|found| starts[..] <= found[..starts.len()])
            && brute::has_plan(&fixed(settled, &starts[..starts.len() - 1]))
    };
    all.filter(tried).count()
}
