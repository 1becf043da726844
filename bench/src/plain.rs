//! The plain Rust program: document 01 with document 02's tie rule, opening minute and unbroken days, line by line, without
//! the proved code and without a faster way.
//! Jackson's schedule goes minute by minute, and every start, end and bound is found by trying one minute
//! after the other. Like the library it takes a list as 451 numbers and writes what it answers into what it
//! is lent. The value check, row 11 and the count of broken entries are those of the tests. Their second
//! planner is no such program: it steps from one arrival or end to the next, and copies the list for every
//! start.

mod bounds;
mod jackson;
mod narrow;
mod unbroken;
mod windows;

use dock_tests::abi::{Answer, Bounds, Lent, SearchLent};
use dock_tests::check;
use dock_tests::day::{Day, Refusal, MOST_ENTRIES};
use dock_tests::flat::{self, Fields};
use dock_tests::{planner, writer};
use unbroken::{Ending, Search};
use windows::Windows;

/// Fills `plan` with Jackson's schedule of the windows as given: the value check, then 11 and 9.
pub fn schedule(fields: &Fields, plan: &mut [u8]) -> Answer {
    answer(checked(fields).and_then(|list| {
        planner::long_enough(&list.day, plan.len())?;
        list.windows.test()?;
        jackson::schedule(&list.windows, plan);
        Ok([0; 3])
    }))
}

/// Narrows a list until its windows are settled: the value check, then 9 and 10.
pub fn settle(fields: &Fields, narrowed: &mut Fields) -> Answer {
    answer(checked(fields).and_then(|mut list| {
        let moves = list.settle()?;
        *narrowed = list.fields();
        Ok([moves, 0, 0])
    }))
}

/// Plans a list in its settled windows: the value check, then 11, 9 and 10.
pub fn plan(fields: &Fields, lent: &mut Lent) -> Answer {
    answer(checked(fields).and_then(|mut list| {
        planner::long_enough(&list.day, lent.plan.len())?;
        let moves = list.settle()?;
        jackson::schedule(&list.windows, &mut lent.plan);
        lent.narrowed = list.fields();
        lent.bounds = list.bounds();
        let broken = dock_tests::bounds::broken(&list.day, &lent.plan[..list.day.h.into()]);
        Ok([moves, broken, 0])
    }))
}

/// Searches for an unbroken day in a list's settled windows: the value check, then 11, 9 and 10.
pub fn unbroken(fields: &Fields, limit: u32, lent: &mut SearchLent) -> Answer {
    answer(checked(fields).and_then(|mut list| {
        planner::long_enough(&list.day, lent.plan.len())?;
        let moves = list.settle()?;
        lent.narrowed = list.fields();
        let mut search = Search { whole: &list.whole, limit, trials: 0, windows: list.windows };
        let ending = match search.from(0) {
            Ending::Found => {
                let fixed = &search.windows;
                jackson::schedule(fixed, &mut lent.plan);
                lent.starts = [0; MOST_ENTRIES];
                for place in (0..fixed.n).filter(|&place| list.whole[place]) {
                    lent.starts[place] = fixed.r[place].into();
                }
                1
            }
            Ending::None => 2,
            Ending::Spent => 3,
        };
        Ok([moves, ending, search.trials.into()])
    }))
}

fn answer(values: Result<[u64; 3], Refusal>) -> Answer {
    match values {
        Ok(values) => Answer { number: 0, values },
        Err(refusal) => check::refusing(&refusal),
    }
}

/// A list that passed the value check, with its windows and kinds by place.
struct List {
    day: Day,
    windows: Windows,
    whole: [bool; MOST_ENTRIES],
}

fn checked(fields: &Fields) -> Result<List, Refusal> {
    let day = writer::checked(&flat::value(fields))?;
    let windows = Windows::of(&day);
    let mut whole = [false; MOST_ENTRIES];
    for (whole, entry) in whole.iter_mut().zip(&day.entries) {
        *whole = entry.whole;
    }
    Ok(List { day, windows, whole })
}

impl List {
    /// "First the given windows are tested for overload. Then rounds follow." Answers the moves.
    fn settle(&mut self) -> Result<u64, Refusal> {
        self.windows.test()?;
        narrow::rounds(&mut self.windows, &self.whole)
    }

    /// The list with its windows as they are now.
    fn fields(&mut self) -> Fields {
        for (place, entry) in self.day.entries.iter_mut().enumerate() {
            (entry.r, entry.d) = (self.windows.r[place], self.windows.d[place]);
        }
        flat::of_day(&self.day)
    }

    fn bounds(&self) -> Bounds {
        let mut bounds = [0; 2 * MOST_ENTRIES];
        for (place, &whole) in self.whole[..self.windows.n].iter().enumerate() {
            bounds[place] = bounds::least_end(&self.windows, place, whole).into();
            bounds[MOST_ENTRIES + place] = bounds::greatest_start(&self.windows, place, whole).into();
        }
        bounds
    }
}
