//! The fast Rust program: the library's own algorithm in plain Rust, without proofs. Starts and ends are found by
//! jumps over right ends, bounds of all places by one pass over these, and a schedule goes from one arrival or end to
//! the next. It shares no code with the library or with the plain program. Like both it takes a list as 451 numbers and
//! writes what it answers into what it is lent.

mod ends;
mod events;
mod list;
mod overload;
mod rounds;
mod starts;
mod windows;

use dock_tests::abi::{Answer, Bounds, Lent};
use dock_tests::check;
use dock_tests::day::{Refusal, MOST_ENTRIES};
use dock_tests::flat::Fields;
use rounds::Settled;
use windows::Windows;

/// Fills `plan` with Jackson's schedule of the windows as given: the value check, then 11 and 9.
pub fn schedule(fields: &Fields, plan: &mut [u8]) -> Answer {
    answer(list::checked(fields).and_then(|windows| {
        long_enough(&windows, plan)?;
        overload::test(&windows)?;
        events::schedule(&windows, plan);
        Ok([0; 3])
    }))
}

/// Narrows a list until its windows are settled: the value check, then 9 and 10.
pub fn settle(fields: &Fields, narrowed: &mut Fields) -> Answer {
    answer(list::checked(fields).and_then(|windows| {
        let settled = settled(windows)?;
        *narrowed = list::with_windows(fields, &settled.windows);
        Ok([settled.moves, 0, 0])
    }))
}

/// Plans a list in its settled windows: the value check, then 11, 9 and 10.
pub fn plan(fields: &Fields, lent: &mut Lent) -> Answer {
    answer(list::checked(fields).and_then(|windows| {
        long_enough(&windows, &lent.plan)?;
        let settled = settled(windows)?;
        let broken = events::schedule(&settled.windows, &mut lent.plan);
        lent.narrowed = list::with_windows(fields, &settled.windows);
        lent.bounds = bounds(&settled);
        Ok([settled.moves, broken, 0])
    }))
}

fn answer(values: Result<[u64; 3], Refusal>) -> Answer {
    match values {
        Ok(values) => Answer { number: 0, values },
        Err(refusal) => check::refusing(&refusal),
    }
}

/// Row 11, "plan buffer under H bytes".
fn long_enough(windows: &Windows, plan: &[u8]) -> Result<(), Refusal> {
    if plan.len() < windows.h as usize {
        return Err(Refusal::ShortPlan { h: windows.h as u16 });
    }
    Ok(())
}

/// "First the given windows are tested for overload. Then rounds follow."
fn settled(windows: Windows) -> Result<Settled, Refusal> {
    overload::test(&windows)?;
    rounds::settle(windows)
}

fn bounds(settled: &Settled) -> Bounds {
    let mut bounds = [0; 2 * MOST_ENTRIES];
    for place in 0..settled.windows.n {
        bounds[place] = settled.ends[place];
        bounds[MOST_ENTRIES + place] = settled.windows.h - settled.mirrored_ends[place];
    }
    bounds
}
