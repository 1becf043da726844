//! Holds the static library's search for an unbroken day against the second one, and on small days against trying
//! everything.

use crate::abi::{self, Answer, SearchLent};
use crate::check::refusing;
use crate::check_bounds::settled_by_trying;
use crate::day::{Day, Refusal, MOST_ENTRIES};
use crate::flat::{self, Fields};
use crate::narrow::Narrowed;
use crate::unbroken::{self, Ending, Searched};
use crate::{bounds, brute, jackson, rule};

/// The second of the values that are answered: how the search ended.
pub const FOUND: u64 = 1;
pub const NONE: u64 = 2;
pub const SPENT: u64 = 3;

/// The greatest limit.
pub const ANY: u32 = u32::MAX;

/// The number of an ending.
pub fn number(ending: &Ending) -> u64 {
    match ending {
        Ending::Found(_) => FOUND,
        Ending::None => NONE,
        Ending::Spent => SPENT,
    }
}

/// What the call answers, and leaves in all that was lent: beside a refusal nothing is written, and where no day is found
/// only the narrowed list is.
pub fn wanted(
    expected: &Result<(Narrowed, Searched), Refusal>,
    mut lent: SearchLent,
) -> (Answer, SearchLent) {
    let (Narrowed { day, moves }, Searched { ending, trials }) = match expected {
        Ok(searched) => searched,
        Err(refusal) => return (refusing(refusal), lent),
    };
    lent.narrowed = flat::of_day(day);
    if let Ending::Found(starts) = ending {
        // "Found: the plan is Jackson's with the starts fixed"
        let plan = jackson::schedule(&unbroken::fixed(day, starts));
        lent.plan[..plan.len()].copy_from_slice(&plan);
        lent.starts = [0; MOST_ENTRIES];
        for (place, &start) in unbroken::wholes(day).into_iter().zip(starts) {
            lent.starts[place] = start.into();
        }
    }
    (Answer { number: 0, values: [*moves, number(ending), (*trials).into()] }, lent)
}

/// Searches with both programs, with `room` bytes for the plan. The answer, and all that was lent, must be alike.
#[track_caller]
pub fn search(fields: &Fields, limit: u32, room: usize) -> (Answer, SearchLent) {
    let expected = unbroken::unbroken(&flat::value(fields), limit, room);
    let (wanted, wanted_lent) = wanted(&expected, SearchLent::untouched(room));
    let (answer, lent) = abi::unbroken(fields, limit, room);
    assert_eq!(answer, wanted, "limit {limit} of {:?} in {room} bytes", &fields[..]);
    assert_eq!(lent.plan, wanted_lent.plan, "plan buffer, limit {limit} of {:?}", &fields[..]);
    let differs = (0..flat::SIZE).find(|&i| lent.narrowed[i] != wanted_lent.narrowed[i]);
    assert_eq!(differs, None, "the first field that is wrong, limit {limit} of {:?}", &fields[..]);
    assert_eq!(lent.starts, wanted_lent.starts, "starts, limit {limit} of {:?}", &fields[..]);
    (answer, lent)
}

/// Searches a list that must not be refused, with as many bytes as the day has minutes.
#[track_caller]
pub fn searched(day: &Day, limit: u32) -> (Answer, SearchLent) {
    let (answer, lent) = search(&flat::of_day(day), limit, day.h.into());
    assert_eq!(answer.number, 0, "limit {limit} of {day:?}");
    (answer, lent)
}

/// Searches a value that must be refused with this number, carrying this value.
#[track_caller]
pub fn refused(fields: &Fields, limit: u32, room: usize, number: u64, carries: u64) {
    let (answer, _) = search(fields, limit, room);
    assert_eq!((answer.number, answer.values), (number, [carries, 0, 0]), "limit {limit} in {room} bytes");
}

/// Finds a day with these trials, starts by place and this plan.
#[track_caller]
pub fn finds(day: &Day, trials: u32, starts: &[u32], plan: &[u8]) {
    for limit in [trials, trials + 1, ANY - 1, ANY] {
        let (answer, lent) = searched(day, limit);
        assert_eq!(answer.values[1..], [FOUND, trials.into()], "limit {limit} of {day:?}");
        assert_eq!(lent.starts[..starts.len()], *starts, "limit {limit} of {day:?}");
        assert!(lent.starts[starts.len()..].iter().all(|&start| start == 0), "limit {limit} of {day:?}");
        assert_eq!(lent.plan, plan, "limit {limit} of {day:?}");
    }
    if trials > 0 {
        is_spent(day, trials - 1);
    }
}

/// Finds that there is no unbroken day, with these trials.
#[track_caller]
pub fn finds_none(day: &Day, trials: u32) {
    for limit in [trials, trials + 1, ANY - 1, ANY] {
        let (answer, lent) = searched(day, limit);
        assert_eq!(answer.values[1..], [NONE, trials.into()], "limit {limit} of {day:?}");
        stays(day, &lent);
    }
    is_spent(day, trials - 1);
}

/// All trials of this limit are used, and one more is needed.
#[track_caller]
pub fn is_spent(day: &Day, limit: u32) {
    let (answer, lent) = searched(day, limit);
    assert_eq!(answer.values[1..], [SPENT, limit.into()], "limit {limit} of {day:?}");
    stays(day, &lent);
}

/// "None and spent leave the plan buffer as it was", and so the starts.
#[track_caller]
fn stays(day: &Day, lent: &SearchLent) {
    let before = SearchLent::untouched(day.h.into());
    assert!(
        lent.plan == before.plan && lent.starts == before.starts,
        "written though no day is found, {day:?}"
    );
}

/// Searches a small day with the library and the greatest limit, and holds the answer against all its plans. Windows,
/// moves, refusals, the starts, whether there is an unbroken day, and the trials are found by trying everything and
/// counting. The second search is not asked. Gives the refusal's number, or the ending and the trials.
#[track_caller]
pub fn by_trying_everything(day: &Day) -> Result<(u64, u32), u64> {
    let expected = settled_by_trying(day);
    let least = unbroken::first_that_leaves_a_plan(day);
    let (answer, lent) = abi::unbroken(&flat::of_day(day), ANY, day.h.into());
    let Narrowed { day: settled, moves } = match &expected {
        Ok(narrowed) => narrowed,
        Err(refusal) => {
            assert_eq!(answer, refusing(refusal), "{day:?}");
            assert!(lent == SearchLent::untouched(day.h.into()), "a refusal writes nothing, {day:?}");
            assert_eq!(least, None, "an unbroken day of a refused list {day:?}");
            return Err(answer.number);
        }
    };
    let ending = if least.is_some() { FOUND } else { NONE };
    let trials = unbroken::trials_by_counting(settled, least.as_deref());
    assert_eq!((answer.number, answer.values), (0, [*moves, ending, trials as u64]), "{day:?}");
    assert!(lent.narrowed == flat::of_day(settled), "windows of {day:?}");
    match least {
        Some(starts) => is_the_least(day, settled, &starts, &lent),
        None => stays(day, &lent),
    }
    Ok((ending, trials as u32))
}

/// The plan is one of the given windows that keeps all whole entries in one piece, from these starts on, and follows
/// Jackson's rule with the starts fixed.
#[track_caller]
fn is_the_least(day: &Day, settled: &Day, starts: &[u16], lent: &SearchLent) {
    assert!(brute::is_plan(day, &lent.plan), "{:?} is no plan of {day:?}", lent.plan);
    assert_eq!(bounds::broken(day, &lent.plan), 0, "broken entries of {day:?}");
    let mut by_place = [0; MOST_ENTRIES];
    for (place, &start) in unbroken::wholes(day).into_iter().zip(starts) {
        by_place[place] = start.into();
        assert_eq!(brute::minutes_of(&lent.plan, place)[0], start, "start of {place} in {day:?}");
    }
    assert_eq!(lent.starts, by_place, "starts of {day:?}");
    let ties = rule::follows(&unbroken::fixed(settled, starts), &lent.plan);
    assert!(ties.is_ok(), "{ties:?}, {:?} of {day:?}", lent.plan);
}

/// Searches a list with the library and every limit up to this one: spent exactly below the trials that are needed, with
/// all of them used, and from there on what the greatest limit answers. Gives what that is.
#[track_caller]
pub fn every_limit(day: &Day, most: u32) -> Answer {
    let (fields, room) = (flat::of_day(day), usize::from(day.h));
    let (whole, left) = abi::unbroken(&fields, ANY, room);
    let mut spent = SearchLent::untouched(room);
    spent.narrowed = left.narrowed;
    for limit in 0..=most {
        let (answer, lent) = abi::unbroken(&fields, limit, room);
        if whole.number == 0 && u64::from(limit) < whole.values[2] {
            let values = [whole.values[0], SPENT, limit.into()];
            assert_eq!(answer, Answer { number: 0, values }, "limit {limit} of {day:?}");
            assert!(lent == spent, "written though the trials are spent, limit {limit} of {day:?}");
        } else {
            assert_eq!(answer, whole, "limit {limit} of {day:?}");
            assert!(lent == left, "left by limit {limit} of {day:?}");
        }
    }
    whole
}
