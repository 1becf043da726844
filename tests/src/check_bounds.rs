//! Holds the static library's plans of settled windows, bounds and shown plans against the second planner,
//! and on small days against trying everything.

use crate::abi::{self, Answer, Call, Lent};
use crate::check::refusing;
use crate::check_narrow::with_windows;
use crate::day::{Day, Refusal, MOST_ENTRIES};
use crate::flat::{self, Fields};
use crate::narrow::Narrowed;
use crate::settled::Plans;
use crate::{bounds, brute, jackson, overload};

/// Planning, and showing both plans of each of n places.
pub fn calls(n: usize) -> Vec<Call> {
    let shown = (0..n as u64).flat_map(|place| [Call::Early(place), Call::Late(place)]);
    [Call::Plan].into_iter().chain(shown).collect()
}

/// What a call answers in these settled windows or with this refusal, and what it leaves in all that was
/// lent: nothing is written beside a refusal.
pub fn wanted(call: Call, expected: &Result<Narrowed, Refusal>, mut lent: Lent) -> (Answer, Lent) {
    let Narrowed { day, moves } = match expected {
        Ok(narrowed) => narrowed,
        Err(refusal) => return (refusing(refusal), lent),
    };
    let (second, plan) = match call {
        Call::Plan => {
            lent.bounds = [0; 2 * MOST_ENTRIES];
            for place in 0..day.entries.len() {
                lent.bounds[place] = bounds::least_end(day, place).into();
                lent.bounds[MOST_ENTRIES + place] = bounds::greatest_start(day, place).into();
            }
            let plan = jackson::schedule(day);
            (bounds::broken(day, &plan), plan)
        }
        Call::Early(place) => {
            let end = bounds::least_end(day, place as usize);
            (end.into(), bounds::early_plan(day, place as usize, end))
        }
        Call::Late(place) => {
            let start = bounds::greatest_start(day, place as usize);
            (start.into(), bounds::late_plan(day, place as usize, start))
        }
    };
    lent.plan[..plan.len()].copy_from_slice(&plan);
    lent.narrowed = flat::of_day(day);
    (Answer { number: 0, values: [*moves, second, 0] }, lent)
}

/// Makes a call with the library and holds it against these settled windows or this refusal.
#[track_caller]
fn alike(call: Call, fields: &Fields, room: usize, expected: &Result<Narrowed, Refusal>) -> (Answer, Lent) {
    let (answer, lent) = abi::ask(call, fields, room);
    let (wanted, wanted_lent) = wanted(call, expected, Lent::untouched(room));
    assert_eq!(answer, wanted, "{call:?} of {:?} in {room} bytes", &fields[..]);
    assert_eq!(lent.plan, wanted_lent.plan, "plan buffer after {call:?} of {:?}", &fields[..]);
    let differs = (0..flat::SIZE).find(|&i| lent.narrowed[i] != wanted_lent.narrowed[i]);
    assert_eq!(differs, None, "the first field that is wrong after {call:?} of {:?}", &fields[..]);
    let differs = (0..2 * MOST_ENTRIES).find(|&i| lent.bounds[i] != wanted_lent.bounds[i]);
    assert_eq!(differs, None, "the first bound that is wrong after {call:?} of {:?}", &fields[..]);
    (answer, lent)
}

/// Makes a call with both programs, with `room` bytes for the plan. The answer, and all that was lent, must
/// be alike.
#[track_caller]
pub fn ask(call: Call, fields: &Fields, room: usize) -> (Answer, Lent) {
    alike(call, fields, room, &bounds::settle(call, &flat::value(fields), room))
}

/// Makes a call that must be accepted, with as many bytes as the day has minutes.
#[track_caller]
pub fn asked(call: Call, day: &Day) -> (Answer, Lent) {
    let (answer, lent) = ask(call, &flat::of_day(day), day.h.into());
    assert_eq!(answer.number, 0, "{call:?} of {day:?}");
    (answer, lent)
}

/// Makes a call that must be refused with this number, carrying this value.
#[track_caller]
pub fn refused(call: Call, fields: &Fields, room: usize, number: u64, carries: u64) {
    let (answer, _) = ask(call, fields, room);
    assert_eq!((answer.number, answer.values), (number, [carries, 0, 0]), "{call:?} in {room} bytes");
}

/// Plans a list, and has both plans of every place shown, with both programs, in some more bytes than the
/// day has minutes. Gives what planning answers.
#[track_caller]
pub fn ask_all(day: &Day) -> (Answer, Lent) {
    ask_some(day, 0..day.entries.len())
}

/// The same with both plans of these places.
#[track_caller]
pub fn ask_some(day: &Day, places: impl IntoIterator<Item = usize>) -> (Answer, Lent) {
    let fields = flat::of_day(day);
    let room = usize::from(day.h) + 3;
    let expected = bounds::settle(Call::Plan, &flat::value(&fields), room);
    for place in places {
        alike(Call::Early(place as u64), &fields, room, &expected);
        alike(Call::Late(place as u64), &fields, room, &expected);
    }
    alike(Call::Plan, &fields, room, &expected)
}

/// Plans a small day, and has both plans of every place shown, with the library, and holds the answers
/// against all plans. Windows, moves, refusals and bounds are found by trying everything; the second planner
/// is asked for its schedules with these, and counts what is broken in a plan. Gives the number answered.
#[track_caller]
pub fn by_trying_everything(day: &Day) -> u64 {
    let expected = settled_by_trying(day);
    for call in calls(day.entries.len()) {
        let (answer, lent) = abi::ask(call, &flat::of_day(day), day.h.into());
        is_right(call, day, &expected, answer, &lent);
    }
    expected.map_or_else(|refusal| refusal.code().0.into(), |_| 0)
}

/// Holds what planning a small day answered, and left in H bytes and all else that was lent to it untouched,
/// against all plans.
#[track_caller]
pub fn planned_by_trying_everything(day: &Day, answer: Answer, lent: &Lent) {
    is_right(Call::Plan, day, &settled_by_trying(day), answer, lent);
}

/// A call answered so of a day, and left this.
#[track_caller]
fn is_right(call: Call, day: &Day, expected: &Result<Narrowed, Refusal>, answer: Answer, lent: &Lent) {
    match expected {
        Err(refusal) => {
            assert_eq!(answer, refusing(refusal), "{call:?} of {day:?}");
            let before = Lent::untouched(day.h.into());
            assert!(*lent == before, "a refusal writes nothing, {call:?} of {day:?}");
        }
        Ok(Narrowed { day: settled, moves }) => {
            assert_eq!((answer.number, answer.values[0]), (0, *moves), "{call:?} of {day:?}");
            assert!(lent.narrowed == flat::of_day(settled), "windows of {day:?} after {call:?}");
            assert!(brute::is_plan(settled, &lent.plan), "{:?}, {call:?} of {day:?}", lent.plan);
            match call {
                Call::Plan => is_planned(settled, answer, lent),
                Call::Early(place) => is_early(settled, place as usize, answer, &lent.plan),
                Call::Late(place) => is_late(settled, place as usize, answer, &lent.plan),
            }
        }
    }
}

/// The settled windows and the moves, or the refusal, of narrowing by trying everything.
pub fn settled_by_trying(day: &Day) -> Result<Narrowed, Refusal> {
    let plans = Plans::of(day);
    if !plans.any() {
        return Err(Refusal::Overloaded(overload::shown(day).expect("an overloaded interval")));
    }
    let (windows, moves) = plans.rounds()?;
    Ok(Narrowed { day: with_windows(day, &windows), moves })
}

/// The plan is Jackson's, the entries counted as broken are those that it breaks, and the bounds are those of
/// all plans.
#[track_caller]
fn is_planned(settled: &Day, answer: Answer, lent: &Lent) {
    assert_eq!(lent.plan, jackson::schedule(settled), "Jackson's schedule of {settled:?}");
    assert_eq!(answer.values[1..], [bounds::broken(settled, &lent.plan), 0], "broken in {settled:?}");
    let plans = Plans::of(settled);
    for place in 0..MOST_ENTRIES {
        let known = place < settled.entries.len();
        let (end, start) = if known { plans.bounds(place) } else { (0, 0) };
        let found = (lent.bounds[place], lent.bounds[MOST_ENTRIES + place]);
        assert_eq!(found, (end.into(), start.into()), "least end, greatest start of {place} in {settled:?}");
    }
}

/// The bound is the least end over all plans. The plan has the entry ended by then, in one piece if it is
/// whole, and is Jackson's schedule with this end for its d.
#[track_caller]
fn is_early(settled: &Day, place: usize, answer: Answer, plan: &[u8]) {
    let (end, _) = Plans::of(settled).bounds(place);
    assert_eq!(answer.values[1..], [end.into(), 0], "least end of {place} in {settled:?}");
    let minutes = brute::minutes_of(plan, place);
    assert_eq!(minutes.last(), Some(&(end - 1)), "early plan of {place} in {settled:?}");
    assert!(!settled.entries[place].whole || bounds::is_consecutive(&minutes), "{place} in {settled:?}");
    assert_eq!(plan, bounds::early_plan(settled, place, end), "early plan of {place} in {settled:?}");
}

/// The bound is the greatest start over all plans. The plan has the entry started then, in one piece if it is
/// whole, and is the mirror of Jackson's schedule of the mirrored list with this start for its r.
#[track_caller]
fn is_late(settled: &Day, place: usize, answer: Answer, plan: &[u8]) {
    let (_, start) = Plans::of(settled).bounds(place);
    assert_eq!(answer.values[1..], [start.into(), 0], "greatest start of {place} in {settled:?}");
    let minutes = brute::minutes_of(plan, place);
    assert_eq!(minutes.first(), Some(&start), "late plan of {place} in {settled:?}");
    assert!(!settled.entries[place].whole || bounds::is_consecutive(&minutes), "{place} in {settled:?}");
    assert_eq!(plan, bounds::late_plan(settled, place, start), "late plan of {place} in {settled:?}");
}
