//! Holds the static library's narrowing against the second one, and on small days against trying everything.

use crate::abi::{self, Answer};
use crate::check::{is_refused, refusing};
use crate::day::{Day, Refusal};
use crate::flat::{self, Fields};
use crate::narrow::{self, Narrowed, Rounds};
use crate::settled::{self, Plans, Windows};
use crate::{overload, samples};

/// What a call that narrows answers, and what the fields then hold: the list with the narrowed windows and
/// zeros after it, or a refusal and the fields as they were.
fn wanted(expected: &Result<Narrowed, Refusal>) -> (Answer, Fields) {
    match expected {
        Ok(Narrowed { day, moves }) => (Answer { number: 0, values: [*moves, 0, 0] }, flat::of_day(day)),
        Err(refusal) => (refusing(refusal), abi::untouched_fields()),
    }
}

/// Answer and fields of a call are those that are wanted.
#[track_caller]
fn alike(given: &Fields, found: (Answer, Fields), wanted: (Answer, Fields)) {
    assert_eq!(found.0, wanted.0, "answer to {:?}", &given[..]);
    let differs = (0..flat::SIZE).find(|&i| found.1[i] != wanted.1[i]);
    assert_eq!(differs, None, "the first field that is wrong after narrowing {:?}", &given[..]);
}

/// Settles a value's windows with both programs. Answer and fields must be alike.
#[track_caller]
pub fn settle(fields: &Fields) -> Result<Narrowed, Refusal> {
    let expected = narrow::settle(&flat::value(fields));
    alike(fields, abi::settle(fields), wanted(&expected));
    expected
}

/// Settles a list that must be settled, and gives its settled windows and the moves.
#[track_caller]
pub fn settled(day: &Day) -> (Day, u64) {
    match rounds(day).outcome_after(0) {
        Ok(Narrowed { day, moves }) => (day, moves),
        Err(refusal) => panic!("{refusal:?} of {day:?}"),
    }
}

/// Settles a list that must be refused with 10, and gives the place that it carries.
#[track_caller]
pub fn no_place(day: &Day) -> usize {
    match rounds(day).refusal {
        Some(Refusal::NoPlace { place }) => place,
        refusal => panic!("{refusal:?} of {day:?}"),
    }
}

/// Settles a value that must be refused with this number, carrying this value.
#[track_caller]
pub fn not_settled(fields: &Fields, number: u32, carries: usize) {
    is_refused(settle(fields), number, carries);
}

/// Settles a list that is not overloaded with the library, from its windows as given and from those that each
/// round with moves leaves, or some ten of many rounds, and gives the rounds of the second narrowing. From each
/// of these windows the library must make the moves of the rounds that are still to come and give the last
/// windows, or the same refusal.
#[track_caller]
pub fn rounds(day: &Day) -> Rounds {
    let rounds = narrow::rounds(day);
    let moving = rounds.done.iter().filter(|round| round.moves > 0).map(|round| &round.day);
    let some = 1 + rounds.done.len() / 10;
    for (made, windows) in [day].into_iter().chain(moving).enumerate().step_by(some) {
        let fields = flat::of_day(windows);
        alike(&fields, abi::settle(&fields), wanted(&rounds.outcome_after(made)));
    }
    rounds
}

/// The rounds of a list leave these windows, in short, with these moves: all rounds up to the one without
/// moves, or all before a refusal.
#[track_caller]
pub fn rounds_leave(day: &Day, wanted: &[(&str, u64)]) {
    let wanted = wanted.iter().map(|&(windows, moves)| Narrowed {
        day: Day { opening: day.opening, ..samples::boxes(day.h, windows) },
        moves,
    });
    assert_eq!(rounds(day).done, Vec::from_iter(wanted), "rounds of {day:?}");
}

/// Settles a small day with the library, and holds the answer against all its plans, all sets of windows
/// inside those given and all lists of narrowing steps. The second narrowing is not asked.
#[track_caller]
pub fn by_trying_everything(day: &Day) -> Answer {
    let plans = Plans::of(day);
    let (answer, fields) = abi::settle(&flat::of_day(day));
    match answer.number {
        0 => {
            let windows = windows_in(&fields, day.entries.len());
            let wanted = flat::of_day(&with_windows(day, &windows));
            assert!(fields == wanted, "only windows are changed, {:?} of {day:?}", &fields[..]);
            is_the_widest(day, &plans, &windows);
            ends_all_steps(day, &plans, &windows);
            makes_the_moves(day, &plans, &windows, answer.values);
        }
        _ => is_refused_rightly(day, &plans, answer),
    }
    answer
}

/// The windows of the first n entries.
pub fn windows_in(fields: &Fields, n: usize) -> Windows {
    let places = fields[flat::at(0)..].chunks_exact(flat::WIDTH).take(n);
    places.map(|place| (place[3] as u16, place[4] as u16)).collect()
}

/// The same list with other windows.
pub fn with_windows(day: &Day, windows: &Windows) -> Day {
    let mut day = day.clone();
    for (entry, &window) in day.entries.iter_mut().zip(windows) {
        (entry.r, entry.d) = window;
    }
    day
}

/// The windows answered are settled, lie inside those given, and every settled set inside those lies inside
/// them; so does every plan that keeps all whole entries in one piece.
#[track_caller]
fn is_the_widest(day: &Day, plans: &Plans, windows: &Windows) {
    assert!(settled::inside(windows, &settled::windows_of(day)), "{windows:?} is not inside {day:?}");
    assert!(plans.is_settled(windows), "{windows:?} is not settled, {day:?}");
    let sets = plans.settled_sets();
    assert!(sets.contains(windows), "{windows:?} is not among all settled sets of {day:?}");
    assert_eq!(settled::hull(&sets).as_ref(), Some(windows), "the widest settled set of {day:?}");
    for plan in plans.unbroken() {
        assert!(settled::inside(plan, windows), "an unbroken plan {plan:?} is lost, {day:?}");
    }
}

/// No list of steps meets a refusal, and where no step is left that changes a window, it leaves these
/// windows.
#[track_caller]
fn ends_all_steps(day: &Day, plans: &Plans, windows: &Windows) {
    let steps = plans.steps();
    assert!(steps.refused.is_empty(), "steps for {:?} are refused, {day:?}", steps.refused);
    assert_eq!(Vec::from_iter(&steps.complete), [windows], "where lists of steps end, {day:?}");
}

/// The moves are those of the rounds, and "bounded by the minutes cut".
#[track_caller]
fn makes_the_moves(day: &Day, plans: &Plans, windows: &Windows, values: [u64; 3]) {
    let (left, moves) = plans.rounds().expect("no refusal");
    assert_eq!((&left, [moves, 0, 0]), (windows, values), "windows and moves of the rounds of {day:?}");
    let cut = narrow::minutes_cut(day, &with_windows(day, windows));
    assert!(moves <= cut, "{moves} moves cut {cut} minutes of {day:?}");
}

/// There is no settled set and no unbroken plan. The refusal is 9 with the interval shown exactly if no plan
/// fits the given windows, else 10 with the place at which the rounds stop. Then some list of steps is
/// refused, and none ends without a refusal.
#[track_caller]
fn is_refused_rightly(day: &Day, plans: &Plans, answer: Answer) {
    assert_eq!(plans.settled_sets(), [] as [Windows; 0], "settled sets of a refused day {day:?}");
    assert_eq!(plans.unbroken().count(), 0, "unbroken plans of a refused day {day:?}");
    if !plans.any() {
        let shown = overload::shown(day).expect("an overloaded interval");
        assert_eq!(answer, refusing(&Refusal::Overloaded(shown)), "{day:?} has no plan");
        return;
    }
    let refusal = plans.rounds().expect_err("rounds that are refused");
    assert_eq!(answer, refusing(&refusal), "where the rounds of {day:?} are refused");
    let steps = plans.steps();
    assert!(
        steps.refused.contains(&(answer.values[0] as usize)),
        "no step is refused at that place, {day:?}"
    );
    assert!(steps.complete.is_empty(), "lists of steps end in {:?}, {day:?}", steps.complete);
}
