//! Holds the static library's turns against the second program's: the answer and all that is lent. Whole runs of turns
//! are held against the answers that the library gives to each room's list alone.

use crate::abi::{self, Answer};
use crate::check::refusing;
use crate::day::Refusal;
use crate::desk::{self, Desk, FRESH, REFUSED, SETTLED, SHARE, WIDTH};
use crate::{narrow, overload, reader};

/// Rows and shares in a failure's text: each row, and the share up to the bytes that all shares end with.
fn in_short(desk: &Desk) -> String {
    let share = |share: &[u8]| {
        let fill = abi::untouched_bytes(share.len());
        let used = (0..share.len()).rev().find(|&at| share[at] != fill[at]).map_or(0, |at| at + 1);
        format!("{:02X?}", &share[..used])
    };
    let shares: Vec<String> = desk.lists.chunks(SHARE).map(share).collect();
    format!("rows {:?}, {} bytes {shares:?}", desk.rooms, desk.lists.len())
}

/// Makes a turn with both programs. The answer and all that is lent must be alike, and of all rooms only the one that
/// the answer names may have changed.
#[track_caller]
pub fn turn(desk: &mut Desk, number: u64) -> Answer {
    let before = desk.clone();
    let mut wanted_desk = before.clone();
    let values = wanted_desk.turn(number);
    let wanted = values.map_or_else(|refusal| refusing(&refusal), |values| Answer { number: 0, values });
    let answer = abi::turn(&mut desk.rooms, &mut desk.lists, number, &mut desk.carried);
    let given = || format!("a turn from {number}, {}", in_short(&before));
    assert_eq!(answer, wanted, "answer to {}", given());
    assert_eq!(desk.rooms, wanted_desk.rooms, "rows after {}", given());
    let differs = (0..desk.lists.len()).find(|&at| desk.lists[at] != wanted_desk.lists[at]);
    assert_eq!(differs, None, "the first byte that is wrong after {}", given());
    assert_eq!(desk.carried, wanted_desk.carried, "values after {}", given());
    only_that_room(&before, desk, answer);
    answer
}

/// A turn "touches no other row or list": told by the answer alone.
#[track_caller]
pub fn only_that_room(before: &Desk, after: &Desk, answer: Answer) {
    let room = if answer.number == 0 { answer.values[0] as usize } else { usize::MAX };
    let kept = |at: usize, width: usize| at / width != room;
    let rows = (0..before.rooms.len()).filter(|&at| before.rooms[at] != after.rooms[at]);
    let bytes = (0..before.lists.len()).filter(|&at| before.lists[at] != after.lists[at]);
    assert_eq!(rows.filter(|&at| kept(at, WIDTH)).count(), 0, "rows of other rooms than {room} are changed");
    assert_eq!(
        bytes.filter(|&at| kept(at, SHARE)).count(),
        0,
        "bytes of other rooms than {room} are changed"
    );
}

/// Makes a turn that must be refused with this number, carrying this value. Nothing is written.
#[track_caller]
pub fn refused(desk: &Desk, number: u64, refusal: u64, carries: usize) {
    let mut lent = desk.clone();
    let answer = turn(&mut lent, number);
    assert_eq!((answer.number, answer.values), (refusal, [carries as u64, 0, 0]), "from {number}");
    assert!(lent == *desk, "written beside {refusal}");
}

/// Makes a turn that must be answered with this room, its refusal's number, and the number after it; what the refusal
/// carries must be this.
#[track_caller]
pub fn answered(desk: &mut Desk, number: u64, values: [u64; 3], carried: [u64; 3]) {
    let answer = turn(desk, number);
    assert_eq!((answer.number, answer.values), (0, values), "turn from {number}");
    assert_eq!(desk.carried, carried, "values after a turn from {number}");
}

/// Makes a turn with nothing unfinished: it must say so with this number for the next turn, and write nothing.
#[track_caller]
pub fn nothing_unfinished(desk: &Desk, number: u64, used: u64) {
    let mut lent = desk.clone();
    let answer = turn(&mut lent, number);
    assert_eq!((answer.number, answer.values), (0, [desk.m() as u64, 0, used]), "turn from {number}");
    assert!(lent == *desk, "written with nothing unfinished");
}

/// How a room ended: the turn that finished it, counted from 1, and its refusal's number and values, or 0.
#[derive(Clone, Copy, Debug, PartialEq, Eq)]
pub struct Ended {
    pub turn: usize,
    pub refusal: Answer,
}

/// Rooms after all their turns, and how each ended.
pub struct Run {
    pub desk: Desk,
    pub ended: Vec<Ended>,
    pub turns: usize,
}

/// Makes turns with both programs, each from the number that the last one answered, until nothing is unfinished. All
/// rooms must be unfinished at first, and each must be finished within m times (1 + the sum of d - r - p over its whole
/// entries) turns.
#[track_caller]
pub fn run(given: &Desk, first: u64) -> Run {
    let m = given.m();
    let within: Vec<usize> = (0..m).map(|room| m * desk::most_rounds(given.share(room))).collect();
    let (mut desk, mut number, mut turns) = (given.clone(), first, 0);
    let mut ended: Vec<Option<Ended>> = vec![None; m];
    loop {
        let answer = turn(&mut desk, number);
        let [room, refusal, next] = answer.values;
        if room == m as u64 {
            break;
        }
        turns += 1;
        number = next;
        let room = room as usize;
        assert!(
            turns <= within[room],
            "room {room} in turn {turns} of {}, {}",
            within[room],
            in_short(given)
        );
        if [SETTLED, REFUSED].contains(&desk.row(room)[0]) {
            let refusal = Answer { number: refusal, values: desk.carried };
            let before = ended[room].replace(Ended { turn: turns, refusal });
            assert_eq!(before, None, "room {room} has a turn after its end, {}", in_short(given));
        }
    }
    nothing_unfinished(&desk, number, number);
    let ended = ended.into_iter().map(|ended| ended.expect("each room ends")).collect();
    Run { desk, ended, turns }
}

/// What the library answers to a room's list alone, by its other calls.
pub struct Alone {
    pub answer: Answer,
    /// The settled list's one form, if there is no refusal.
    pub form: Vec<u8>,
}

/// Reads a share as if it ended where its list does, settles the list and writes what is left of its windows.
pub fn alone(share: &[u8]) -> Alone {
    let (mut answer, mut fields) = abi::read(share);
    if answer.number == 8 {
        (answer, fields) = abi::read(&share[..answer.values[0] as usize]);
    }
    if answer.number != 0 {
        return Alone { answer, form: vec![] };
    }
    let (answer, narrowed) = abi::settle(&fields);
    if answer.number != 0 {
        return Alone { answer, form: vec![] };
    }
    let (written, mut form) = abi::write(&narrowed, SHARE);
    form.truncate(written.values[0] as usize);
    Alone { answer, form }
}

/// A room that was fresh with both counts 0 "ends with the answer it would have alone, and its counts stay below
/// 100,000": the settled list and its moves, or a refusal.
#[track_caller]
pub fn ends_as_alone(given: &Desk, run: &Run, room: usize) {
    assert_eq!(given.row(room), [FRESH, 0, 0]);
    let Alone { answer, form } = alone(given.share(room));
    let [stage, rounds, moves] = run.desk.row(room);
    assert!(rounds < 100_000 && moves < 100_000, "room {room} of {}", in_short(given));
    let share = run.desk.share(room);
    let ended = run.ended[room].refusal;
    if answer.number == 0 {
        assert_eq!((stage, ended), (SETTLED, Answer { number: 0, values: [0; 3] }), "{}", in_short(given));
        assert_eq!([u64::from(moves), 0, 0], answer.values, "moves of room {room}, {}", in_short(given));
        assert!(share.starts_with(&form), "settled list of room {room}, {}", in_short(given));
        assert_eq!(share[form.len()..], given.share(room)[form.len()..], "bytes after the list");
    } else {
        assert_eq!((stage, ended), (REFUSED, answer), "room {room} of {}", in_short(given));
    }
    assert_eq!((rounds, u64::from(moves)), rounds_alone(given.share(room)), "{}", in_short(given));
}

/// The rounds that a fresh room makes and their moves, those before a refusal if there is one.
fn rounds_alone(share: &[u8]) -> (u32, u64) {
    let Ok(day) = reader::read_share(share) else { return (0, 0) };
    if overload::shown(&day).is_some() {
        return (0, 0);
    }
    let rounds = narrow::rounds(&day);
    assert!(matches!(rounds.refusal, None | Some(Refusal::NoPlace { .. })));
    (rounds.done.len() as u32, rounds.moves().iter().sum())
}
