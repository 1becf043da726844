//! Wrong readings of document 02's "Eight rooms at one control desk", each with rooms on which it answers otherwise
//! than the rule, or leaves other rows or bytes.

mod lists_and_counts;
mod rooms_and_numbers;

use dock_tests::abi::Answer;
use dock_tests::check_desk;
use dock_tests::day::{Day, Refusal};
use dock_tests::desk::{share, share_of, Desk, Row, UNTOUCHED};
use dock_tests::narrow::{self, Side};
use dock_tests::random::{self, Random};
use dock_tests::samples::{boxes, hex};
use dock_tests::{overload, reader, writer};

/// A row that refuses the turn.
#[derive(Clone, Copy)]
enum Own {
    Numbers,
    Rooms,
    Bytes,
}

/// A round as far as it goes: the windows, the moves, and the refusal that ended it, if one did.
struct Round {
    day: Day,
    moves: u64,
    refusal: Option<Refusal>,
}

/// A way to make a turn. A trap is one that differs from the right way in one of these.
#[derive(Clone, Copy)]
struct Way {
    /// The rows that refuse the turn, in the order in which they are tested.
    own: [Own; 3],
    /// What 100, 19 and 12 carry, of so many numbers and bytes.
    carries: fn(Own, usize, usize) -> usize,
    /// Whether so many bytes are refused for so many rooms.
    is_short: fn(usize, usize) -> bool,
    /// The number from which the search begins.
    from: fn(u64, usize) -> usize,
    /// The rooms in the order in which they are looked at.
    order: fn(usize, &[Row]) -> Vec<usize>,
    /// Whether a room of this stage is unfinished.
    is_unfinished: fn(u32) -> bool,
    /// What a share says that begins at this byte of the buffer.
    read: fn(&[u8], usize) -> Result<Day, Refusal>,
    /// Whether a round of such a row is a first one.
    is_first: fn(Row) -> bool,
    /// How many rounds a turn makes, at most.
    rounds: usize,
    /// The row of a refused room, whose round had made so many moves.
    refused: fn(Row, u64) -> Row,
    /// Whether the windows of a refused round are written.
    writes_refused: bool,
    /// What follows the list in a share.
    rest: fn(&mut [u8]),
    /// The stage after a round of so many moves.
    stage: fn(Row, u64) -> u32,
    /// A count after so many more.
    count: fn(u32, u64) -> u32,
    /// Whether a refused room has had the turn.
    ends_at_refusal: bool,
    /// The number after a room.
    after: fn(usize, usize) -> usize,
    /// The values carried if there is no refusal, if these stood there.
    no_refusal: fn([u64; 3]) -> [u64; 3],
    /// The number for the next turn if nothing is unfinished, of the one handed in and the one used.
    nothing: fn(u64, usize) -> u64,
}

/// The right way.
const RIGHT: Way = Way {
    own: [Own::Numbers, Own::Rooms, Own::Bytes],
    carries: |row, numbers, _| match row {
        Own::Numbers => numbers / 3 * 3,
        Own::Rooms => numbers / 3,
        Own::Bytes => numbers / 3 * 965,
    },
    is_short: |len, m| len < 965 * m,
    from: |number, m| if number >= m as u64 { 0 } else { number as usize },
    order: |from, rows| (0..rows.len()).map(|step| (from + step) % rows.len()).collect(),
    is_unfinished: |stage| stage <= 1,
    read: |share, _| reader::read_share(share),
    is_first: |[stage, ..]| stage == 0,
    rounds: 1,
    refused: |[_, rounds, moves], _| [3, rounds, moves],
    writes_refused: false,
    rest: |_| {},
    stage: |_, made| if made > 0 { 1 } else { 2 },
    count: |count, more| if count < 100_000 { (u64::from(count) + more).min(100_000) as u32 } else { count },
    ends_at_refusal: true,
    after: |room, m| (room + 1) % m,
    no_refusal: |_| [0; 3],
    nothing: |_, from| from as u64,
};

/// One round, entry by entry.
fn round(mut day: Day) -> Round {
    let mut moves = 0;
    for place in 0..day.entries.len() {
        for side in [Side::Earliest, Side::Latest] {
            if !day.entries[place].whole {
                continue;
            }
            match narrow::step(&mut day, place, side) {
                Ok(changed) => moves += u64::from(changed),
                Err(refusal) => return Round { day, moves, refusal: Some(refusal) },
            }
        }
    }
    Round { day, moves, refusal: None }
}

/// A turn's round of a room by this way.
fn round_by_way(way: &Way, desk: &mut Desk, room: usize) -> Option<Refusal> {
    let row = desk.row(room);
    let read = (way.read)(desk.share(room), 965 * room);
    let tested = read.and_then(|day| match overload::shown(&day) {
        Some(interval) if (way.is_first)(row) => Err(Refusal::Overloaded(interval)),
        _ => Ok(day),
    });
    let day = match tested {
        Ok(day) => day,
        Err(refusal) => {
            desk.set_row(room, (way.refused)(row, 0));
            return Some(refusal);
        }
    };
    let Round { day, moves, refusal } = round(day);
    if refusal.is_none() || way.writes_refused {
        let form = writer::form(&day);
        let (list, rest) = desk.share_mut(room).split_at_mut(form.len());
        list.copy_from_slice(&form);
        (way.rest)(rest);
    }
    let counted = [(way.stage)(row, moves), (way.count)(row[1], 1), (way.count)(row[2], moves)];
    desk.set_row(room, if refusal.is_some() { (way.refused)(row, moves) } else { counted });
    refusal
}

/// What this way answers to a turn.
fn by_way(way: &Way, desk: &mut Desk, number: u64) -> Answer {
    let (numbers, len, m) = (desk.rooms.len(), desk.lists.len(), desk.m());
    for row in way.own {
        let (holds, number) = match row {
            Own::Numbers => (numbers % 3 != 0, 100),
            Own::Rooms => (m == 0 || m > 8, 19),
            Own::Bytes => ((way.is_short)(len, m), 12),
        };
        if holds {
            return Answer { number, values: [(way.carries)(row, numbers, len) as u64, 0, 0] };
        }
    }
    let from = (way.from)(number, m);
    let mut values = [m as u64, 0, (way.nothing)(number, from)];
    for room in (way.order)(from, &desk.rows()) {
        let mut made = 0;
        let mut refusal = None;
        while made < way.rounds && refusal.is_none() && (way.is_unfinished)(desk.row(room)[0]) {
            refusal = round_by_way(way, desk, room);
            made += 1;
        }
        if made > 0 {
            let (number, carried) = refusal.map_or((0, (way.no_refusal)(desk.carried)), Refusal::code);
            desk.carried = carried;
            values = [room as u64, number.into(), (way.after)(room, m) as u64];
            if refusal.is_none() || way.ends_at_refusal {
                break;
            }
        }
    }
    Answer { number: 0, values }
}

/// What some turns leave: the last one's answer and the values carried, and the rows.
#[derive(Debug, PartialEq, Eq)]
struct Said {
    answer: (u64, [u64; 3]),
    carried: [u64; 3],
    rows: Vec<Row>,
}

fn said(answer: (u64, [u64; 3]), carried: [u64; 3], rows: &[Row]) -> Said {
    Said { answer, carried, rows: rows.to_vec() }
}

/// Turns from these numbers, and what they leave.
fn turns(given: &Desk, numbers: &[u64], mut turn: impl FnMut(&mut Desk, u64) -> Answer) -> (Said, Desk) {
    let mut desk = given.clone();
    let mut last = None;
    numbers.iter().for_each(|&number| last = Some(turn(&mut desk, number)));
    let Answer { number, values } = last.expect("a turn");
    (said((number, values), desk.carried, &desk.rows()), desk)
}

/// The first of these is what turns from these numbers must leave and the library leaves, the second what the trap's
/// way leaves.
#[track_caller]
fn differs(way: Way, given: &Desk, numbers: &[u64], right: Said, wrong: Said) {
    assert_ne!(right, wrong);
    assert_eq!(turns(given, numbers, |desk, number| by_way(&way, desk, number)).0, wrong, "the trap's way");
    assert_eq!(turns(given, numbers, |desk, number| by_way(&RIGHT, desk, number)).0, right, "the right way");
    assert_eq!(turns(given, numbers, check_desk::turn).0, right, "the library");
}

/// The trap's way leaves other bytes, the first of them here.
#[track_caller]
fn differs_at(way: Way, given: &Desk, numbers: &[u64], byte: usize) {
    let (_, right) = turns(given, numbers, check_desk::turn);
    let (_, wrong) = turns(given, numbers, |desk, number| by_way(&way, desk, number));
    assert_eq!((0..right.lists.len()).find(|&at| right.lists[at] != wrong.lists[at]), Some(byte));
}

/// Shares: (a) of document 01, which has a move in round one and one in round two; (c), 9; (e), 10; a list without
/// boxes; and one of which a box moves before another has no place.
fn a() -> Vec<u8> {
    share_of(&boxes(4, "w[0,3)2 w[0,4)2"))
}
fn c() -> Vec<u8> {
    share_of(&boxes(10, "p[2,5)2 p[2,5)2"))
}
fn e() -> Vec<u8> {
    share_of(&boxes(6, "p[2,4)2 w[0,6)3"))
}
fn empty() -> Vec<u8> {
    share(&hex("01 00 00"))
}
fn moves_and_no_place() -> Vec<u8> {
    share_of(&boxes(8, "w[0,8)1 p[0,1)1 w[1,8)3 p[3,4)1 p[6,7)1"))
}

/// With nothing changed the form of a way gives the rule's turns, so that only what a trap changes makes it one.
#[test]
fn only_what_is_changed_makes_a_trap() {
    let mut random = Random::new(691);
    for turn in 0..2_000 {
        let mut desk = random::any_desk(&mut random, 1 + turn % 8);
        match turn % 10 {
            0 => desk.rooms.push(0),
            1 => desk.lists.truncate(random.below(8_000)),
            2 => desk.rooms.resize(3 * random.below(20), 1),
            _ => {}
        }
        let number = random::room_number(&mut random, 1 + turn % 8);
        let mut right = desk.clone();
        let answer = by_way(&RIGHT, &mut right, number);
        assert_eq!(answer, check_desk::turn(&mut desk, number));
        assert!(desk == right);
    }
}
