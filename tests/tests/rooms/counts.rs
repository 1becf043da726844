//! "Rounds and moves stop counting at 100,000 (a larger one handed in stays)": a count grows up to 100,000, and one
//! that is there already or past it stays.

use crate::room;
use dock_tests::check_desk::{answered, turn};
use dock_tests::desk::{share_of, Desk, Row, BEGUN, FRESH, REFUSED, SETTLED};
use dock_tests::narrow;
use dock_tests::samples::{boxes, many_moves};

/// Counts to hand in: small ones, those around the limit, and larger ones, up to those that a sum would carry over.
const COUNTS: [u32; 17] = [
    0,
    1,
    2,
    65_535,
    65_536,
    99_932,
    99_990,
    99_997,
    99_998,
    99_999,
    100_000,
    100_001,
    100_002,
    131_071,
    1 << 31,
    u32::MAX - 1,
    u32::MAX,
];

/// Rooms of which a round makes so many moves.
fn rooms() -> [(Vec<u8>, u32); 5] {
    let many = many_moves();
    let first = narrow::one_round(&many).expect("a round").moves;
    [
        (room(1, ""), 0),
        (room(4, "w[0,2)2 w[2,4)2"), 0),
        (room(4, "w[0,3)2 w[0,4)2"), 1),
        (room(7, "w[0,7)2 p[4,6)1 w[0,7)3 p[1,3)1"), 2),
        (share_of(&many), first as u32),
    ]
}

/// The row after a round with so many moves, by the sum.
fn after([_, rounds, moves]: Row, made: u32) -> Row {
    let sum = |count: u32, more: u32| {
        if count >= 100_000 {
            return count;
        }
        (count + more).min(100_000)
    };
    [if made == 0 { SETTLED } else { BEGUN }, sum(rounds, 1), sum(moves, made)]
}

#[test]
fn a_round_has_many_moves() {
    let [.., (_, moves)] = rooms();
    assert!(moves > 10, "{moves} moves in the first round");
}

#[test]
fn every_count_and_every_number_of_moves() {
    for (share, made) in rooms() {
        for stage in [FRESH, BEGUN] {
            for (rounds, moves) in COUNTS.iter().flat_map(|&rounds| COUNTS.map(|moves| (rounds, moves))) {
                let row = [stage, rounds, moves];
                let mut desk = Desk::new(&[row], std::slice::from_ref(&share));
                answered(&mut desk, 0, [0, 0, 0], [0; 3]);
                assert_eq!(desk.row(0), after(row, made), "{made} moves after {row:?}");
            }
        }
    }
}

/// By hand: a round with 2 moves.
#[test]
fn at_the_limit() {
    for (rounds, moves, then) in [
        (0, 0, [1, 1, 2]),
        (99_998, 99_997, [1, 99_999, 99_999]),
        (99_999, 99_998, [1, 100_000, 100_000]),
        (100_000, 99_999, [1, 100_000, 100_000]),
        (100_001, 100_000, [1, 100_001, 100_000]),
        (99_999, 100_001, [1, 100_000, 100_001]),
        (u32::MAX, u32::MAX, [1, u32::MAX, u32::MAX]),
        (u32::MAX - 1, 0, [1, u32::MAX - 1, 2]),
    ] {
        let share = room(7, "w[0,7)2 p[4,6)1 w[0,7)3 p[1,3)1");
        let mut desk = Desk::new(&[[FRESH, rounds, moves]], &[share]);
        turn(&mut desk, 0);
        assert_eq!(desk.row(0), then, "after {rounds} rounds and {moves} moves");
    }
}

/// Round by round to the limit, and no further.
#[test]
fn three_rounds_over_the_limit() {
    let mut desk = Desk::new(&[[FRESH, 99_998, 99_999]], &[room(4, "w[0,3)2 w[0,4)2")]);
    for row in [[BEGUN, 99_999, 100_000], [BEGUN, 100_000, 100_000], [SETTLED, 100_000, 100_000]] {
        turn(&mut desk, 0);
        assert_eq!(desk.row(0), row);
    }
}

/// A refused room's counts stay, whatever they are.
#[test]
fn counts_of_refused_rooms() {
    for (h, entries, number, carried) in [
        (10, "p[2,5)2 p[2,5)2", 9, [2, 5, 4]),
        (6, "w[0,6)3 p[2,4)2", 10, [0, 0, 0]),
        // the first box moves before the second one has no place
        (8, "w[0,8)1 p[0,1)1 w[1,8)3 p[3,4)1 p[6,7)1", 10, [2, 0, 0]),
    ] {
        for (rounds, moves) in COUNTS.iter().flat_map(|&rounds| COUNTS.map(|moves| (rounds, moves))) {
            let mut desk = Desk::new(&[[FRESH, rounds, moves]], &[room(h, entries)]);
            answered(&mut desk, 0, [0, number, 0], carried);
            assert_eq!(desk.row(0), [REFUSED, rounds, moves], "{entries}");
        }
    }
}

/// "moves made before the refusal are lost too": the day of the last test, step by step.
#[test]
fn moves_before_a_refusal_are_lost() {
    let day = boxes(8, "w[0,8)1 p[0,1)1 w[1,8)3 p[3,4)1 p[6,7)1");
    let mut steps = day.clone();
    assert_eq!(narrow::step(&mut steps, 0, narrow::Side::Earliest), Ok(true), "a move, and then 10");
    let mut desk = Desk::of(&[day]);
    let before = desk.lists.clone();
    answered(&mut desk, 0, [0, 10, 0], [2, 0, 0]);
    assert_eq!(desk.row(0), [REFUSED, 0, 0]);
    assert!(desk.lists == before, "no window of the lost round is written");
}

/// Counts decide nothing: rooms that differ only in them end in the same stage with the same list.
#[test]
fn counts_decide_nothing() {
    for (share, _) in rooms() {
        let ends = COUNTS.map(|count| {
            let mut desk = Desk::new(&[[FRESH, count, count]], std::slice::from_ref(&share));
            while desk.row(0)[0] < SETTLED {
                turn(&mut desk, 0);
            }
            (desk.row(0)[0], desk.lists)
        });
        assert!(ends.iter().all(|end| *end == ends[0]));
    }
}
