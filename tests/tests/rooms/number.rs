//! "From the room number handed in (any number past the last counts as 0), a turn runs one round for the next
//! unfinished room in cyclic order .. It answers that room, any refusal, and the number after it (after the last, 0),
//! for the next turn. .. A turn with nothing unfinished changes nothing and says so."

use crate::room;
use dock_tests::check_desk::{self, answered, nothing_unfinished};
use dock_tests::desk::{share, Desk, BEGUN, FRESH, REFUSED, SETTLED};
use dock_tests::samples::hex;

/// So many rooms without boxes, with these stages.
fn rooms(stages: &[u32]) -> Desk {
    let rows: Vec<_> = stages.iter().map(|&stage| [stage, 0, 0]).collect();
    Desk::new(&rows, &vec![share(&hex("01 00 00")); stages.len()])
}

/// Every number up to three past the last, and others whose lowest bytes are a room's number.
fn numbers(m: u64) -> Vec<u64> {
    let far = [8, 9, 255, 256, 257, 65_536, 65_537, (1 << 32) + 1, (1 << 63) + 1, u64::MAX - 1, u64::MAX];
    (0..m + 4).chain(far).collect()
}

/// Every set of unfinished rooms of every number of rooms, and every number handed in: by trying one room after the
/// other, the next after the last being 0.
#[test]
fn every_set_of_unfinished_rooms_and_every_number() {
    let mut nothing = 0;
    for m in 1..=8_u64 {
        for unfinished in 0..1_u32 << m {
            let stage = |room: u64| if unfinished >> room & 1 == 1 { FRESH } else { SETTLED };
            let desk = rooms(&(0..m).map(stage).collect::<Vec<_>>());
            for number in numbers(m) {
                let used = if number >= m { 0 } else { number };
                let mut next = used;
                let mut tried = 0;
                while tried < m && unfinished >> next & 1 == 0 {
                    next = if next == m - 1 { 0 } else { next + 1 };
                    tried += 1;
                }
                if tried == m {
                    nothing_unfinished(&desk, number, used);
                    nothing += 1;
                } else {
                    let after = if next == m - 1 { 0 } else { next + 1 };
                    answered(&mut desk.clone(), number, [next, 0, after], [0; 3]);
                }
            }
        }
    }
    assert_eq!(nothing, (1..=8).map(|m| numbers(m).len()).sum::<usize>());
}

/// Fresh and begun rooms come as they stand; neither goes before the other.
#[test]
fn fresh_and_begun_rooms_alike() {
    for stages in 0..1_u32 << 8 {
        let stages: Vec<u32> =
            (0..8).map(|room| if stages >> room & 1 == 1 { BEGUN } else { FRESH }).collect();
        for number in 0..8 {
            answered(&mut rooms(&stages), number, [number, 0, (number + 1) % 8], [0; 3]);
        }
    }
}

/// The search goes past finished rooms of both sorts, and around.
#[test]
fn past_finished_rooms() {
    let desk = rooms(&[SETTLED, FRESH, REFUSED, 9, BEGUN, SETTLED]);
    for (number, room) in [(0, 1), (1, 1), (2, 4), (3, 4), (4, 4), (5, 1), (6, 1), (7, 1), (u64::MAX, 1)] {
        answered(&mut desk.clone(), number, [room, 0, room + 1], [0; 3]);
    }
}

/// Handed on, each number leads to the next room: rooms that stay unfinished have their rounds in turn.
#[test]
fn the_number_handed_on() {
    let given = Desk::fresh(&vec![room(4, "w[0,3)2 w[0,4)2"); 5]);
    for first in numbers(5) {
        let (mut desk, mut number) = (given.clone(), first);
        let mut room = if first > 4 { 0 } else { first };
        for turn in 0..15 {
            let after = [1, 2, 3, 4, 0][room as usize];
            answered(&mut desk, number, [room, 0, after], [0; 3]);
            assert_eq!(desk.row(room as usize)[1], 1 + turn / 5, "rounds of room {room}");
            (room, number) = (after, after);
        }
        assert_eq!(desk.rows(), [[SETTLED, 3, 2]; 5]);
        nothing_unfinished(&desk, number, number);
    }
}

/// If the same number is handed in again, its room has all its rounds before the next one has any.
#[test]
fn the_same_number_again() {
    let mut desk = Desk::fresh(&vec![room(4, "w[0,3)2 w[0,4)2"); 4]);
    for room in [2, 2, 2, 3, 3, 3, 0, 0, 0, 1, 1, 1] {
        answered(&mut desk, 2, [room, 0, [1, 2, 3, 0][room as usize]], [0; 3]);
    }
    nothing_unfinished(&desk, 2, 2);
}

/// A refusal does not make the turn go on to another room.
#[test]
fn one_room_a_turn_beside_a_refusal() {
    let overloaded = room(10, "p[2,5)2 p[2,5)2");
    let mut desk = Desk::fresh(&[overloaded.clone(), overloaded.clone(), overloaded]);
    for (number, rows) in [
        (2, [[FRESH, 0, 0], [FRESH, 0, 0], [REFUSED, 0, 0]]),
        (0, [[REFUSED, 0, 0], [FRESH, 0, 0], [REFUSED, 0, 0]]),
        (1, [[REFUSED, 0, 0]; 3]),
    ] {
        answered(&mut desk, number, [number, 9, (number + 1) % 3], [2, 5, 4]);
        assert_eq!(desk.rows(), rows);
    }
    nothing_unfinished(&desk, 2, 2);
}

/// With one room the number after it is always 0.
#[test]
fn one_room() {
    for number in numbers(1) {
        answered(&mut rooms(&[FRESH]), number, [0, 0, 0], [0; 3]);
        nothing_unfinished(&rooms(&[SETTLED]), number, 0);
    }
}

/// Nothing unfinished is told by the number of rooms, which is no room's; so it differs from every answered round.
#[test]
fn nothing_unfinished_is_no_room() {
    for m in 1..=8_usize {
        for number in numbers(m as u64) {
            let answer = check_desk::turn(&mut rooms(&vec![SETTLED; m]), number);
            assert_eq!(answer.values[0], m as u64);
            let answer = check_desk::turn(&mut rooms(&vec![FRESH; m]), number);
            assert!(answer.values[0] < m as u64 && answer.values[2] < m as u64);
        }
    }
}
