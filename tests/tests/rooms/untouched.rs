//! A turn "touches no other row or list"; of a refused room "of all that is lent only its stage is written, its share
//! and counts stay"; "A turn with nothing unfinished changes nothing". Told here number by number and byte by byte.

use crate::room;
use dock_tests::abi;
use dock_tests::check_desk::{nothing_unfinished, turn};
use dock_tests::desk::{share, Desk, Row, FRESH, REFUSED, SETTLED, SHARE, UNTOUCHED, WIDTH};
use dock_tests::random::{self, Random};
use dock_tests::samples::hex;

/// Rows of other rooms: all stages, stages over 3, and counts of any size.
const ROWS: [Row; 7] = [
    [0, 0, 0],
    [1, 99_999, 100_000],
    [2, 100_001, 7],
    [3, u32::MAX, 1 << 31],
    [7, 0, u32::MAX],
    [256, 65_536, 65_535],
    [u32::MAX, u32::MAX, u32::MAX],
];

/// Shares of other rooms: right, wrong, overloaded, refused by 10, with moves to make, and of one byte.
fn shares() -> Vec<Vec<u8>> {
    vec![
        room(1, ""),
        share(&hex("64 00 02 | 11 09000000 0100 | 11 09000000 0100")),
        room(10, "p[2,5)2 p[2,5)2"),
        room(6, "w[0,6)3 p[2,4)2"),
        room(4, "w[0,3)2 w[0,4)2"),
        vec![0; SHARE],
        vec![0xFF; SHARE],
    ]
}

/// Where two desks differ: the numbers of the rows, and the bytes.
fn changed(before: &Desk, after: &Desk) -> (Vec<usize>, Vec<usize>) {
    let rows = (0..before.rooms.len()).filter(|&at| before.rooms[at] != after.rooms[at]);
    let bytes = (0..before.lists.len()).filter(|&at| before.lists[at] != after.lists[at]);
    (rows.collect(), bytes.collect())
}

/// A room beside seven others, at each of eight places, with bytes after the last share. Gives what its turn changes,
/// counted from the room's own row and share.
fn changed_in_every_room(given: &[u8], row: Row) -> Vec<(Vec<usize>, Vec<usize>, [u64; 3])> {
    let mut all = vec![];
    for k in 0..8 {
        let mut rows = [&ROWS[..k], &[row], &ROWS[k..]].concat();
        let mut lists = shares();
        lists.insert(k, given.to_vec());
        rows.truncate(8);
        let mut desk = Desk::new(&rows, &lists);
        desk.lists.extend(abi::untouched_bytes(1_000));
        let before = desk.clone();
        let answer = turn(&mut desk, k as u64);
        assert_eq!((answer.number, answer.values[0]), (0, k as u64));
        let (rows, bytes) = changed(&before, &desk);
        let own_rows = rows.iter().map(|at| at.checked_sub(WIDTH * k).expect("of this room")).collect();
        let own_bytes = bytes.iter().map(|at| at.checked_sub(SHARE * k).expect("of this room")).collect();
        all.push((own_rows, own_bytes, desk.carried));
    }
    all
}

#[test]
fn a_round_with_a_move() {
    // the map byte of the second entry, and what stands from its r on
    for changed in changed_in_every_room(&room(4, "w[0,3)2 w[0,4)2"), [FRESH, 4, 5]) {
        assert_eq!(changed, (vec![0, 1, 2], vec![12, 19, 20], [0; 3]));
    }
}

#[test]
fn a_round_without_moves() {
    for changed in changed_in_every_room(&room(4, "w[0,2)2 w[2,4)2"), [FRESH, 4, 5]) {
        assert_eq!(changed, (vec![0, 1], vec![], [0; 3]));
    }
}

#[test]
fn a_refused_room() {
    for (given, carried) in [
        (room(10, "p[2,5)2 p[2,5)2"), [2, 5, 4]),
        (room(6, "p[2,4)2 w[0,6)3"), [1, 0, 0]),
        (room(8, "w[0,8)1 p[0,1)1 w[1,8)3 p[3,4)1 p[6,7)1"), [2, 0, 0]),
        (share(&hex("64 00 02 | 11 09000000 0100 | 11 09000000 0100")), [10, 0, 0]),
        (share(&hex("64 00 01 | 11 09000000 0000")), [3, 0, 0]),
    ] {
        for changed in changed_in_every_room(&given, [FRESH, 4, 5]) {
            assert_eq!(changed, (vec![0], vec![], carried));
        }
    }
}

/// The values of the refusal are written with every answered round, whatever they held: zeros if there is none.
#[test]
fn the_values_of_a_refusal() {
    for value in [0, 1, 255, 1 << 32, u64::MAX] {
        for (given, carried) in [
            (room(4, "w[0,3)2 w[0,4)2"), [0, 0, 0]),
            (room(1, ""), [0, 0, 0]),
            (room(10, "p[2,5)2 p[2,5)2"), [2, 5, 4]),
            (room(6, "w[0,6)3 p[2,4)2"), [0, 0, 0]),
            (vec![0; SHARE], [0, 0, 0]),
        ] {
            let mut desk = Desk { carried: [value; 3], ..Desk::fresh(&[given]) };
            turn(&mut desk, 0);
            assert_eq!(desk.carried, carried, "over {value}");
        }
    }
}

/// Nothing unfinished: neither rows nor bytes nor values, whatever they hold.
#[test]
fn nothing_unfinished_writes_nothing() {
    let finished: Vec<Row> = ROWS.into_iter().filter(|row| row[0] > 1).collect();
    assert_eq!(finished.len(), 5);
    for m in 1..=8 {
        for shift in 0..7 {
            let rows: Vec<Row> = (0..m).map(|room| finished[(room + shift) % 5]).collect();
            let lists: Vec<Vec<u8>> = (0..m).map(|room| shares().swap_remove((room + shift) % 7)).collect();
            for carried in [[0; 3], [u64::MAX; 3], UNTOUCHED] {
                let desk = Desk { carried, ..Desk::new(&rows, &lists) };
                nothing_unfinished(&desk, shift as u64, if shift < m { shift as u64 } else { 0 });
            }
        }
    }
}

/// Whatever other rooms hold, a room's turn is the same: its row, its share, the answer and the values.
#[test]
fn a_turn_looks_at_no_other_share() {
    let mut random = Random::new(671);
    for _ in 0..300 {
        let given = random::share(&mut random);
        let row = [random.pick(&[0, 1]), random.below(9) as u32, random.below(9) as u32];
        let mut alone = Desk::new(&[row], std::slice::from_ref(&given));
        let said = turn(&mut alone, 0);
        for m in 2..=8 {
            let k = random.below(m);
            let mut desk = random::any_desk(&mut random, m);
            desk.set_row(k, row);
            desk.share_mut(k).copy_from_slice(&given);
            let answer = turn(&mut desk, k as u64);
            assert_eq!(answer.values[..2], [k as u64, said.values[1]]);
            assert_eq!((desk.row(k), desk.carried), (alone.row(0), alone.carried));
            assert_eq!(desk.share(k), alone.share(0));
        }
    }
}

/// Rows of any stage and counts, shares right or wrong, any number, and buffers longer than needed.
#[test]
fn five_thousand_turns_of_any_rooms() {
    let mut random = Random::new(672);
    let (mut settled, mut refused, mut nothing) = (0, 0, 0);
    for turns in 0..5_000 {
        let m = 1 + turns % 8;
        let mut desk = random::any_desk(&mut random, m);
        let number = random::room_number(&mut random, m);
        let answer = turn(&mut desk, number);
        let room = answer.values[0] as usize;
        let stage = if room < m { desk.row(room)[0] } else { u32::MAX };
        settled += usize::from(stage == SETTLED);
        refused += usize::from(stage == REFUSED);
        nothing += usize::from(room == m);
    }
    assert!(settled > 500 && refused > 500 && nothing > 100, "{settled}, {refused}, {nothing}");
}
