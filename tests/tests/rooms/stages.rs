//! A room's stage: "fresh, begun, settled, refused". Fresh and begun rooms are unfinished; a number over 3 counts as
//! refused. "A first round starts with the overload test": the stage says which round is the first, and not the counts.

use crate::room;
use dock_tests::check_desk::{answered, nothing_unfinished, turn};
use dock_tests::desk::{share, Desk, BEGUN, FRESH, REFUSED, SETTLED};
use dock_tests::samples::hex;

/// Numbers of finished stages: those of 2 and 3, and larger ones, of which some have 0 or 1 in their lowest bytes.
const FINISHED: [u32; 16] =
    [2, 3, 4, 5, 6, 7, 8, 100, 255, 256, 257, 65_536, 65_537, 1 << 31, u32::MAX - 1, u32::MAX];

/// Shares of which a round would move a side, settle the room, or refuse it by each sort of row.
fn shares() -> [Vec<u8>; 6] {
    [
        room(4, "w[0,3)2 w[0,4)2"),
        room(1, ""),
        room(10, "p[2,5)2 p[2,5)2"),
        room(6, "w[0,6)3 p[2,4)2"),
        vec![0; 965],
        share(&hex("64 00 02 | 11 09000000 0100 | 11 09000000 0100")),
    ]
}

#[test]
fn a_finished_room_alone() {
    for stage in FINISHED {
        for (share, counts) in shares().iter().flat_map(|share| [(share, [0, 0]), (share, [5, 7])]) {
            let desk = Desk::new(&[[stage, counts[0], counts[1]]], std::slice::from_ref(share));
            [0, 1, u64::MAX].iter().for_each(|&number| nothing_unfinished(&desk, number, 0));
        }
    }
}

/// The finished room keeps its row, a stage over 3 too, and its share, before and behind the unfinished one.
#[test]
fn a_finished_room_beside_an_unfinished_one() {
    for stage in FINISHED {
        for share in shares() {
            let kept = [stage, 3, 4];
            let both = [share, room(4, "w[0,3)2 w[0,4)2")];
            for number in 0..2 {
                let mut desk = Desk::new(&[kept, [FRESH, 0, 0]], &both);
                answered(&mut desk, number, [1, 0, 0], [0; 3]);
                assert_eq!((desk.row(0), desk.row(1)), (kept, [BEGUN, 1, 1]));
                assert_eq!(desk.share(0), both[0]);

                let turned = [both[1].clone(), both[0].clone()];
                let mut desk = Desk::new(&[[FRESH, 0, 0], kept], &turned);
                answered(&mut desk, number, [0, 0, 1], [0; 3]);
                assert_eq!((desk.row(0), desk.row(1)), ([BEGUN, 1, 1], kept));
                assert_eq!(desk.share(1), both[0]);
            }
        }
    }
}

/// The stage after a round: begun if it moved something, settled if not, refused if the room is.
#[test]
fn the_stage_after_a_round() {
    for stage in [FRESH, BEGUN] {
        for (share, wanted, refusal) in [
            (room(4, "w[0,3)2 w[0,4)2"), BEGUN, 0),
            (room(4, "w[0,2)2 w[2,4)2"), SETTLED, 0),
            (room(4, "p[0,3)2 p[0,4)2"), SETTLED, 0),
            (room(1, ""), SETTLED, 0),
            (room(6, "w[0,6)3 p[2,4)2"), REFUSED, 10),
            (vec![0; 965], REFUSED, 2),
        ] {
            let mut desk = Desk::new(&[[stage, 8, 9]], &[share]);
            let answer = turn(&mut desk, 0);
            assert_eq!((desk.row(0)[0], answer.values), (wanted, [0, refusal, 0]), "stage {stage}");
        }
    }
}

/// One round without moves is the last: a room is not asked for a second one.
#[test]
fn settled_after_the_first_round_without_moves() {
    let mut desk = Desk::fresh(&[room(3, "w[0,3)1 w[0,3)1")]);
    answered(&mut desk, 0, [0, 0, 0], [0; 3]);
    assert_eq!(desk.row(0), [SETTLED, 1, 0]);
    nothing_unfinished(&desk, 0, 0);
}

/// "9" is for a first round, which the stage tells: a fresh room has it, whatever its counts are.
#[test]
fn a_fresh_room_with_counts_is_tested_for_overload() {
    for (rounds, moves) in [(0, 0), (1, 0), (0, 1), (7, 3), (100_000, 100_000), (u32::MAX, u32::MAX)] {
        for (h, entries, carried) in [
            (2, "w[0,1)1 p[0,1)1", [0, 1, 2]),
            (2, "p[0,1)1 p[0,1)1", [0, 1, 2]),
            (10, "p[2,5)2 p[2,5)2", [2, 5, 4]),
        ] {
            let mut desk = Desk::new(&[[FRESH, rounds, moves]], &[room(h, entries)]);
            answered(&mut desk, 0, [0, 9, 0], carried);
            assert_eq!(desk.row(0), [REFUSED, rounds, moves]);
        }
    }
}

/// A room that is handed in as begun has no overload test: with a whole entry an overloaded list is 10, without one
/// there is nothing to search, and the room is settled.
#[test]
fn a_begun_room_over_an_overloaded_share() {
    for (rounds, moves) in [(0, 0), (1, 0), (0, 1), (7, 3)] {
        let row = [BEGUN, rounds, moves];
        let mut desk = Desk::new(&[row], &[room(2, "w[0,1)1 p[0,1)1")]);
        answered(&mut desk, 0, [0, 10, 0], [0, 0, 0]);
        assert_eq!(desk.row(0), [REFUSED, rounds, moves]);

        let mut desk = Desk::new(&[row], &[room(2, "p[0,1)1 w[0,1)1")]);
        answered(&mut desk, 0, [0, 10, 0], [1, 0, 0]);

        let mut desk = Desk::new(&[row], &[room(2, "p[0,1)1 p[0,1)1")]);
        answered(&mut desk, 0, [0, 0, 0], [0, 0, 0]);
        assert_eq!(desk.row(0), [SETTLED, rounds + 1, moves]);
    }
}

/// The overloaded interval need not be where the whole entry is: no start of it has a plan.
#[test]
fn a_begun_room_overloaded_elsewhere() {
    let mut desk = Desk::new(&[[BEGUN, 0, 0]], &[room(9, "p[0,1)1 p[0,1)1 p[3,4)1 w[5,9)1")]);
    answered(&mut desk, 0, [0, 10, 0], [3, 0, 0]);
}

/// On a list that is not overloaded a begun room has the same round as a fresh one.
#[test]
fn a_begun_room_over_a_share_with_a_plan() {
    for share in [room(4, "w[0,3)2 w[0,4)2"), room(7, "w[0,7)2 p[4,6)1 w[0,7)3 p[1,3)1"), room(1, "")] {
        let rooms = [FRESH, BEGUN].map(|stage| {
            let mut desk = Desk::new(&[[stage, 0, 0]], std::slice::from_ref(&share));
            turn(&mut desk, 0);
            desk
        });
        assert!(rooms[0] == rooms[1], "a round of a fresh room and of a begun one");
    }
}

/// After its turns a room whose row is set back to fresh is tested anew, and is settled in one round.
#[test]
fn a_settled_room_handed_in_as_fresh_again() {
    let mut desk = Desk::fresh(&[room(4, "w[0,3)2 w[0,4)2")]);
    for wanted in [[BEGUN, 1, 1], [BEGUN, 2, 2], [SETTLED, 3, 2]] {
        turn(&mut desk, 0);
        assert_eq!(desk.row(0), wanted);
    }
    let settled = desk.lists.clone();
    desk.set_row(0, [FRESH, 3, 2]);
    answered(&mut desk, 0, [0, 0, 0], [0; 3]);
    assert_eq!((desk.row(0), desk.lists == settled), ([SETTLED, 4, 2], true));
}
