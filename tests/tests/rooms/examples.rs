//! Worked examples, every byte and number by hand: document 01's sample day and its examples (a), (c), (d), (e) and (h)
//! as rooms, a room that is refused in its second round, and eight rooms.

use crate::room;
use dock_tests::check_desk::{answered, nothing_unfinished};
use dock_tests::desk::{share, Desk, SHARE};
use dock_tests::samples::{document, hex};

/// The list with which a share begins is this. What follows it is as it was.
#[track_caller]
fn begins(desk: &Desk, room: usize, list: &str) {
    let list = hex(list);
    assert_eq!(desk.share(room)[..list.len()], list, "room {room}");
    assert_eq!(desk.share(room)[list.len()..], share(&[])[list.len()..], "room {room} after its list");
}

const SAMPLE: &str = "0C 00 03 | 11 F5 01 00 00 04 00 | 3F F6 01 00 00 4D 00 00 00 02 00 08 00 03 00
     | 1F F7 01 00 00 4E 00 00 00 03 00 06 00 02 00";
/// Box 502 can begin at minute 5 at the earliest, one move.
const SAMPLE_SETTLED: &str = "0C 00 03 | 11 F5 01 00 00 04 00 | 3F F6 01 00 00 4D 00 00 00 05 00 08 00 03 00
     | 1F F7 01 00 00 4E 00 00 00 03 00 06 00 02 00";

#[test]
fn the_sample_in_one_room() {
    let mut desk = Desk::fresh(&[share(&document())]);
    assert_eq!((desk.rooms.len(), desk.lists.len()), (3, 965));
    begins(&desk, 0, SAMPLE);
    answered(&mut desk, 0, [0, 0, 0], [0, 0, 0]);
    assert_eq!(desk.rooms, [1, 1, 1]);
    begins(&desk, 0, SAMPLE_SETTLED);
    answered(&mut desk, 0, [0, 0, 0], [0, 0, 0]);
    assert_eq!(desk.rooms, [2, 2, 1]);
    begins(&desk, 0, SAMPLE_SETTLED);
    nothing_unfinished(&desk, 0, 0);
}

/// (a) "both whole, H 4, [0,3) p 2 and [0,4) p 2: settled [0,2) and [2,4), 1 move in each of rounds one and two, none
/// in round three". The second entry's r leaves its default in round one, so that the form is two bytes longer.
const A: [&str; 3] = [
    "04 00 02 | 39 65000000 0300 0200 | 31 66000000 0200",
    "04 00 02 | 39 65000000 0300 0200 | 35 66000000 0200 0200",
    "04 00 02 | 39 65000000 0200 0200 | 35 66000000 0200 0200",
];

#[test]
fn example_a_in_three_turns() {
    let mut desk = Desk::fresh(&[room(4, "w[0,3)2 w[0,4)2")]);
    begins(&desk, 0, A[0]);
    for (row, list) in [([1, 1, 1], A[1]), ([1, 2, 2], A[2]), ([2, 3, 2], A[2])] {
        answered(&mut desk, 0, [0, 0, 0], [0, 0, 0]);
        assert_eq!(desk.rooms, row);
        begins(&desk, 0, list);
    }
    nothing_unfinished(&desk, 0, 0);
}

/// (a), (c) and the sample, from room 1 on: (c) is "9, from 2 to 5, work 4".
#[test]
fn three_rooms_turn_by_turn() {
    let mut desk =
        Desk::fresh(&[room(4, "w[0,3)2 w[0,4)2"), room(10, "p[2,5)2 p[2,5)2"), share(&document())]);
    let turns = [
        (1, [1, 9, 2], [2, 5, 4], [[0, 0, 0], [3, 0, 0], [0, 0, 0]]),
        (2, [2, 0, 0], [0, 0, 0], [[0, 0, 0], [3, 0, 0], [1, 1, 1]]),
        (0, [0, 0, 1], [0, 0, 0], [[1, 1, 1], [3, 0, 0], [1, 1, 1]]),
        (1, [2, 0, 0], [0, 0, 0], [[1, 1, 1], [3, 0, 0], [2, 2, 1]]),
        (0, [0, 0, 1], [0, 0, 0], [[1, 2, 2], [3, 0, 0], [2, 2, 1]]),
        (1, [0, 0, 1], [0, 0, 0], [[2, 3, 2], [3, 0, 0], [2, 2, 1]]),
    ];
    for (number, values, carried, rows) in turns {
        answered(&mut desk, number, values, carried);
        assert_eq!(desk.rows(), rows, "after the turn from {number}");
    }
    nothing_unfinished(&desk, 1, 1);
    begins(&desk, 0, A[2]);
    begins(&desk, 1, "0A 00 02 | 1D 65000000 0200 0500 0200 | 1D 66000000 0200 0500 0200");
    begins(&desk, 2, SAMPLE_SETTLED);
}

/// In round one the box of 3 minutes comes to [2, 5), two moves. In round two the first box has no two minutes left
/// beside it and the pause boxes: the round is lost, and the room keeps what round one left.
#[test]
fn a_room_refused_in_its_second_round() {
    let mut desk = Desk::fresh(&[room(7, "w[0,7)2 p[4,6)1 w[0,7)3 p[1,3)1")]);
    answered(&mut desk, 0, [0, 0, 0], [0, 0, 0]);
    assert_eq!(desk.rooms, [1, 1, 2]);
    let left = "07 00 04 | 31 65000000 0200 | 1D 66000000 0400 0600 0100 | 3D 67000000 0200 0500 0300
         | 1D 68000000 0100 0300 0100";
    begins(&desk, 0, left);
    answered(&mut desk, 0, [0, 10, 0], [0, 0, 0]);
    assert_eq!(desk.rooms, [3, 1, 2]);
    begins(&desk, 0, left);
    nothing_unfinished(&desk, 0, 0);
}

/// (d) "9, from 2 to 4, work 3"; (e) "10, entry 0", and its entries the other way round; each beside (c) "With p 2 and
/// 1: accepted".
#[test]
fn refused_rooms() {
    for (h, entries, number, carried) in [
        (4, "p[0,4)2 p[2,4)2 p[2,4)1", 9, [2, 4, 3]),
        (6, "w[0,6)3 p[2,4)2", 10, [0, 0, 0]),
        (6, "p[2,4)2 w[0,6)3", 10, [1, 0, 0]),
    ] {
        let mut desk = Desk::fresh(&[room(h, entries), room(10, "p[2,5)2 p[2,5)1")]);
        let before = desk.lists.clone();
        answered(&mut desk, 0, [0, number, 1], carried);
        assert_eq!(desk.rooms, [3, 0, 0, 0, 0, 0]);
        answered(&mut desk, 1, [1, 0, 0], [0, 0, 0]);
        assert_eq!(desk.rooms, [3, 0, 0, 2, 1, 0]);
        assert!(desk.lists == before, "neither round moves anything");
        nothing_unfinished(&desk, 0, 0);
    }
}

/// 64 boxes of the whole day each: the work has more than 16 bits.
#[test]
fn a_room_with_the_greatest_work() {
    let mut desk = Desk::fresh(&[room(1, ""), room(1440, &"p[0,1440)1440 ".repeat(64))]);
    answered(&mut desk, 1, [1, 9, 0], [0, 1_440, 92_160]);
    assert_eq!(desk.rooms, [0, 0, 0, 3, 0, 0]);
}

/// Document 01's sample five minutes later, in a room that opens at minute 5: box 502 comes from 7 to 10.
#[test]
fn a_room_that_opens_later() {
    let mut desk = Desk::fresh(&[share(&hex("11 00 83 05 00 | 11 F5 01 00 00 04 00
         | 3F F6 01 00 00 4D 00 00 00 07 00 0D 00 03 00 | 1F F7 01 00 00 4E 00 00 00 08 00 0B 00 02 00"))]);
    answered(&mut desk, 9, [0, 0, 0], [0, 0, 0]);
    assert_eq!(desk.rooms, [1, 1, 1]);
    let list = "11 00 83 05 00 | 11 F5 01 00 00 04 00
         | 3F F6 01 00 00 4D 00 00 00 0A 00 0D 00 03 00 | 1F F7 01 00 00 4E 00 00 00 08 00 0B 00 02 00";
    begins(&desk, 0, list);
    answered(&mut desk, 9, [0, 0, 0], [0, 0, 0]);
    assert_eq!(desk.rooms, [2, 2, 1]);
    begins(&desk, 0, list);
}

/// (h) `01 00 00` in each of eight rooms: a round each, the last of which gives 0 for the next turn.
#[test]
fn eight_rooms_without_boxes() {
    let mut desk = Desk::fresh(&vec![share(&hex("01 00 00")); 8]);
    assert_eq!((desk.rooms.len(), desk.lists.len()), (24, 7_720));
    let mut number = 3;
    for room in [3, 4, 5, 6, 7, 0, 1, 2] {
        let after = [1, 2, 3, 4, 5, 6, 7, 0][room];
        answered(&mut desk, number, [room as u64, 0, after], [0, 0, 0]);
        assert_eq!(desk.row(room), [2, 1, 0]);
        number = after;
    }
    nothing_unfinished(&desk, number, 3);
    assert!(desk.lists == vec![share(&hex("01 00 00")); 8].concat());
    assert_eq!(SHARE, 965);
}
