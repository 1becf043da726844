//! The turn's own refusals: 100 of numbers that are no rows of three, then "No rooms, or over eight, is refused as 19
//! before all else, carrying that number; a buffer too short for its rooms is 12 next, carrying the bytes needed."
//! Beside them nothing is written.

use crate::room;
use dock_tests::abi;
use dock_tests::check_desk::{self, answered, refused};
use dock_tests::day::Refusal;
use dock_tests::desk::{Desk, UNTOUCHED};

/// Rows of so many numbers, which are fresh rooms with both counts 0, and so many bytes, which are `01 00 00` and then
/// zeros in each share.
fn desk(numbers: usize, len: usize) -> Desk {
    let byte = |at| u8::from(at % 965 == 0);
    Desk { rooms: vec![0; numbers], lists: (0..len).map(byte).collect(), carried: UNTOUCHED }
}

/// Room numbers to hand in: none of them makes a difference here.
const NUMBERS: [u64; 5] = [0, 1, 7, 8, u64::MAX];

#[test]
fn rooms_from_none_to_many() {
    for m in (0..=20).chain([64, 100, 255, 256, 257, 264, 512, 1_000, 65_536, 65_537, 65_544]) {
        for len in [0, 1, 964, 965, 7_719, 7_720, 8_685] {
            let desk = desk(3 * m, len);
            if m == 0 || m > 8 {
                refused(&desk, len as u64, 19, m);
            } else if len < 965 * m {
                refused(&desk, len as u64, 12, 965 * m);
            } else {
                answered(&mut desk.clone(), 0, [0, 0, if m == 1 { 0 } else { 1 }], [0; 3]);
            }
        }
    }
}

/// Where 12 ends, for each number of rooms.
#[test]
fn buffers_a_byte_short_exact_and_longer() {
    for (m, needed) in
        [(1, 965), (2, 1_930), (3, 2_895), (4, 3_860), (5, 4_825), (6, 5_790), (7, 6_755), (8, 7_720)]
    {
        for number in NUMBERS {
            for len in [0, 1, 3, needed - 965, needed - 2, needed - 1] {
                refused(&desk(3 * m, len), number, 12, needed);
            }
            for len in [needed, needed + 1, needed + 964, needed + 965, 10_000] {
                let mut desk = desk(3 * m, len);
                let room = if number < m as u64 { number } else { 0 };
                let after = (room + 1) % m as u64;
                answered(&mut desk, number, [room, 0, after], [0; 3]);
            }
        }
    }
}

/// Of a long buffer the whole length counts, and not its lowest bytes.
#[test]
fn long_buffers() {
    for len in [65_536, 65_537, 66_500, 131_072, 1_000_000] {
        answered(&mut desk(24, len), 7, [7, 0, 0], [0; 3]);
        refused(&desk(27, len), 7, 19, 9);
        refused(&desk(23, len), 7, 100, 21);
    }
}

/// "the next lower multiple of 3", whatever the rows and the buffer are.
#[test]
fn numbers_that_are_no_rows() {
    for (numbers, carries) in
        [(1, 0), (2, 0), (4, 3), (5, 3), (23, 21), (25, 24), (26, 24), (28, 27), (100, 99), (65_537, 65_535)]
    {
        for len in [0, 964, 965, 7_719, 7_720, 9_000] {
            NUMBERS.iter().for_each(|&number| refused(&desk(numbers, len), number, 100, carries));
        }
    }
}

/// 100, then 19, then 12: of those that hold the first is told.
#[test]
fn the_order() {
    for numbers in 0..=60 {
        for len in [0, 964, 965, 3_000, 7_719, 7_720, 20_000] {
            let m = numbers / 3;
            let told = if numbers % 3 != 0 {
                Some((100, 3 * m))
            } else if !(1..=8).contains(&m) {
                Some((19, m))
            } else {
                (len < 965 * m).then_some((12, 965 * m))
            };
            match told {
                Some((number, carries)) => refused(&desk(numbers, len), 0, number, carries),
                None => {
                    let answer = check_desk::turn(&mut desk(numbers, len), 0);
                    assert_eq!((answer.number, answer.values[..2].to_vec()), (0, vec![0, 0]), "{numbers}");
                }
            }
        }
    }
}

/// They are told before any row or share is looked at, and whatever is lent keeps every number and byte.
#[test]
fn whatever_is_lent() {
    for (numbers, len, number, carries) in
        [(0, 965, 19, 0), (27, 9_000, 19, 9), (24, 7_719, 12, 7_720), (3, 0, 12, 965), (26, 7_720, 100, 24)]
    {
        for row in [0, 1, 2, 3, 4, u32::MAX] {
            for byte in [0, 1, 0x80, u8::MAX] {
                for value in [0, 1, u64::MAX] {
                    let (mut rooms, mut lists) = (vec![row; numbers], vec![byte; len]);
                    let mut carried = [value; 3];
                    let answer = abi::turn(&mut rooms, &mut lists, 0, &mut carried);
                    assert_eq!((answer.number, answer.values), (number, [carries, 0, 0]));
                    let kept = rooms == vec![row; numbers] && lists == vec![byte; len];
                    assert!(kept && carried == [value; 3], "changed by {number}");
                }
            }
        }
    }
}

/// With nothing unfinished too.
#[test]
fn finished_rooms_are_counted() {
    for stage in [2, 3, 9] {
        let mut nine = desk(27, 9_000);
        (0..9).for_each(|room| nine.set_row(room, [stage, 1, 0]));
        refused(&nine, 0, 19, 9);
        nine.rooms.truncate(24);
        nine.lists.truncate(7_719);
        refused(&nine, 0, 12, 7_720);
        nine.rooms.truncate(23);
        refused(&nine, 0, 100, 21);
    }
}

/// A room's refusal is none of the turn: the answer's number is 0, and the room's is among its values.
#[test]
fn a_refused_room_is_an_answered_turn() {
    let mut desk = Desk::fresh(&[room(10, "p[2,5)2 p[2,5)2"), room(1, "")]);
    let answer = check_desk::turn(&mut desk, 0);
    assert_eq!((answer.number, answer.values, desk.carried), (0, [0, 9, 1], [2, 5, 4]));
}

#[test]
fn their_numbers_and_what_they_carry() {
    assert_eq!(Refusal::RoomCount { rooms: 9 }.code(), (19, [9, 0, 0]));
    assert_eq!(Refusal::ShortBuffer { needed: 7_720 }.code(), (12, [7_720, 0, 0]));
    assert_eq!(Refusal::RowLength { numbers: 24 }.code(), (100, [24, 0, 0]));
}
