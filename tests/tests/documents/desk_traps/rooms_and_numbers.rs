//! Traps about a turn: its own refusals, the room that has it, and the number for the next one.

use super::*;

/// Nine rooms and no byte.
#[test]
fn twelve_before_19() {
    let way = Way { own: [Own::Numbers, Own::Bytes, Own::Rooms], ..RIGHT };
    let given = Desk { rooms: vec![0; 27], lists: vec![], carried: UNTOUCHED };
    let rows = [[0, 0, 0]; 9];
    let (right, wrong) = ((19, [9, 0, 0]), (12, [8_685, 0, 0]));
    differs(way, &given, &[0], said(right, UNTOUCHED, &rows), said(wrong, UNTOUCHED, &rows));
}

/// 28 numbers are nine rows and one number more.
#[test]
fn nineteen_before_100() {
    let way = Way { own: [Own::Rooms, Own::Numbers, Own::Bytes], ..RIGHT };
    let given = Desk { rooms: vec![0; 28], lists: vec![], carried: UNTOUCHED };
    let rows = [[0, 0, 0]; 9];
    let (right, wrong) = ((100, [27, 0, 0]), (19, [9, 0, 0]));
    differs(way, &given, &[0], said(right, UNTOUCHED, &rows), said(wrong, UNTOUCHED, &rows));
}

/// What each of them carries, if it were what is handed in or what is missing.
#[test]
fn other_values_carried() {
    let way = Way {
        carries: |row, numbers, len| match row {
            Own::Numbers => numbers,
            Own::Rooms => 8,
            Own::Bytes => 965 * (numbers / 3) - len,
        },
        ..RIGHT
    };
    for (numbers, len, right, wrong) in [
        (26, 7_720, (100, [24, 0, 0]), (100, [26, 0, 0])),
        (27, 8_685, (19, [9, 0, 0]), (19, [8, 0, 0])),
        (24, 7_719, (12, [7_720, 0, 0]), (12, [1, 0, 0])),
    ] {
        let given = Desk { rooms: vec![0; numbers], lists: vec![0; len], carried: UNTOUCHED };
        let rows = vec![[0, 0, 0]; numbers / 3];
        differs(way, &given, &[0], said(right, UNTOUCHED, &rows), said(wrong, UNTOUCHED, &rows));
    }
}

#[test]
fn a_longer_buffer_refused() {
    let way = Way { is_short: |len, m| len != 965 * m, ..RIGHT };
    let mut given = Desk::fresh(&[empty()]);
    given.lists.push(0);
    let right = said((0, [0, 0, 0]), [0; 3], &[[2, 1, 0]]);
    let wrong = said((12, [965, 0, 0]), UNTOUCHED, &[[0, 0, 0]]);
    differs(way, &given, &[0], right, wrong);
}

/// Rooms without boxes: (2, 1, 0) is one that has had its round.
fn three() -> Desk {
    Desk::fresh(&[empty(), empty(), empty()])
}

#[test]
fn the_number_of_rooms_after_the_last() {
    let way = Way { after: |room, _| room + 1, ..RIGHT };
    let rows = [[0, 0, 0], [0, 0, 0], [2, 1, 0]];
    let (right, wrong) = ((0, [2, 0, 0]), (0, [2, 0, 3]));
    differs(way, &three(), &[2], said(right, [0; 3], &rows), said(wrong, [0; 3], &rows));
}

/// "any number past the last counts as 0"
#[test]
fn a_number_past_the_last_by_its_rest() {
    let way = Way { from: |number, m| (number % m as u64) as usize, ..RIGHT };
    let right = said((0, [0, 0, 1]), [0; 3], &[[2, 1, 0], [0, 0, 0], [0, 0, 0]]);
    let wrong = said((0, [1, 0, 2]), [0; 3], &[[0, 0, 0], [2, 1, 0], [0, 0, 0]]);
    differs(way, &three(), &[4], right, wrong);
}

#[test]
fn a_number_past_the_last_as_the_last() {
    let way = Way { from: |number, m| number.min(m as u64 - 1) as usize, ..RIGHT };
    let right = said((0, [0, 0, 1]), [0; 3], &[[2, 1, 0], [0, 0, 0], [0, 0, 0]]);
    let wrong = said((0, [2, 0, 0]), [0; 3], &[[0, 0, 0], [0, 0, 0], [2, 1, 0]]);
    differs(way, &three(), &[3], right, wrong);
}

/// The room of the number itself is the first one looked at.
#[test]
fn the_search_begun_after_the_number() {
    let way = Way { from: |number, m| (number as usize + 1) % m, ..RIGHT };
    let right = said((0, [1, 0, 2]), [0; 3], &[[0, 0, 0], [2, 1, 0], [0, 0, 0]]);
    let wrong = said((0, [2, 0, 0]), [0; 3], &[[0, 0, 0], [0, 0, 0], [2, 1, 0]]);
    differs(way, &three(), &[1], right, wrong);
}

#[test]
fn the_search_ended_at_the_last_room() {
    let way = Way { order: |from, rows| (from..rows.len()).collect(), ..RIGHT };
    let given = Desk::new(&[[0, 0, 0], [2, 1, 0]], &[empty(), empty()]);
    let right = said((0, [0, 0, 1]), [0; 3], &[[2, 1, 0], [2, 1, 0]]);
    let wrong = said((0, [2, 0, 1]), UNTOUCHED, &[[0, 0, 0], [2, 1, 0]]);
    differs(way, &given, &[1], right, wrong);
}

#[test]
fn the_search_always_from_room_0() {
    let way = Way { order: |_, rows| (0..rows.len()).collect(), ..RIGHT };
    let right = said((0, [1, 0, 2]), [0; 3], &[[0, 0, 0], [2, 1, 0], [0, 0, 0]]);
    let wrong = said((0, [0, 0, 1]), [0; 3], &[[2, 1, 0], [0, 0, 0], [0, 0, 0]]);
    differs(way, &three(), &[1], right, wrong);
}

/// Begun rooms would wait for all fresh ones, and their bound would not hold.
#[test]
fn fresh_rooms_first() {
    let way = Way {
        order: |from, rows| {
            let mut order = (RIGHT.order)(from, rows);
            order.sort_by_key(|&room| rows[room][0] != 0);
            order
        },
        ..RIGHT
    };
    let given = Desk::new(&[[1, 1, 1], [0, 0, 0]], &[empty(), empty()]);
    let right = said((0, [0, 0, 1]), [0; 3], &[[2, 2, 1], [0, 0, 0]]);
    let wrong = said((0, [1, 0, 0]), [0; 3], &[[1, 1, 1], [2, 1, 0]]);
    differs(way, &given, &[0], right, wrong);
}

#[test]
fn a_stage_over_3_unfinished() {
    let given = Desk::new(&[[4, 5, 6]], &[empty()]);
    let right = || said((0, [1, 0, 0]), UNTOUCHED, &[[4, 5, 6]]);
    let wrong = || said((0, [0, 0, 0]), [0; 3], &[[2, 6, 6]]);
    let way = Way { is_unfinished: |stage| stage % 4 <= 1, ..RIGHT };
    differs(way, &given, &[0], right(), wrong());
    let way = Way { is_unfinished: |stage| stage != 2 && stage != 3, ..RIGHT };
    differs(way, &given, &[0], right(), wrong());
}

/// "it counts as finished"
#[test]
fn a_refused_room_tried_again() {
    let way = Way { refused: |row, _| row, ..RIGHT };
    let right = said((0, [1, 0, 0]), [2, 5, 4], &[[3, 0, 0]]);
    let wrong = said((0, [0, 9, 0]), [2, 5, 4], &[[0, 0, 0]]);
    differs(way, &Desk::fresh(&[c()]), &[0, 0], right, wrong);
}

#[test]
fn the_turn_going_on_after_a_refusal() {
    let way = Way { ends_at_refusal: false, ..RIGHT };
    let right = said((0, [0, 9, 1]), [2, 5, 4], &[[3, 0, 0], [0, 0, 0]]);
    let wrong = said((0, [1, 0, 0]), [0; 3], &[[3, 0, 0], [2, 1, 0]]);
    differs(way, &Desk::fresh(&[c(), empty()]), &[0], right, wrong);
}

/// (c) is refused, and in the next turn the other room is not.
#[test]
fn the_last_refusals_values_left_there() {
    let way = Way { no_refusal: |carried| carried, ..RIGHT };
    let rows = [[3, 0, 0], [2, 1, 0]];
    let answer = (0, [1, 0, 0]);
    let given = Desk::fresh(&[c(), empty()]);
    differs(way, &given, &[0, 1], said(answer, [0; 3], &rows), said(answer, [2, 5, 4], &rows));
}

/// The number as used is handed back: one past the last counted as 0.
#[test]
fn another_number_if_nothing_is_unfinished() {
    let given = Desk::new(&[[2, 1, 0], [3, 0, 0], [2, 1, 0]], &[empty(), c(), empty()]);
    let as_handed_in = Way { nothing: |number, _| number, ..RIGHT };
    let always_0 = Way { nothing: |_, _| 0, ..RIGHT };
    let one_further = Way { nothing: |_, from| from as u64 + 1, ..RIGHT };
    for (way, number, right, wrong) in [(as_handed_in, 7, 0, 7), (always_0, 2, 2, 0), (one_further, 1, 1, 2)]
    {
        let said = |after| said((0, [3, 0, after]), UNTOUCHED, &given.rows());
        differs(way, &given, &[number], said(right), said(wrong));
    }
}
