//! Traps about a round: how a share is read, what a first round is, what is written, and what is counted.

use super::*;

#[test]
fn bytes_after_the_list_tested() {
    let way = Way { read: |share, _| reader::read(share), ..RIGHT };
    let right = said((0, [0, 0, 0]), [0; 3], &[[2, 1, 0]]);
    let wrong = said((0, [0, 8, 0]), [3, 0, 0], &[[3, 0, 0]]);
    differs(way, &Desk::fresh(&[empty()]), &[0], right, wrong);
}

/// Two boxes of one serial at one time.
fn clash() -> Vec<u8> {
    share(&hex("64 00 02 | 11 09000000 0100 | 11 09000000 0100"))
}

/// Reads as if serials that clash differed.
fn without_14(share: &[u8], _: usize) -> Result<Day, Refusal> {
    let mut bytes = share.to_vec();
    loop {
        match reader::read_share(&bytes) {
            Err(Refusal::SerialClash { place }) => bytes[place + 1] = bytes[place + 1].wrapping_add(1),
            read => return read,
        }
    }
}

#[test]
fn fourteen_not_tested() {
    let way = Way { read: without_14, ..RIGHT };
    let right = said((0, [0, 14, 0]), [10, 0, 0], &[[3, 0, 0]]);
    let wrong = said((0, [0, 0, 0]), [0; 3], &[[2, 1, 0]]);
    differs(way, &Desk::fresh(&[clash()]), &[0], right, wrong);
}

#[test]
fn a_place_counted_from_the_buffers_first_byte() {
    let way = Way {
        read: |share, first| {
            reader::read_share(share).map_err(|refusal| match refusal {
                Refusal::SerialClash { place } => Refusal::SerialClash { place: first + place },
                Refusal::NoMinutes { place } => Refusal::NoMinutes { place: first + place },
                other => other,
            })
        },
        ..RIGHT
    };
    for (given, number, place) in [(clash(), 14, 10), (share(&hex("64 00 01 | 11 09000000 0000")), 6, 3)] {
        let right = said((0, [1, number, 0]), [place, 0, 0], &[[0, 0, 0], [3, 0, 0]]);
        let wrong = said((0, [1, number, 0]), [965 + place, 0, 0], &[[0, 0, 0], [3, 0, 0]]);
        differs(way, &Desk::fresh(&[empty(), given]), &[1], right, wrong);
    }
}

/// A fresh row may have rounds, and a begun one none.
#[test]
fn a_first_round_told_by_the_rounds() {
    let way = Way { is_first: |[_, rounds, _]| rounds == 0, ..RIGHT };
    let overloaded = [share_of(&boxes(2, "w[0,1)1 p[0,1)1"))];
    let right = said((0, [0, 9, 0]), [0, 1, 2], &[[3, 1, 0]]);
    let wrong = said((0, [0, 10, 0]), [0, 0, 0], &[[3, 1, 0]]);
    differs(way, &Desk::new(&[[0, 1, 0]], &overloaded), &[0], right, wrong);
    let right = said((0, [0, 10, 0]), [0, 0, 0], &[[3, 0, 0]]);
    let wrong = said((0, [0, 9, 0]), [0, 1, 2], &[[3, 0, 0]]);
    differs(way, &Desk::new(&[[1, 0, 0]], &overloaded), &[0], right, wrong);
}

#[test]
fn the_overload_test_in_every_round() {
    let way = Way { is_first: |_| true, ..RIGHT };
    let given = Desk::new(&[[1, 1, 0]], &[share_of(&boxes(2, "p[0,1)1 p[0,1)1"))]);
    let right = said((0, [0, 0, 0]), [0; 3], &[[2, 2, 0]]);
    let wrong = said((0, [0, 9, 0]), [0, 1, 2], &[[3, 1, 0]]);
    differs(way, &given, &[0], right, wrong);
}

#[test]
fn no_overload_test() {
    let way = Way { is_first: |_| false, ..RIGHT };
    let right = said((0, [0, 9, 0]), [2, 5, 4], &[[3, 0, 0]]);
    let wrong = said((0, [0, 0, 0]), [0; 3], &[[2, 1, 0]]);
    differs(way, &Desk::fresh(&[c()]), &[0], right, wrong);
}

#[test]
fn the_round_of_a_refused_room_counted() {
    let way = Way { refused: |[_, rounds, moves], _| [3, rounds + 1, moves], ..RIGHT };
    let right = said((0, [0, 10, 0]), [1, 0, 0], &[[3, 0, 0]]);
    let wrong = said((0, [0, 10, 0]), [1, 0, 0], &[[3, 1, 0]]);
    differs(way, &Desk::fresh(&[e()]), &[0], right, wrong);
}

#[test]
fn the_counts_of_a_refused_room_cleared() {
    let way = Way { refused: |_, _| [3, 0, 0], ..RIGHT };
    let right = said((0, [0, 10, 0]), [1, 0, 0], &[[3, 4, 5]]);
    let wrong = said((0, [0, 10, 0]), [1, 0, 0], &[[3, 0, 0]]);
    differs(way, &Desk::new(&[[1, 4, 5]], &[e()]), &[0], right, wrong);
}

#[test]
fn the_moves_of_a_refused_round_counted() {
    let way = Way { refused: |[_, rounds, moves], made| [3, rounds, moves + made as u32], ..RIGHT };
    let right = said((0, [0, 10, 0]), [2, 0, 0], &[[3, 0, 0]]);
    let wrong = said((0, [0, 10, 0]), [2, 0, 0], &[[3, 0, 1]]);
    differs(way, &Desk::fresh(&[moves_and_no_place()]), &[0], right, wrong);
}

/// "its share and counts stay": the first box's r would be written, its map byte first.
#[test]
fn the_windows_of_a_refused_round_written() {
    let way = Way { writes_refused: true, ..RIGHT };
    differs_at(way, &Desk::fresh(&[moves_and_no_place()]), &[0], 3);
}

#[test]
fn bytes_after_the_list_cleared() {
    let way = Way { rest: |rest| rest.fill(0), ..RIGHT };
    differs_at(way, &Desk::fresh(&[empty()]), &[0], 3);
    differs_at(way, &Desk::fresh(&[a()]), &[0], 21);
}

#[test]
fn settled_only_after_two_rounds_without_moves() {
    let way = Way { stage: |[_, rounds, _], made| if made > 0 || rounds == 0 { 1 } else { 2 }, ..RIGHT };
    let right = said((0, [0, 0, 0]), [0; 3], &[[2, 1, 0]]);
    let wrong = said((0, [0, 0, 0]), [0; 3], &[[1, 1, 0]]);
    differs(way, &Desk::fresh(&[empty()]), &[0], right, wrong);
}

/// Example (a) has a move in round two.
#[test]
fn settled_after_the_second_round() {
    let way = Way { stage: |[stage, ..], _| if stage == 0 { 1 } else { 2 }, ..RIGHT };
    let right = said((0, [0, 0, 0]), [0; 3], &[[1, 2, 2]]);
    let wrong = said((0, [0, 0, 0]), [0; 3], &[[2, 2, 2]]);
    differs(way, &Desk::fresh(&[a()]), &[0, 0], right, wrong);
}

#[test]
fn all_rounds_in_one_turn() {
    let way = Way { rounds: usize::MAX, ..RIGHT };
    let right = said((0, [0, 0, 0]), [0; 3], &[[1, 1, 1]]);
    let wrong = said((0, [0, 0, 0]), [0; 3], &[[2, 3, 2]]);
    differs(way, &Desk::fresh(&[a()]), &[0], right, wrong);
}

/// "(a larger one handed in stays)"
#[test]
fn a_larger_count_brought_down() {
    let way = Way { count: |count, more| (u64::from(count) + more).min(100_000) as u32, ..RIGHT };
    let right = said((0, [0, 0, 0]), [0; 3], &[[1, 100_001, 100_002]]);
    let wrong = said((0, [0, 0, 0]), [0; 3], &[[1, 100_000, 100_000]]);
    differs(way, &Desk::new(&[[0, 100_001, 100_002]], &[a()]), &[0], right, wrong);
}

#[test]
fn counting_without_an_end() {
    let way = Way { count: |count, more| count.wrapping_add(more as u32), ..RIGHT };
    let right = said((0, [0, 0, 0]), [0; 3], &[[1, u32::MAX, 100_000]]);
    let wrong = said((0, [0, 0, 0]), [0; 3], &[[1, 0, 100_001]]);
    differs(way, &Desk::new(&[[0, u32::MAX, 100_000]], &[a()]), &[0], right, wrong);
}

/// Two moves after 99,999: the count stops at 100,000 and not before it.
#[test]
fn moves_that_would_pass_the_limit_not_counted() {
    let way = Way {
        count: |count, more| if count + more as u32 > 100_000 { count } else { count + more as u32 },
        ..RIGHT
    };
    let given = Desk::new(&[[0, 0, 99_999]], &[share_of(&boxes(7, "w[0,7)2 p[4,6)1 w[0,7)3 p[1,3)1"))]);
    let right = said((0, [0, 0, 0]), [0; 3], &[[1, 1, 100_000]]);
    let wrong = said((0, [0, 0, 0]), [0; 3], &[[1, 1, 99_999]]);
    differs(way, &given, &[0], right, wrong);
}
