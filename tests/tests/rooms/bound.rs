//! "With fresh rows, rows and shares left to the turns and the number handed on, each of m rooms is finished within m
//! times (1 + the sum of d - r - p over its whole entries, 0 where its share does not read) turns." Every run is held
//! against that; here are rooms that take all their turns.

use crate::room;
use dock_tests::check_desk::run;
use dock_tests::desk::{self, share, share_of, Desk, REFUSED, SETTLED};
use dock_tests::random::{self, Random};
use dock_tests::samples::{boxes, hex};

/// The sum, by hand.
#[test]
fn the_rounds_that_a_room_may_take() {
    for (h, entries, most) in [
        (1, "", 1),
        (12, "p[0,12)4 w[2,8)3 p[3,6)2", 4),
        (4, "w[0,3)2 w[0,4)2", 4),
        (4, "w[0,3)2 p[0,4)2", 2),
        (10, "w[2,5)2 w[2,5)2", 3),
        (1440, "w[0,1440)1 w[0,1440)1440", 1_440),
    ] {
        assert_eq!(desk::most_rounds(&room(h, entries)), most, "{entries}");
    }
    assert_eq!(desk::most_rounds(&share(&hex("64 00 02 | 31 09000000 0100 | 31 09000000 0100"))), 1, "14");
}

/// So many rooms alike, from the number after each: its last turn is the last that it may have.
#[track_caller]
fn takes_all_its_turns(share: &[u8], m: usize, rounds: usize) {
    assert_eq!(desk::most_rounds(share), rounds);
    let given = Desk::fresh(&vec![share.to_vec(); m]);
    for room in 0..m {
        let run = run(&given, (room as u64 + 1) % m as u64);
        assert_eq!(run.desk.row(room)[..2], [SETTLED, rounds as u32]);
        assert_eq!((run.ended[room].turn, run.turns), (m * rounds, m * rounds));
    }
}

/// Of `w[0,2)1 w[0,3)2` round one brings the second box to [1, 3), round two the first one to [0, 1), and round three
/// moves nothing: three rounds, of 1 + (1 + 1) that there may be.
#[test]
fn the_bound_is_reached() {
    for (h, entries, rounds) in [
        (1, "", 1),
        (1, "w[0,1)1", 1),
        (9, "p[0,9)1 p[2,9)3", 1),
        (2, "w[0,2)1 p[0,1)1", 2),
        (3, "w[0,2)1 w[0,3)2", 3),
        (8, "p[1,2)1 w[5,7)1 w[0,1)1 w[7,8)1 w[3,7)3", 3),
    ] {
        (1..=8).for_each(|m| takes_all_its_turns(&room(h, entries), m, rounds));
    }
}

/// Random rooms that alone take all their rounds.
#[test]
fn the_bound_is_reached_by_random_rooms() {
    let mut random = Random::new(686);
    let mut found = [0; 5];
    for turn in 0..4_000 {
        let h = random.within(4, 9);
        let n = 2 + random.below(3);
        let share = share_of(&random::unbroken_day(&mut random, h, n, true, 1));
        let alone = run(&Desk::fresh(std::slice::from_ref(&share)), 0);
        let rounds = desk::most_rounds(&share);
        if alone.turns == rounds {
            found[rounds] += 1;
            takes_all_its_turns(&share, 2 + turn % 7, rounds);
        }
    }
    assert!(found[1] > 100 && found[2] > 100 && found[3] > 5, "{found:?}");
}

/// A room that does not read is refused in its first turn, which is at most the m-th.
#[test]
fn unreadable_rooms_take_one_turn_each() {
    for m in 1..=8 {
        let given = Desk::fresh(&vec![vec![0; 965]; m]);
        let run = run(&given, 1 % m as u64);
        assert_eq!((run.turns, run.ended[0].turn), (m, m));
        assert_eq!(run.desk.rows(), vec![[REFUSED, 0, 0]; m]);
    }
}

/// The largest sum of d - r - p: 64 whole boxes of a minute in 1,440 minutes, 92,096. Counts stay below 100,000.
#[test]
fn the_largest_bound() {
    let mut day = boxes(1440, &"w[0,1440)1 ".repeat(64));
    day.entries.iter_mut().for_each(|entry| entry.seal = Some(0));
    let given = Desk::of(&[day]);
    assert_eq!(desk::most_rounds(given.share(0)), 1 + 92_096);
    let run = run(&given, 0);
    assert_eq!((run.desk.row(0), run.turns), ([SETTLED, 1, 0], 1));
}
