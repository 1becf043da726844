//! Whole runs of turns over random rooms: "A room that was fresh with both counts 0, its row and share left to the
//! turns, ends with the answer it would have alone, and its counts stay below 100,000." That each is finished within
//! its turns is tested in every run.

use dock_tests::chains;
use dock_tests::check_desk::{ends_as_alone, run, turn, Run};
use dock_tests::desk::{self, share_of, Desk, REFUSED, SETTLED};
use dock_tests::random::{self, Random};
use dock_tests::samples::{four_of, many_moves};
use dock_tests::told::Told;

/// How rooms ended: the refusals' numbers, those that were settled after three rounds or more, and those that were
/// refused with 10 after a round or more.
#[derive(Debug, Default)]
struct Seen {
    told: Told,
    slow: usize,
    late: usize,
}

impl Seen {
    fn count(&mut self, run: &Run) {
        for (room, ended) in run.ended.iter().enumerate() {
            let [stage, rounds, _] = run.desk.row(room);
            self.told.count(ended.refusal.number as usize);
            self.slow += usize::from(stage == SETTLED && rounds > 2);
            self.late += usize::from(ended.refusal.number == 10 && rounds > 0);
        }
    }
}

/// All numbers of rooms, and any first number.
#[test]
fn sixteen_hundred_desks_of_fresh_rooms() {
    let mut random = Random::new(681);
    let mut seen = Seen::default();
    for turn in 0..1_600 {
        let m = 1 + turn % 8;
        let given = random::fresh_desk(&mut random, m);
        let first = random::room_number(&mut random, m);
        let run = run(&given, first);
        (0..m).for_each(|room| ends_as_alone(&given, &run, room));
        seen.count(&run);
    }
    seen.told.more_than(200, &[0, 9, 10, 14]);
    seen.told.more_than(20, &[2, 3, 4, 7, 15]);
    seen.told.more_than(2, &[5, 6, 16]);
    seen.told.never(&[1, 8, 12, 19]);
    assert!(seen.slow > 500 && seen.late > 500, "{seen:?}");
}

/// Every first number gives the same ends, turns aside.
#[test]
fn every_first_number() {
    let mut random = Random::new(682);
    for turn in 0..80 {
        let m = 1 + turn % 8;
        let given = random::fresh_desk(&mut random, m);
        let from_0 = run(&given, 0);
        for first in (1..m as u64 + 3).chain([256, 1 << 32, u64::MAX]) {
            let other = run(&given, first);
            assert!(other.desk.rooms == from_0.desk.rooms && other.desk.lists == from_0.desk.lists);
            assert_eq!(other.turns, from_0.turns);
            for (one, other) in from_0.ended.iter().zip(&other.ended) {
                assert_eq!(one.refusal, other.refusal);
            }
        }
    }
}

/// The same room beside other rooms, at another place: its row, its share and its refusal are the same.
#[test]
fn the_same_room_beside_other_rooms() {
    let mut random = Random::new(683);
    let mut refused = 0;
    for _ in 0..120 {
        let given = random::share(&mut random);
        let alone = run(&Desk::fresh(std::slice::from_ref(&given)), 0);
        refused += usize::from(alone.desk.row(0)[0] == REFUSED);
        for m in [2, 5, 8] {
            let mut desk = random::fresh_desk(&mut random, m);
            let room = random.below(m);
            desk.share_mut(room).copy_from_slice(&given);
            let run = run(&desk, random::room_number(&mut random, m));
            assert_eq!(run.desk.row(room), alone.desk.row(0));
            assert_eq!(run.desk.share(room), alone.desk.share(0));
            assert_eq!(run.ended[room].refusal, alone.ended[0].refusal);
        }
    }
    assert!(refused > 20 && refused < 100, "{refused} rooms refused");
}

/// The turns may be made in any order of rooms: if any number is handed in each time, the ends are the same.
#[test]
fn any_number_handed_in() {
    let mut random = Random::new(684);
    for turns in 0..160 {
        let m = 1 + turns % 8;
        let given = random::fresh_desk(&mut random, m);
        let wanted = run(&given, 0);
        let mut desk = given.clone();
        let mut made = 0;
        while desk.rows().iter().any(|&row| desk::is_unfinished(row)) {
            turn(&mut desk, random::room_number(&mut random, m));
            made += 1;
        }
        assert_eq!(made, wanted.turns);
        assert!(desk.rooms == wanted.desk.rooms && desk.lists == wanted.desk.lists);
    }
}

/// "With fresh rows", of any counts: each room is finished within its turns, in the same stage with the same list.
#[test]
fn fresh_rooms_with_any_counts() {
    let mut random = Random::new(685);
    for turns in 0..160 {
        let m = 1 + turns % 8;
        let given = random::fresh_desk(&mut random, m);
        let first = random::room_number(&mut random, m);
        let wanted = run(&given, first);
        let mut counted = given.clone();
        for room in 0..m {
            let [_, rounds, moves] = random::row(&mut random);
            counted.set_row(room, [0, rounds, moves]);
        }
        let run = run(&counted, first);
        assert!(run.desk.lists == wanted.desk.lists && run.ended == wanted.ended);
        (0..m).for_each(|room| assert_eq!(run.desk.row(room)[0], wanted.desk.row(room)[0]));
    }
}

/// Days of many rounds and of many moves, each room with another.
#[test]
fn rooms_of_many_rounds() {
    let chain = |n| share_of(&chains::settled_one_by_one(n, 2).0);
    let late = |n| share_of(&chains::refused_in_the_end(n));
    let shares = [chain(12), late(9), share_of(&many_moves()), chain(3), late(12), chain(20), late(4)];
    let given = Desk::fresh(&shares);
    for first in [0, 3, 6] {
        let run = run(&given, first);
        (0..shares.len()).for_each(|room| ends_as_alone(&given, &run, room));
        assert_eq!(run.desk.row(0), [SETTLED, 13, 22]);
        assert_eq!(run.desk.row(5), [SETTLED, 21, 38]);
        assert_eq!(run.desk.row(2)[2], 68);
        assert_eq!([1, 4, 6].map(|room| run.ended[room].refusal.number), [10; 3]);
    }
}

/// Full days, 1,440 minutes and 64 boxes: tight, loose, blocked so that a box has no place, and overloaded.
#[test]
fn rooms_of_full_days() {
    let mut random = Random::new(687);
    let tight = random::full_day(&mut random, false, 30, 4);
    let loose = random::full_day(&mut random, true, 60, 2);
    let mut overloaded = tight.clone();
    let spare = overloaded.entries.iter_mut().find(|entry| entry.p < entry.d - entry.r);
    spare.expect("a box with a minute to spare").p += 1; // of 1,440 minutes that are all taken
    let days = [tight, loose, random::blocked_day(&mut random), four_of(&many_moves()), overloaded];
    let given = Desk::of(&days);
    let run = run(&given, 4);
    (0..days.len()).for_each(|room| ends_as_alone(&given, &run, room));
    let numbers: Vec<u64> = run.ended.iter().map(|ended| ended.refusal.number).collect();
    assert_eq!(numbers[..2], [0, 0]);
    assert_eq!(numbers[3..], [0, 9]);
    assert_eq!(run.desk.row(3)[2], 4 * 68);
}
