//! Round after round: from the windows that a round leaves, settling makes the moves of the rounds that are
//! still to come.

use dock_tests::chains;
use dock_tests::check_narrow::{rounds, rounds_leave};
use dock_tests::random::{self, Random};
use dock_tests::samples::boxes;

/// A visit sees what the visits before it in the same round have left: place 1 here sees place 0 moved.
#[test]
fn a_visit_sees_the_visits_before_it() {
    rounds_leave(&boxes(4, "w[0,4)2 w[0,3)2"), &[("w[2,4)2 w[0,2)2", 2), ("w[2,4)2 w[0,2)2", 0)]);
}

/// The moves of a round are its own, not all since the given windows.
#[test]
fn a_round_counts_its_own_moves() {
    let (day, _) = chains::settled_one_by_one(6, 2);
    assert_eq!(rounds(&day).moves(), [1, 2, 2, 2, 2, 1, 0]);
}

/// Every round of random days as the second narrowing makes it; then a refusal or not.
#[test]
fn each_round_of_random_days() {
    let mut random = Random::new(111);
    let mut made = 0;
    for turn in 0..2_000 {
        let h = random.within(8, 40);
        let n = 3 + random.below(6);
        let mut day = match turn % 2 {
            0 => random::planned_day(&mut random, h, n, 3, &[1, 2, 4, 8]),
            _ => random::unbroken_day(&mut random, h, n, false, h / 2),
        };
        day.entries.iter_mut().for_each(|entry| entry.whole |= turn % 3 > 0);
        made += rounds(&day).done.len();
    }
    assert!(made > 3_000, "{made} rounds");
}

/// Found by search: days of few entries that take many rounds.
#[test]
fn days_of_many_rounds() {
    for (h, entries, moves) in [
        (12, "w[6,9)1 w[3,9)3 w[0,11)2 w[0,11)4 w[0,12)2", vec![2, 2, 3, 2, 1, 0]),
        (12, "w[7,10)1 p[4,6)1 w[2,12)3 w[0,10)2 w[1,11)4", vec![1, 3, 1, 2, 1, 0]),
        (24, "w[0,9)1 w[2,24)3 w[5,19)7 p[9,14)1 w[0,17)6 w[3,23)5", vec![1, 2, 2, 4, 1, 1, 0]),
        (
            30,
            "w[6,17)2 w[12,17)2 w[2,12)2 w[0,27)2 w[7,28)3 w[5,23)8 w[0,21)5 w[3,30)6",
            vec![1, 3, 1, 4, 5, 3, 1, 0],
        ),
        (
            48,
            "w[32,36)3 w[14,18)1 w[13,34)7 w[0,8)4 w[4,17)3 w[5,46)6 w[10,12)1 w[13,40)3 w[0,48)4 w[27,48)5
             w[26,43)5 w[29,44)5",
            vec![4, 1, 4, 3, 6, 4, 4, 3, 2, 1, 0],
        ),
    ] {
        assert_eq!(rounds(&boxes(h, entries)).moves(), moves, "moves of the rounds of {entries}");
    }
}
