//! The limit of trials. "Spent: only when one more trial is needed and all were used." "A larger limit never changes found
//! or none." "Trials are returned and equal those of the defined search."

use dock_tests::check_unbroken::{
    every_limit, finds, finds_none, is_spent, searched, ANY, FOUND, NONE, SPENT,
};
use dock_tests::random::{self, Random};
use dock_tests::samples::{all_whole, boxes, plan, windows};
use dock_tests::{abi, flat, torn};

/// A limit that is used up exactly is no limit, whether a day is found or not.
#[test]
fn a_limit_that_is_used_exactly() {
    let day = boxes(4, "w[0,3)2 w[0,4)2");
    for (limit, ending, trials) in [(0, SPENT, 0), (1, SPENT, 1), (2, FOUND, 2), (3, FOUND, 2)] {
        assert_eq!(searched(&day, limit).0.values, [2, ending, trials], "limit {limit}");
    }
    for (limit, ending, trials) in [(0, SPENT, 0), (77, SPENT, 77), (78, NONE, 78), (79, NONE, 78)] {
        assert_eq!(searched(&torn::smallest(), limit).0.values, [0, ending, trials], "limit {limit}");
    }
}

#[test]
fn every_limit_of_single_days() {
    for (day, ending, trials) in [
        (torn::smallest(), NONE, 78),
        (boxes(4, "w[0,3)2 w[0,4)2"), FOUND, 2),
        (boxes(2, "p[0,2)1 w[0,2)1"), FOUND, 1),
        (boxes(3, "p[0,3)2 p[0,3)1"), FOUND, 0),
        (all_whole(windows(8, &[(0, 8, 1); 8])), FOUND, 36),
    ] {
        let answer = every_limit(&day, trials + 3);
        assert_eq!((answer.number, answer.values[1..].to_vec()), (0, vec![ending, trials.into()]), "{day:?}");
    }
}

/// Every limit of random days, of which some have no unbroken day.
#[test]
fn every_limit_of_random_days() {
    let mut random = Random::new(801);
    let mut seen = [0; 3];
    for turn in 0..400 {
        let day = match turn % 2 {
            0 => random::gapped_day(&mut random, 9),
            _ => random::small_day(&mut random),
        };
        let (answer, _) = abi::unbroken(&flat::of_day(&day), ANY, day.h.into());
        if answer.number == 0 && answer.values[2] < 500 {
            every_limit(&day, answer.values[2] as u32 + 1);
            seen[answer.values[1] as usize] += 1;
        }
    }
    assert!(seen[FOUND as usize] > 100 && seen[NONE as usize] > 10, "{seen:?}");
}

/// Limits around the powers of two at which a narrower number would begin anew. No limit is added to.
#[test]
fn limits_are_not_reckoned_in_fewer_bits() {
    let day = boxes(4, "w[0,3)2 w[0,4)2");
    for limit in [255, 256, 257, 65_535, 65_536, 65_538, 1 << 31, (1 << 31) + 1, ANY - 1, ANY] {
        assert_eq!(searched(&day, limit).0.values, [2, 1, 2], "limit {limit}");
        assert_eq!(searched(&torn::smallest(), limit).0.values, [0, 2, 78], "limit {limit}");
    }
}

/// None, after as many trials as are counted without a search: of three entries in more minutes, and of more entries.
#[test]
fn torn_days_of_several_sizes() {
    assert_eq!(torn::of_minutes(7, 2), (torn::smallest(), 78));
    for (h, p, wanted) in [(7, 2, 78), (11, 3, 225), (13, 4, 250), (21, 6, 976), (41, 11, 6_851)] {
        let (day, trials) = torn::of_minutes(h, p);
        assert_eq!(trials, wanted, "{h} minutes, p {p}");
        finds_none(&day, trials);
    }
    assert_eq!(torn::of_boxes(3), (torn::smallest(), 78));
    for (wholes, wanted) in [(3, 78), (4, 790), (5, 8_862)] {
        let (day, trials) = torn::of_boxes(wholes);
        assert_eq!(trials, wanted, "{wholes} whole entries");
        finds_none(&day, trials);
    }
    let (day, trials) = torn::of_boxes(6);
    assert_eq!(searched(&day, ANY).0.values, [0, NONE, 113_958]);
    assert_eq!((trials, torn::of_boxes(7).1), (113_958, 1_671_406));
}

/// More trials than a byte counts, and than 16 bits count.
#[test]
fn more_trials_than_two_bytes_count() {
    let in_turn: Vec<u8> = (0..24).collect();
    let starts: Vec<u32> = (0..24).collect();
    finds(&all_whole(windows(24, &[(0, 24, 1); 24])), 300, &starts, &in_turn);
    let (day, trials) = torn::of_minutes(121, 35);
    assert_eq!(trials, 122_235);
    finds_none(&day, trials);
    [65_535, 65_536, 65_537].iter().for_each(|&limit| is_spent(&day, limit));
}

/// Without a whole entry nothing is tried, so that no limit is too small.
#[test]
fn no_trial_is_needed_without_a_whole_entry() {
    for limit in [0, 1, 2, ANY] {
        let (answer, lent) = searched(&boxes(3, "p[0,3)2 p[0,3)1"), limit);
        assert_eq!(answer.values, [0, 1, 0], "limit {limit}");
        assert_eq!(lent.plan, plan("1 0 0"), "limit {limit}");
    }
    is_spent(&boxes(3, "p[0,3)2 w[0,3)1"), 0);
}

/// One trial after the other: each start of one entry that has a plan ends the trials for that entry.
#[test]
fn trials_of_entries_one_behind_the_other() {
    for n in 1..=12 {
        let entries = vec![(0, n, 1); n.into()];
        let trials = (1..=u32::from(n)).sum();
        let starts: Vec<u32> = (0..n.into()).collect();
        let in_turn: Vec<u8> = (0..n as u8).collect();
        finds(&all_whole(windows(n, &entries)), trials, &starts, &in_turn);
    }
}
