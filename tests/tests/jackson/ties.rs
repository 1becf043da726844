//! Who has the minute where several may, worked out from the sentences: "take the smallest d. The entry that had the
//! minute before, if it has minutes left, goes on unless another d is strictly smaller" (document 01); "When several
//! boxes share the smallest latest minute and the running box is not among them, take the one with the fewest minutes
//! left, then the lowest place" (document 02).

use dock_tests::check;
use dock_tests::samples::{plan, windows};

/// The schedule of this day is this one, by both programs.
#[track_caller]
fn planned(h: u16, entries: &[(u16, u16, u16)], minutes: &str) {
    let wanted = plan(minutes);
    assert_eq!(wanted.len(), usize::from(h), "a minute is missing from {minutes}");
    assert_eq!(check::planned(&windows(h, entries)), wanted);
}

#[test]
fn the_smallest_d_is_taken_whatever_its_place() {
    planned(6, &[(0, 6, 2), (0, 5, 2), (0, 4, 2)], "2 2 1 1 0 0");
    planned(6, &[(0, 4, 2), (0, 5, 2), (0, 6, 2)], "0 0 1 1 2 2");
    planned(6, &[(0, 5, 2), (0, 6, 2), (0, 4, 2)], "2 2 0 0 1 1");
}

#[test]
fn the_smallest_d_is_taken_whatever_r_and_p() {
    planned(8, &[(0, 8, 1), (0, 7, 5)], "1 1 1 1 1 0 - -");
    planned(8, &[(0, 8, 5), (0, 7, 1)], "1 0 0 0 0 0 - -");
    planned(8, &[(0, 8, 3), (2, 7, 3)], "0 0 1 1 1 0 - -");
}

#[test]
fn an_equal_d_does_not_interrupt_from_a_higher_place() {
    planned(6, &[(0, 6, 3), (1, 6, 2)], "0 0 0 1 1 -");
    planned(6, &[(0, 6, 3), (1, 6, 1), (2, 6, 1)], "0 0 0 1 2 -");
}

/// The running entry has more minutes left than place 0, whenever that comes, and goes on; with fewer it goes on too.
#[test]
fn an_equal_d_does_not_interrupt_though_it_has_fewer_minutes_left() {
    planned(9, &[(1, 9, 1), (0, 9, 5)], "1 1 1 1 1 0 - - -");
    planned(9, &[(3, 9, 1), (0, 9, 5)], "1 1 1 1 1 0 - - -");
    planned(9, &[(1, 9, 1), (2, 9, 1), (0, 9, 5)], "2 2 2 2 2 0 1 - -");
    planned(9, &[(1, 9, 5), (0, 9, 3)], "1 1 1 0 0 0 0 0 -");
}

#[test]
fn a_d_smaller_by_one_interrupts_at_once() {
    planned(6, &[(0, 6, 3), (1, 5, 2)], "0 1 1 0 0 -");
}

#[test]
fn a_larger_d_waits() {
    planned(6, &[(1, 6, 2), (0, 5, 3)], "1 1 1 0 0 -");
    planned(6, &[(0, 5, 3), (1, 6, 2)], "0 0 0 1 1 -");
}

#[test]
fn the_fewest_minutes_left_begin_whatever_their_place() {
    planned(3, &[(0, 3, 2), (0, 3, 1)], "1 0 0");
    planned(3, &[(0, 3, 1), (0, 3, 2)], "0 1 1");
    planned(9, &[(0, 9, 3), (0, 9, 1), (0, 9, 2)], "1 2 2 0 0 0 - - -");
    planned(9, &[(0, 9, 1), (0, 9, 3), (0, 9, 2)], "0 2 2 1 1 1 - - -");
}

#[test]
fn of_as_many_minutes_left_the_lowest_place_begins() {
    planned(9, &[(0, 9, 2), (0, 9, 2), (0, 9, 2)], "0 0 1 1 2 2 - - -");
    planned(9, &[(0, 9, 3), (0, 9, 2), (0, 9, 2)], "1 1 2 2 0 0 0 - -");
}

/// "share the smallest latest minute": the entry with the fewest minutes left of all has a larger d. It waits, in the
/// second day though it was running.
#[test]
fn minutes_left_count_among_the_smallest_d_alone() {
    planned(9, &[(0, 9, 1), (0, 8, 3), (0, 8, 2)], "2 2 1 1 1 0 - - -");
    planned(9, &[(1, 8, 4), (0, 9, 2)], "1 0 0 0 0 1 - - -");
}

/// When an entry ends, the fewest minutes left follow, and of as many the lowest place: not the next place.
#[test]
fn the_fewest_minutes_left_follow_then_the_lowest_place() {
    planned(9, &[(1, 9, 1), (0, 9, 2), (1, 9, 1)], "1 1 0 2 - - - - -");
    planned(9, &[(2, 9, 2), (2, 9, 1), (0, 9, 3), (2, 9, 1)], "2 2 2 1 3 0 0 - -");
    planned(9, &[(2, 9, 2), (0, 9, 3), (2, 9, 2)], "1 1 1 0 0 2 2 - -");
}

#[test]
fn among_equals_the_first_released_has_no_privilege() {
    planned(9, &[(1, 9, 3), (2, 9, 1), (0, 9, 3)], "2 2 2 1 0 0 0 - -");
    planned(9, &[(3, 9, 2), (1, 9, 2), (0, 9, 4)], "2 2 2 2 0 0 1 1 -");
    planned(9, &[(3, 9, 2), (1, 9, 1), (0, 9, 4)], "2 2 2 2 1 0 0 - -");
}

/// Two that interrupt at once: the tie is between them, and the interrupted one has a larger d.
#[test]
fn of_two_that_interrupt_the_one_with_the_fewest_minutes_left_is_first() {
    planned(9, &[(0, 9, 2), (1, 5, 2), (1, 5, 1)], "0 2 1 1 0 - - - -");
    planned(9, &[(0, 9, 2), (1, 5, 1), (1, 5, 1)], "0 1 2 0 - - - - -");
}

/// An interrupted entry has no privilege, but its minutes left count: in each of these days it has one left at the end
/// of the interruption, and the other two or more.
#[test]
fn after_an_interruption_the_fewest_minutes_left_are_taken_though_they_were_interrupted() {
    planned(6, &[(1, 6, 2), (0, 6, 2), (1, 2, 1)], "1 2 1 0 0 -");
    planned(9, &[(0, 9, 3), (0, 9, 2), (1, 4, 2)], "1 2 2 1 0 0 0 - -");
    planned(9, &[(0, 9, 3), (1, 9, 2), (2, 4, 1)], "0 0 2 0 1 1 - - -");
}

/// Here the other has one minute left, and the interrupted entry two or three. In the last day it went on at minute 1,
/// when it was running, and does not at minute 3.
#[test]
fn after_an_interruption_the_fewest_minutes_left_are_taken_though_another_was_interrupted() {
    planned(6, &[(0, 6, 3), (1, 6, 1), (1, 2, 1)], "0 2 1 0 0 -");
    planned(6, &[(1, 6, 1), (0, 6, 3), (1, 2, 1)], "1 2 0 1 1 -");
    planned(9, &[(0, 9, 5), (1, 9, 1), (2, 4, 1)], "0 0 2 1 0 0 0 - -");
}

/// Of three minutes that it needs the interrupted entry has one left, which is fewer than the two of the other.
#[test]
fn minutes_left_count_and_not_those_needed() {
    planned(6, &[(0, 6, 3), (2, 6, 2), (2, 3, 1)], "0 0 2 0 1 1");
    planned(6, &[(2, 6, 2), (0, 6, 3), (2, 3, 1)], "1 1 2 1 0 0");
}

/// Both have two minutes left, and the lowest place is the interrupted one, or the other.
#[test]
fn after_an_interruption_the_lowest_place_is_taken_of_as_many_minutes_left() {
    planned(6, &[(0, 6, 3), (1, 6, 2), (1, 2, 1)], "0 2 0 0 1 1");
    planned(6, &[(1, 6, 2), (0, 6, 3), (1, 2, 1)], "1 2 0 0 1 1");
}

/// Place 1 is interrupted with three minutes left, and place 0, with as many, after its first: it has two then.
#[test]
fn of_two_interrupted_entries_the_one_with_the_fewest_minutes_left_is_taken() {
    planned(12, &[(1, 12, 3), (0, 12, 4), (1, 2, 1), (3, 4, 1)], "1 2 0 3 0 0 1 1 1 - - -");
}

/// The interrupted entry has two minutes left, as place 1 has in the first day, and place 0 has one.
#[test]
fn an_entry_that_was_interrupted_waits_for_fewer_minutes_left_and_for_lower_places() {
    planned(12, &[(2, 12, 1), (2, 12, 2), (0, 12, 3), (1, 3, 1)], "2 3 0 1 1 2 2 - - - - -");
    planned(12, &[(4, 12, 1), (0, 12, 4), (1, 3, 1), (3, 5, 1)], "1 2 1 3 0 1 1 - - - - -");
}

#[test]
fn an_interruption_may_be_interrupted() {
    planned(9, &[(0, 9, 2), (1, 6, 2), (2, 4, 1)], "0 1 2 1 0 - - - -");
    planned(9, &[(0, 9, 3), (1, 7, 3), (2, 5, 2), (3, 4, 1)], "0 1 2 3 2 1 1 0 0");
}

/// Place 2 is interrupted by 3, and that by 4. When 4 ends, 1 and 3 have the smallest d and a minute left, and 1 is
/// lower; then so are 0 and 2. In the second day 1 has two minutes left, and 3 goes first.
#[test]
fn an_interruption_that_was_interrupted_does_not_go_on_either() {
    planned(9, &[(2, 9, 1), (2, 6, 1), (0, 9, 2), (1, 6, 2), (2, 3, 1)], "2 3 4 1 3 0 2 - -");
    planned(9, &[(2, 9, 1), (2, 6, 2), (0, 9, 2), (1, 6, 2), (2, 3, 1)], "2 3 4 3 1 1 0 2 -");
}

/// "The entry that had the minute before": after an idle minute, or none at all, there is none, and whoever had one
/// earlier is done.
#[test]
fn after_an_idle_minute_the_fewest_minutes_left_are_taken_then_the_lowest_place() {
    planned(9, &[(3, 9, 1), (0, 9, 1), (3, 9, 2)], "1 - - 0 2 2 - - -");
    planned(9, &[(3, 9, 2), (0, 9, 1), (3, 9, 1), (0, 9, 1)], "1 3 - 2 0 0 - - -");
    planned(9, &[(4, 9, 1), (4, 9, 1), (0, 2, 2)], "2 2 - - 0 1 - - -");
    planned(4, &[(1, 4, 1), (1, 4, 1)], "- 0 1 -");
}

/// Place 1 has minute 0 and is interrupted. At minute 3 it has two minutes left, as place 0 has, which is taken and
/// goes on; and where place 3 has one, that is taken before both.
#[test]
fn only_the_very_minute_before_counts() {
    planned(9, &[(3, 9, 2), (0, 9, 3), (1, 3, 2)], "1 2 2 0 0 1 1 - -");
    planned(9, &[(3, 9, 2), (0, 9, 3), (1, 3, 2), (3, 9, 1)], "1 2 2 3 0 0 1 1 -");
    planned(9, &[(3, 9, 2), (0, 9, 1), (1, 3, 1), (3, 9, 1)], "1 2 - 3 0 0 - - -");
}

#[test]
fn an_entry_that_ends_with_the_minute_before_gives_way() {
    planned(6, &[(2, 6, 1), (0, 6, 2), (1, 6, 1)], "1 1 0 2 - -");
}

/// The last two of 64 places, and the first: places are numbers, and 63 is below 255.
#[test]
fn ties_at_the_last_places() {
    let mut entries = vec![(8, 80, 1); 64];
    (entries[62], entries[63]) = ((1, 80, 2), (0, 80, 3));
    let rest: Vec<String> = (0..62).map(|place| place.to_string()).collect();
    let minutes = format!("63 63 63 62 62 - - - {} {}", rest.join(" "), ["-"; 10].join(" "));
    planned(80, &entries, &minutes);
}

/// Places 62 and 63 need one minute each, 60 and 61 two, and so on to 32 of places 0 and 1: 1,056 minutes in all.
#[test]
fn sixty_four_entries_by_minutes_left_then_by_place() {
    let needed = |place: u16| 32 - place / 2;
    let entries: Vec<_> = (0..64).map(|place| (0, 1440, needed(place))).collect();
    let pairs = (0..32).rev().flat_map(|pair| [2 * pair, 2 * pair + 1]);
    let minutes = pairs.flat_map(|place| vec![place.to_string(); needed(place).into()]);
    let idle = vec!["-".to_string(); 1440 - 1056];
    planned(1440, &entries, &minutes.chain(idle).collect::<Vec<_>>().join(" "));
}

/// The minutes left of 256 and more are numbers too: 257 is more than 2, and 256 more than 255.
#[test]
fn minutes_left_are_not_reckoned_in_8_bits() {
    let runs = |runs: &[(&str, usize)]| {
        runs.iter().flat_map(|&(place, often)| vec![place; often]).collect::<Vec<_>>().join(" ")
    };
    planned(300, &[(0, 300, 257), (0, 300, 2)], &runs(&[("1", 2), ("0", 257), ("-", 41)]));
    planned(600, &[(0, 600, 256), (0, 600, 255)], &runs(&[("1", 255), ("0", 256), ("-", 89)]));
}
