//! Wrong readings of document 02's "Clear the nearly finished box first", each with a day on which it gives another
//! plan than the rule: "When several boxes share the smallest latest minute and the running box is not among them, take
//! the one with the fewest minutes left, then the lowest place."

use dock_tests::check::planned;
use dock_tests::day::{Day, Entry, IDLE};
use dock_tests::samples::{boxes, plan};
use dock_tests::{jackson, rule, small};

/// An entry that may have a minute: its place, the minutes that it has left, and whether it had the minute before.
pub struct Ready<'a> {
    pub entry: &'a Entry,
    pub place: usize,
    pub left: u16,
    pub running: bool,
}

/// The schedule in which each minute goes to the ready entry with the smallest key.
pub fn smallest_first<K: Ord>(day: &Day, key: impl Fn(&Ready) -> K) -> Vec<u8> {
    let mut left: Vec<u16> = day.entries.iter().map(|entry| entry.p).collect();
    let mut before = None;
    let minute = |minute: u16| {
        let all = day.entries.iter().enumerate().map(|(place, entry)| Ready {
            entry,
            place,
            left: left[place],
            running: before == Some(place),
        });
        let ready = all.filter(|ready| ready.entry.r <= minute && ready.left > 0);
        before = ready.min_by_key(&key).map(|ready| ready.place);
        before.map_or(IDLE, |place| {
            left[place] -= 1;
            place as u8
        })
    };
    (0..day.h).map(minute).collect()
}

/// The former rule: the lowest place among equals, whatever they have left.
pub fn lowest_place(day: &Day) -> Vec<u8> {
    smallest_first(day, |ready| (ready.entry.d, !ready.running, ready.place))
}

/// The rule gives this day the first plan, and the trap's way the second one, which breaks this sentence.
#[track_caller]
fn differs(h: u16, entries: &str, right: &str, trap: impl Fn(&Day) -> Vec<u8>, wrong: &str, sentence: &str) {
    let day = boxes(h, entries);
    assert_eq!(planned(&day), plan(right), "{entries}");
    let trapped = trap(&day);
    assert_eq!(trapped, plan(wrong), "{entries} by the trap's way");
    let broken = rule::follows(&day, &trapped).expect_err("a plan that breaks the rule");
    assert!(broken.contains(sentence), "{entries}: {broken}");
}

/// With the key that is right this form gives the rule's schedule, so that only its key makes a trap.
#[test]
fn only_the_key_makes_a_trap() {
    for day in small::pause_days_up_to(4, 3) {
        let right = smallest_first(&day, |ready| (ready.entry.d, !ready.running, ready.left, ready.place));
        assert_eq!(right, jackson::schedule(&day), "{day:?}");
    }
}

#[test]
fn the_lowest_place_before_the_fewest_minutes_left() {
    let sentence = "minute 0: \"take the one with the fewest minutes left\", 1 and not 0";
    differs(3, "p[0,3)2 p[0,3)1", "1 0 0", lowest_place, "0 0 1", sentence);
}

#[test]
fn the_running_box_losing_to_one_with_fewer_minutes_left() {
    let trap =
        |day: &Day| smallest_first(day, |ready| (ready.entry.d, ready.left, !ready.running, ready.place));
    let sentence = "minute 1: \"goes on unless another d is strictly smaller\", 1 and not 0";
    differs(5, "p[1,5)1 p[0,5)3", "1 1 1 0 -", trap, "1 0 1 1 -", sentence);
}

#[test]
fn the_most_minutes_left() {
    let trap = |day: &Day| {
        smallest_first(day, |ready| (ready.entry.d, !ready.running, u16::MAX - ready.left, ready.place))
    };
    let sentence = "minute 0: \"take the one with the fewest minutes left\", 0 and not 1";
    differs(3, "p[0,3)1 p[0,3)2", "0 1 1", trap, "1 1 0", sentence);
}

/// At minute 3 place 0 has one minute left of three, and place 1 both of its two.
#[test]
fn the_fewest_minutes_needed_instead_of_left() {
    let trap =
        |day: &Day| smallest_first(day, |ready| (ready.entry.d, !ready.running, ready.entry.p, ready.place));
    let sentence = "minute 3: \"take the one with the fewest minutes left\", 0 and not 1";
    differs(6, "p[0,6)3 p[2,6)2 p[2,3)1", "0 0 2 0 1 1", trap, "0 0 2 1 1 0", sentence);
}

/// At minute 2 place 0, which was interrupted, has two minutes left, and place 1 one.
#[test]
fn an_interrupted_box_keeping_its_privilege() {
    let begun = |ready: &Ready| ready.left < ready.entry.p;
    let trap =
        |day: &Day| smallest_first(day, |ready| (ready.entry.d, !begun(ready), ready.left, ready.place));
    let sentence = "minute 2: \"take the one with the fewest minutes left\", 1 and not 0";
    differs(6, "p[0,6)3 p[1,6)1 p[1,2)1", "0 2 1 0 0 -", trap, "0 2 0 0 1 -", sentence);
}

/// "When several boxes share the smallest latest minute": the minutes left say nothing of others.
#[test]
fn the_fewest_minutes_left_whatever_the_d() {
    let trap = |day: &Day| smallest_first(day, |ready| (!ready.running, ready.left, ready.place));
    differs(3, "p[0,3)1 p[0,2)2", "1 1 0", trap, "0 1 1", "minute 0: \"take the smallest d\", 1 and not 0");
}

#[test]
fn the_highest_place_of_those_with_the_fewest_minutes_left() {
    let trap = |day: &Day| {
        smallest_first(day, |ready| (ready.entry.d, !ready.running, ready.left, usize::MAX - ready.place))
    };
    let sentence = "minute 0: \"then the lowest place\", 0 and not 1";
    differs(2, "p[0,2)1 p[0,2)1", "0 1", trap, "1 0", sentence);
}
