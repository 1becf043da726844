//! Days that a search for slow ones found: each is settled as the second narrowing says, from the windows given and from
//! those that its rounds leave, in as many rounds and with as many moves as docs/BENCHMARKS.md tells.

use dock_tests::check_narrow::rounds;
use dock_tests::found;

#[track_caller]
fn settled(name: &str, number_of_rounds: usize, moves: u64) {
    let rounds = rounds(&found::day(name));
    assert_eq!(rounds.refusal, None, "{name}");
    assert_eq!((rounds.done.len(), rounds.moves().iter().sum()), (number_of_rounds, moves), "{name}");
}

#[test]
fn the_slowest_day() {
    settled("slowest", 39, 134);
}

#[test]
fn the_day_of_the_worst_ratio() {
    settled("worst-ratio", 2, 107);
}

/// It has work for half of the day.
#[test]
fn the_busy_day_of_the_worst_ratio() {
    settled("worst-ratio-720", 3, 49);
    let work: u64 = found::day("worst-ratio-720").entries.iter().map(|entry| u64::from(entry.p)).sum();
    assert!(work >= 720, "{work} minutes");
}

/// No file is left out here.
#[test]
fn these_are_all_days_found() {
    assert_eq!(found::all(), ["slowest", "worst-ratio", "worst-ratio-720"]);
}
