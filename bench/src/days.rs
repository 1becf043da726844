//! The days that are timed: each has 1,440 minutes and 64 entries, and is the same in every run.

use dock_tests::day::{Day, Entry, LONGEST_DAY, MOST_ENTRIES};
use dock_tests::random::{self, Random};
use dock_tests::{chains, found, samples};

/// A full day, its name, what is special about it, and the number that narrowing answers.
pub struct FullDay {
    pub name: &'static str,
    pub about: &'static str,
    pub number: u64,
    pub list: Day,
}

/// All of them: seven that are made here, and three that a search found.
pub fn all() -> [FullDay; 10] {
    [
        loose(),
        light(),
        tight(),
        many_rounds(),
        refused_by_9(),
        refused_by_10(),
        long_block(),
        slowest(),
        worst_ratio(),
        worst_ratio_720(),
    ]
}

/// Minutes to spare, so that most first starts have a plan.
fn loose() -> FullDay {
    let day = random::full_day(&mut Random::new(1), true, 60, 4);
    full(
        "loose",
        "idle minutes, windows up to 60 minutes wider at either side, one entry in four pause",
        0,
        day,
    )
}

/// So little work that a schedule from minute to minute is done early.
fn light() -> FullDay {
    let day = samples::all_whole(samples::windows(LONGEST_DAY, &[(0, LONGEST_DAY, 1); MOST_ENTRIES]));
    full("light", "64 whole [0,1440) p 1", 0, day)
}

/// No idle minute, so that there is much to narrow.
fn tight() -> FullDay {
    full("tight", "as loose, without an idle minute", 0, tight_list())
}

fn tight_list() -> Day {
    random::full_day(&mut Random::new(2), false, 60, 4)
}

/// Nested whole entries of which each round settles one, and a pause entry in the minutes after them.
fn many_rounds() -> FullDay {
    let (mut day, _) = chains::settled_one_by_one(63, 22);
    let rest = LONGEST_DAY - day.h;
    day.entries.push(samples::entry(day.h, LONGEST_DAY, rest));
    day.h = LONGEST_DAY;
    full("many rounds", "63 nested whole entries of 22 minutes, of which each round settles one", 0, day)
}

/// Only intervals that end with the day are overloaded, so that a test from the smallest b up sees them last.
fn refused_by_9() -> FullDay {
    let mut day = tight_list();
    let may_end_last = |entry: &&mut Entry| entry.d == LONGEST_DAY && entry.p < entry.d - entry.r;
    day.entries.iter_mut().find(may_end_last).expect("an entry that may end with the day").p += 1;
    full("refused by 9", "as tight, with a minute more for an entry that may end with the day", 9, day)
}

/// As many rounds, but the innermost whole entry has no place when those around it are settled. It is a short
/// day of the tests, with every minute made eleven.
fn refused_by_10() -> FullDay {
    let mut day = chains::refused_in_the_end(MOST_ENTRIES);
    for entry in &mut day.entries {
        (entry.r, entry.d, entry.p) = (11 * entry.r, 11 * entry.d, 11 * entry.p);
    }
    day.h = LONGEST_DAY;
    full(
        "refused by 10",
        "62 nested whole entries around a whole and a pause entry, refused in the end",
        10,
        day,
    )
}

/// Every search for a start walks over 1,300 starts.
fn long_block() -> FullDay {
    let mut entries = [(0, LONGEST_DAY, 1); MOST_ENTRIES];
    entries[0] = (0, 1300, 1300);
    let wholes = Vec::from_iter(1..MOST_ENTRIES);
    let day = samples::whole(samples::windows(LONGEST_DAY, &entries), &wholes);
    full("long block", "pause [0,1300) p 1,300 and 63 whole [0,1440) p 1", 0, day)
}

/// Found by a search for days that take the library long.
fn slowest() -> FullDay {
    full(
        "slowest found",
        "64 whole entries, most of 22 minutes, in windows one inside the other",
        0,
        found::day("slowest"),
    )
}

/// Found by a search for days that take the library long beside plain Rust.
fn worst_ratio() -> FullDay {
    full(
        "worst ratio found",
        "64 entries of a minute or little more, nearly all in [0,68)",
        0,
        found::day("worst-ratio"),
    )
}

/// Found by the same search among days with work for half of the day.
fn worst_ratio_720() -> FullDay {
    full(
        "worst ratio, 720",
        "721 minutes of work in wide windows, most of which begin early",
        0,
        found::day("worst-ratio-720"),
    )
}

fn full(name: &'static str, about: &'static str, number: u64, list: Day) -> FullDay {
    assert_eq!((list.h, list.entries.len()), (LONGEST_DAY, MOST_ENTRIES), "{name}");
    assert_eq!(list.first_clash(), None, "{name}: one box in two places");
    FullDay { name, about, number, list }
}
