//! Days to begin with: the benchmark's single days, those of the classes, and days that are drawn.

use crate::climb::change::well_formed;
use crate::days;
use dock_tests::classes;
use dock_tests::day::{Day, Entry, LONGEST_DAY, MOST_ENTRIES};
use dock_tests::random::{self, shuffle, Random};
use dock_tests::{chains, samples};

/// The single days, and three of each class.
pub fn known() -> Vec<Day> {
    let single = days::all().into_iter().map(|day| day.list);
    let of_classes = classes::ALL.iter().flat_map(|class| Vec::from_iter(class.days().take(3)));
    single.chain(of_classes).map(well_formed).collect()
}

/// A day of one of several sorts, with at least so many entries.
pub fn drawn(random: &mut Random, least: usize) -> Day {
    let mut day = well_formed(full(random));
    if least < MOST_ENTRIES {
        let n = least + random.below(MOST_ENTRIES - least + 1);
        shuffle(random, &mut day.entries);
        day.entries.truncate(n);
    }
    day
}

fn full(random: &mut Random) -> Day {
    let wider = random.pick(&[5, 20, 60, 200, 700]);
    let idle = random.once_in(2);
    let pause = random.pick(&[0, 2, 4, 8]);
    match random.below(9) {
        0 => random::full_day(random, idle, wider, pause),
        1 => random::planned_day(random, LONGEST_DAY, MOST_ENTRIES, 4, &[1, 8, 60, 200]),
        2 => random::blocked_day(random),
        3 => random::interrupted_day(random),
        4 => random::crowded_day(random),
        5 => samples::four_of(&samples::many_moves()),
        6 => chain(random),
        7 => chain_and_wide(random),
        _ => chain_around_wide(random),
    }
}

/// Nested whole entries of which each round settles one, with any minutes, and one pause entry in those left.
fn chain(random: &mut Random) -> Day {
    let most = random.pick(&[2, 4, 10, 22]);
    let minutes = Vec::from_iter((1..MOST_ENTRIES).map(|_| random.within(1, most)));
    let (mut day, _) = chains::of_minutes(&minutes);
    day.entries.push(samples::entry(day.h, LONGEST_DAY, 1));
    day
}

/// A shorter chain at the first places, and wide whole entries in the minutes after it, which each round visits.
fn chain_and_wide(random: &mut Random) -> Day {
    let n = 16 + random.below(33);
    let most = random.within(2, 20);
    let minutes = Vec::from_iter((0..n).map(|_| random.within(1, most)));
    let (mut day, _) = chains::of_minutes(&minutes);
    for _ in n..MOST_ENTRIES {
        let (r, d) = (day.h + random.within(0, 60), LONGEST_DAY - random.within(0, 120));
        day.entries.push(Entry { whole: true, ..samples::entry(r, d, random.within(1, 8)) });
    }
    day
}

/// A chain around wide whole entries at the last places, which leave no minute idle.
fn chain_around_wide(random: &mut Random) -> Day {
    let n = 16 + random.below(33);
    let most = random.within(2, 20);
    let mut minutes = Vec::from_iter((0..n).map(|_| random.within(1, most)));
    let p = random.within(1, (LONGEST_DAY - most * n as u16) / (MOST_ENTRIES - n) as u16);
    minutes.push(p * (MOST_ENTRIES - n) as u16);
    let (mut day, _) = chains::of_minutes(&minutes);
    let inner = day.entries.remove(0);
    let shorter = inner.p / 4;
    for _ in n..MOST_ENTRIES {
        let (r, d) = (inner.r + random.within(0, shorter), inner.d - random.within(0, shorter));
        day.entries.push(Entry { r, d, p, ..inner.clone() });
    }
    day
}
