//! How the times grow with the number of entries and with the day's minutes.

use crate::jobs::{NOT_CLEARED, OF_MANY};
use crate::table::{self, Row};
use dock_tests::classes::DAYS;
use dock_tests::day::{Day, LONGEST_DAY, MOST_ENTRIES};
use dock_tests::flat;
use dock_tests::random::{self, Random};
use dock_tests::{chains, samples};

/// Days of one sort with any number of entries and of minutes.
struct Sort {
    name: &'static str,
    about: &'static str,
    days: fn(u16, usize) -> Vec<Day>,
}

const SORTS: [Sort; 2] = [
    Sort {
        name: "tight",
        about: "12 days of each size, windows wider by up to a 24th of the day at either side",
        days: tight,
    },
    Sort {
        name: "many rounds",
        about: "all entries but one nested, one day of each size",
        days: many_rounds,
    },
];

/// Twelve days, of the class 'tight' if they are full.
fn tight(h: u16, n: usize) -> Vec<Day> {
    let day = |seed| {
        let random = &mut Random::new(seed);
        let mut day = random::unbroken_day(random, h, n, false, h / 24);
        day.entries.iter_mut().for_each(|entry| entry.whole = !random.once_in(4));
        day
    };
    (1..=DAYS).map(day).collect()
}

/// One day of nested whole entries of which each round settles one, and a pause entry in the minutes that are left.
fn many_rounds(h: u16, n: usize) -> Vec<Day> {
    let (mut day, _) = chains::settled_one_by_one(n - 1, (h - 1) / (n as u16 - 1));
    let rest = h - day.h;
    day.entries.push(samples::entry(day.h, h, rest));
    day.h = h;
    vec![day]
}

/// Prints a line for each size.
pub fn compare() {
    println!("\n{}", table::of_growth());
    for Sort { name, about, days } in &SORTS {
        println!("\n{name}: {about}");
        for n in [8, 16, 32, 64] {
            println!("{}", line(LONGEST_DAY, n, &days(LONGEST_DAY, n)));
        }
        for h in [720, 360, 180] {
            println!("{}", line(h, MOST_ENTRIES, &days(h, MOST_ENTRIES)));
        }
    }
}

/// The times of all jobs with days of one size.
fn line(h: u16, n: usize, days: &[Day]) -> String {
    let rows = NOT_CLEARED.iter().flat_map(|job| {
        days.iter().map(|list| {
            let fields = flat::of_day(list);
            let times = job.compare(&mut job.programs(&fields), &OF_MANY);
            Row { day: String::new(), number: 0, job: job.name, times }
        })
    });
    table::growth_line(h, n, &Vec::from_iter(rows))
}
