//! Searches for an unbroken day: how trials and times grow with the number of entries, on days that have none, and the
//! searches of full days.

use crate::jobs::{self, Done, Program, OF_MANY};
use crate::plain;
use crate::table::{self, Row};
use dock_tests::abi::{self, Answer, SearchLent};
use dock_tests::day::{Day, LONGEST_DAY, MOST_ENTRIES};
use dock_tests::flat::{self, Fields};
use dock_tests::samples::{all_whole, windows};
use dock_tests::torn;
use std::hash::{DefaultHasher, Hash, Hasher};
use std::hint::black_box;
use std::time::Instant;

/// A search: it gets a list, a limit and all that is lent, and answers.
type Call = fn(&Fields, u32, &mut SearchLent) -> Answer;

/// A program that searches, and what is lent to it.
struct Searching<'a> {
    call: Call,
    fields: &'a Fields,
    limit: u32,
    lent: SearchLent,
}

impl Program for Searching<'_> {
    fn call(&mut self) -> Done {
        let start = Instant::now();
        let answer = (self.call)(black_box(self.fields), self.limit, black_box(&mut self.lent));
        let time = start.elapsed();
        let SearchLent { plan, narrowed, starts } = &self.lent;
        let mut hasher = DefaultHasher::new();
        (plan, narrowed, starts).hash(&mut hasher);
        Done { time, answer, left: hasher.finish() }
    }
}

/// The proved library, then plain Rust.
const PROGRAMS: [Call; 2] = [
    |fields, limit, lent| {
        let SearchLent { plan, narrowed, starts } = lent;
        abi::unbroken_unguarded(fields, limit, (plan, narrowed, starts))
    },
    plain::unbroken,
];

/// Prints a line for each day.
pub fn compare() {
    println!("\n{}", table::of_unbroken());
    println!("\ntorn: whole entries of 2 minutes at any time of the day, fixed minutes that leave one gap less than them");
    for wholes in 3..=7 {
        let (day, trials) = torn::of_boxes(wholes);
        line(&day, u32::MAX, [2, trials.into()]);
    }
    println!(
        "\ntorn, long: three whole entries in 1,439 minutes, a fixed minute in the middle, 20,000 trials"
    );
    line(&torn::of_minutes(LONGEST_DAY - 1, 411).0, 20_000, [3, 20_000]);
    println!("\n64 whole: of a minute each in 64 minutes, and of 22 minutes each in 1,440");
    line(&all_whole(windows(64, &[(0, 64, 1); MOST_ENTRIES])), u32::MAX, [1, 2_080]);
    line(&all_whole(windows(LONGEST_DAY, &[(0, LONGEST_DAY, 22); MOST_ENTRIES])), u32::MAX, [1, 44_416]);
}

/// A day's line. The search must end so, with so many trials.
fn line(day: &Day, limit: u32, ends: [u64; 2]) {
    let fields = flat::of_day(day);
    let (answer, _) = abi::unbroken(&fields, limit, day.h.into());
    assert_eq!((answer.number, &answer.values[1..]), (0, &ends[..]), "{day:?}");
    let programs = PROGRAMS.map(|call| {
        let lent = SearchLent::untouched(LONGEST_DAY.into());
        Box::new(Searching { call, fields: &fields, limit, lent }) as Box<dyn Program>
    });
    let times = jobs::compare("unbroken", &mut Vec::from(programs), &OF_MANY);
    let row = Row { day: String::new(), number: 0, job: "unbroken", times };
    println!("{}", table::unbroken_line(day.entries.len(), day.h, ends, &row));
}
