//! Times the proved library beside two Rust programs, a plain one and one with the library's own algorithm: on
//! single full days of 1,440 minutes and 64 entries, on classes of such days, on days of several lengths and sizes, and in
//! the search for an unbroken day.
//! Or looks for days on which the library is slow. It is no test, and the gate builds it and does not run it. From the
//! repository's root:
//!
//!     bench/run
//!     bench/run COMMIT    # the single days beside the library as it was at COMMIT, too
//!     bench/climb         # the search, which says its arguments

mod before;
mod classes;
mod climb;
mod cpu;
mod days;
mod fast;
mod growth;
mod jobs;
mod plain;
mod table;
mod unbroken;

use before::Before;
use days::FullDay;
use dock_tests::day::Day;
use dock_tests::narrow::{self, Narrowed};
use dock_tests::{abi, check, flat};
use std::env;
use table::Row;

fn main() {
    let arguments = Vec::from_iter(env::args().skip(1));
    match Vec::from_iter(arguments.iter().map(String::as_str))[..] {
        [] => compare(None),
        ["before", commit, program] => compare(Some(Before::start(commit, program))),
        [before::ANSWER] => before::answer(),
        ["climb", ref arguments @ ..] => climb::run(arguments),
        _ => panic!("unknown arguments; bench/run and bench/climb run this program"),
    }
}

/// Prints all tables, with or without the library before.
fn compare(mut before: Option<Before>) {
    println!("{}", table::text(before.as_ref()));
    let mut rows = single_days(before.as_mut());
    if let Some(before) = before {
        println!("\n{}", table::since(&rows));
        before.end();
    }
    rows.extend(classes::compare());
    println!("\n{}", table::worst(&rows));
    growth::compare();
    unbroken::compare();
}

/// Prints a line for each job with each of the single days.
fn single_days(mut before: Option<&mut Before>) -> Vec<Row> {
    let mut rows = vec![];
    for (place, FullDay { name: day, about, number, list }) in days::all().into_iter().enumerate() {
        let fields = flat::of_day(&list);
        let Outcome { number: answered, words, .. } = outcome(&list);
        assert_eq!(answered, number, "{day}");
        println!("\n{day}: {about}\n  {words}");
        for (at, job) in jobs::ALL.iter().enumerate().filter(|(_, job)| job.is_for(&fields)) {
            let mut programs = job.programs(&fields);
            if let Some(before) = &mut before {
                programs.push(Box::new(before.at(place, at)));
            }
            let times = job.compare(&mut programs, &jobs::OF_ONE);
            let row = Row { day: day.to_string(), number, job: job.name, times };
            println!("{row}");
            rows.push(row);
        }
    }
    rows
}

/// What narrowing makes of a list: the number that it answers, how many rounds it takes and how many moves they make,
/// up to a refusal, and the same in words.
struct Outcome {
    number: u64,
    rounds: usize,
    moves: u64,
    words: String,
}

/// The rounds are those of the tests' second narrowing, and must come to what the library answers.
fn outcome(list: &Day) -> Outcome {
    let (answer, _) = abi::settle(&flat::of_day(list));
    if answer.number == 9 {
        let [a, b, work] = answer.values;
        let words = format!("refused, from {a} to {b} work {work}");
        return Outcome { number: 9, rounds: 0, moves: 0, words };
    }
    let rounds = narrow::rounds(list);
    let (made, moves) = (rounds.done.len(), rounds.moves().iter().sum());
    match rounds.outcome_after(0) {
        Ok(Narrowed { moves, .. }) => {
            assert_eq!((answer.number, answer.values[0]), (0, moves));
            let words = format!("settled, rounds {made}, moves {moves}");
            Outcome { number: 0, rounds: made, moves, words }
        }
        Err(refusal) => {
            assert_eq!(answer, check::refusing(&refusal));
            let words = format!("refused, entry {}, in round {}", answer.values[0], made + 1);
            Outcome { number: answer.number, rounds: made + 1, moves, words }
        }
    }
}
