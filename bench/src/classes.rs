//! Classes of full days: each day's times, and of each class the median and the worst of its days.

use crate::jobs::{Job, NOT_CLEARED, OF_MANY};
use crate::outcome;
use crate::table::{self, Row};
use dock_tests::classes::{self, Class};
use dock_tests::day::Day;
use dock_tests::flat;

/// Times all days of all classes, and prints a line for each job with each class.
pub fn compare() -> Vec<Row> {
    println!("\n{}", table::of_classes());
    let mut rows = vec![];
    for class in &classes::ALL {
        let days = Vec::from_iter(class.days());
        println!("\n{}: {}\n  {}", class.name, class.about, outcomes(class, &days));
        for job in &NOT_CLEARED {
            let of_class = times(class, job, &days);
            if !of_class.is_empty() {
                println!("{}", table::class_line(job.name, &of_class));
            }
            rows.extend(of_class);
        }
    }
    rows
}

/// The times of a job with each of a class's days.
fn times(class: &Class, job: &Job, days: &[Day]) -> Vec<Row> {
    let mut rows = vec![];
    for (seed, list) in (1..).zip(days) {
        let fields = flat::of_day(list);
        if job.is_for(&fields) {
            let times = job.compare(&mut job.programs(&fields), &OF_MANY);
            let day = format!("{} {seed}", class.name);
            rows.push(Row { day, number: class.number, job: job.name, times });
        }
    }
    rows
}

/// What narrowing makes of a class's days, in words. Each must be answered as the class says.
fn outcomes(class: &Class, days: &[Day]) -> String {
    let outcomes = Vec::from_iter(days.iter().map(outcome));
    for (seed, outcome) in (1..).zip(&outcomes) {
        assert_eq!(outcome.number, class.number, "{}, seed {seed}", class.name);
    }
    let rounds = range(outcomes.iter().map(|outcome| outcome.rounds as u64));
    let moves = range(outcomes.iter().map(|outcome| outcome.moves));
    match class.number {
        0 => format!("settled, rounds {rounds}, moves {moves}"),
        9 => "refused by 9".to_string(),
        number => format!("refused by {number} in rounds {rounds}, after moves {moves} of the rounds before"),
    }
}

/// The least and the greatest of some numbers.
fn range(numbers: impl Iterator<Item = u64> + Clone) -> String {
    let (least, most) = (numbers.clone().min(), numbers.max());
    match (least, most) {
        (Some(least), Some(most)) if least < most => format!("{least} to {most}"),
        _ => least.map_or(String::new(), |least| least.to_string()),
    }
}
