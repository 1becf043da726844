//! What is printed.

use crate::before::Before;
use crate::jobs::{self, Times, OF_MANY, OF_ONE};
use dock_tests::classes::DAYS;
use std::fmt::{self, Display, Formatter};
use std::time::Duration;

/// What is compared and how, and the heads of the single days' columns.
pub fn text(before: Option<&Before>) -> String {
    let how = format!(
        "\
Full days of 1,440 minutes and 64 entries, by the proved library and by two Rust programs. All take a list as
451 numbers and write windows, bounds and plan into memory that is lent to them, and each time must answer
and leave the same. 'Now' is the library. Times are in milliseconds.

plan       narrowing, Jackson's schedule of the settled windows, and all bounds
narrowing  settled windows and moves
schedule   Jackson's schedule of the windows as given, where they have one

Plain Rust goes minute by minute and tries every start and end, one after the other. One has a plan if
Jackson's schedule, made minute by minute, is one; that ends when all work is done, or an entry has minutes
left at its d. Row 9 is tested for all intervals, with the work of each added up anew.

Fast Rust has the library's algorithm: jumps over starts and ends, the bounds of all places at once, a
schedule from one arrival or end to the next.

Each program does each job once untimed, and then all in turn,
{}. Every other turn begins with the last
program. Buffers are not cleared first: each holds what the time before left in it. For 'plan, cleared' all
that is lent is set to 0 before each call, and that is timed too.
",
        how_often(&OF_ONE)
    );
    match before {
        None => [how, heads(&PROGRAMS, &["now : plain", "now : fast"])].join("\n"),
        Some(Before { commit, .. }) => {
            let [now, plain, fast] = PROGRAMS;
            let programs = [now, plain, fast, "library before"];
            let ratios = ["now : plain", "now : fast", "now : before"];
            [how, fourth(commit), heads(&programs, &ratios)].join("\n")
        }
    }
}

const PROGRAMS: [&str; 3] = ["library now", "plain Rust", "fast Rust"];

fn how_often(Times { least, most, enough }: &Times) -> String {
    format!("at least {least} times, and up to {most} times within {} milliseconds", enough.as_millis())
}

/// What the fourth program is.
fn fourth(commit: &str) -> String {
    format!(
        "\
'Before' is the proved library as it was at commit {commit}. It is a fourth program, in turn with the others,
and must answer and leave the same as they. It is part of another process, which times its calls by itself.
"
    )
}

/// The widths of a job's name, of a number of times, of a time and of a ratio.
const JOB: usize = 15;
const NUMBER: usize = 6;
const TIME: usize = 10;
const RATIO: usize = 13;

/// The heads of the columns: two for each program, and one for each ratio.
fn heads(programs: &[&str], ratios: &[&str]) -> String {
    let mut names = format!("{:JOB$}{:NUMBER$}", "", "");
    let mut columns = format!("{:JOB$}{:>NUMBER$}", "", "times");
    for name in programs {
        names += &format!("{name:>0$}", 2 * TIME);
        columns += &format!("{:>TIME$}{:>TIME$}", "median", "worst");
    }
    for name in ratios {
        names += &format!("{name:>RATIO$}");
        columns += &format!("{:>RATIO$}", "medians");
    }
    [names, columns].join("\n")
}

/// The places of the programs among a row's times.
const NOW: usize = 0;
const PLAIN: usize = 1;
const FAST: usize = 2;
const BEFORE: usize = 3;

/// A job with a day of which narrowing answers this number, and the times of each program.
pub struct Row {
    pub day: String,
    pub number: u64,
    pub job: &'static str,
    pub times: Vec<Vec<Duration>>,
}

impl Row {
    /// The median of a program's times, in milliseconds.
    fn median(&self, program: usize) -> f64 {
        median_and_worst(&self.times[program])[0]
    }

    /// How many times as long as another program a program took, by medians.
    fn ratio(&self, program: usize, other: usize) -> f64 {
        self.median(program) / self.median(other)
    }

    /// The slowest of a program's calls.
    fn worst(&self, program: usize) -> f64 {
        median_and_worst(&self.times[program])[1]
    }
}

impl Display for Row {
    fn fmt(&self, out: &mut Formatter) -> fmt::Result {
        write!(out, "{:JOB$}{:>NUMBER$}", format!("  {}", self.job), self.times[NOW].len())?;
        for times in &self.times {
            let [median, worst] = median_and_worst(times);
            write!(out, "{median:TIME$.4}{worst:TIME$.4}")?;
        }
        (PLAIN..self.times.len()).try_for_each(|other| write!(out, "{:RATIO$.4}", self.ratio(NOW, other)))
    }
}

/// The median and the worst of these times, in milliseconds.
fn median_and_worst(times: &[Duration]) -> [f64; 2] {
    let times = Vec::from_iter(times.iter().map(|time| time.as_secs_f64() * 1e3));
    [median(&times), times.into_iter().fold(0.0, f64::max)]
}

/// The median of these values, the upper one of an even number.
fn median(values: &[f64]) -> f64 {
    let mut values = values.to_vec();
    values.sort_unstable_by(f64::total_cmp);
    values[values.len() / 2]
}

/// What is said of classes, and the heads of their columns.
pub fn of_classes() -> String {
    let mut names = format!("{:JOB$}", "");
    let mut columns = format!("{:JOB$}", "");
    for name in PROGRAMS {
        names += &format!("{name:>RATIO$}");
        columns += &format!("{:>RATIO$}", "median");
    }
    for (name, _, _) in RATIOS {
        names += &format!("{name:>0$}", 2 * TIME);
        columns += &format!("{:>TIME$}{:>TIME$}", "median", "worst");
    }
    format!(
        "\
Classes of full days, {DAYS} days each, drawn from seeds. A program's time for a day is the median of its turns:
{}. The columns have the medians of the
{DAYS} days' times, and the median and the worst of the {DAYS} days' ratios.

{names}\n{columns}",
        how_often(&OF_MANY)
    )
}

/// The ratios of classes: what is divided by what.
const RATIOS: [(&str, usize, usize); 3] =
    [("now : plain", NOW, PLAIN), ("now : fast", NOW, FAST), ("fast : plain", FAST, PLAIN)];

/// A job with the days of a class.
pub fn class_line(job: &str, rows: &[Row]) -> String {
    let mut line = format!("{:JOB$}", format!("  {job}"));
    for program in [NOW, PLAIN, FAST] {
        line += &format!("{:RATIO$.4}", of_days(rows, |row| row.median(program))[0]);
    }
    for (_, one, other) in RATIOS {
        let [median, worst] = of_days(rows, |row| row.ratio(one, other));
        line += &format!("{median:TIME$.4}{worst:TIME$.4}");
    }
    line
}

/// The median and the greatest of some value of rows.
fn of_days(rows: &[Row], value: impl Fn(&Row) -> f64) -> [f64; 2] {
    let values = Vec::from_iter(rows.iter().map(value));
    [median(&values), values.iter().copied().fold(0.0, f64::max)]
}

/// What is said of sizes, and the heads of their columns.
pub fn of_growth() -> String {
    let mut names = format!("{:16}", "");
    let mut columns = format!("{:>7}{:>9}", "entries", "minutes");
    for job in &jobs::NOT_CLEARED {
        names += &format!("{:>1$}", job.name, 3 * TIME);
        columns += &format!("{:>TIME$}{:>TIME$}{:>TIME$}", "now", "plain", "fast");
    }
    format!("Days of several sizes, timed as classes are: medians of the days' times.\n\n{names}\n{columns}")
}

/// All jobs with days of one size.
pub fn growth_line(h: u16, n: usize, rows: &[Row]) -> String {
    let mut line = format!("{n:7}{h:9}");
    for rows in rows.chunk_by(|one, next| one.job == next.job) {
        for program in [NOW, PLAIN, FAST] {
            line += &format!("{:TIME$.4}", of_days(rows, |row| row.median(program))[0]);
        }
    }
    line
}

/// What is said of searches for an unbroken day, and the heads of their columns.
pub fn of_unbroken() -> String {
    let mut names = format!("{:35}", "");
    let mut columns = format!("{:>7}{:>9}{:>10}{:>9}", "entries", "minutes", "trials", "ending");
    for name in &PROGRAMS[..2] {
        names += &format!("{name:>RATIO$}");
        columns += &format!("{:>RATIO$}", "median");
    }
    names += &format!("{:>RATIO$}{:>2$}", "now : plain", "microseconds a trial", 2 * RATIO);
    columns += &format!("{:>RATIO$}{:>RATIO$}{:>RATIO$}", "medians", "now", "plain");
    format!(
        "\
Searches for an unbroken day by the library and by plain Rust, with the greatest limit where none is named,
timed as classes are. They narrow first, which is part of the time. A trial is one start of one entry, and
plain Rust tests it by Jackson's schedule, made minute by minute.

{names}\n{columns}"
    )
}

/// A search of a day of this size, with its ending and trials.
pub fn unbroken_line(n: usize, h: u16, [ending, trials]: [u64; 2], row: &Row) -> String {
    let ending = ["", "found", "none", "spent"][ending as usize];
    let [now, plain] = [NOW, PLAIN].map(|program| row.median(program));
    let [a_trial, plain_trial] = [now, plain].map(|time| time * 1e3 / trials as f64);
    let ratio = row.ratio(NOW, PLAIN);
    format!(
        "{n:7}{h:9}{trials:10}{ending:>9}{now:RATIO$.4}{plain:RATIO$.4}{ratio:RATIO$.4}{a_trial:RATIO$.3}{plain_trial:RATIO$.3}"
    )
}

/// The greatest of some value of rows, or the least.
struct Extreme {
    name: &'static str,
    least: bool,
    value: fn(&Row) -> f64,
}

impl Extreme {
    /// It, and its day.
    fn of<'a>(&self, rows: impl Iterator<Item = &'a Row>) -> String {
        let order = |one: &&Row, other: &&Row| (self.value)(one).total_cmp(&(self.value)(other));
        let row = if self.least { rows.min_by(order) } else { rows.max_by(order) };
        row.map_or(String::new(), |row| format!("{:.4} {}", (self.value)(row), row.day))
    }
}

/// A line for each job, with these values of its rows.
fn by_job<'a>(title: &str, extremes: [Extreme; 3], rows: impl Iterator<Item = &'a Row> + Clone) -> String {
    let heads = extremes.each_ref().map(|extreme| extreme.name.to_string());
    let line = |name, [one, two, three]: [String; 3]| format!("{name:16}{one:>30}{two:>30}{three:>30}");
    let mut lines = vec![title.to_string(), line(String::new(), heads)];
    for job in &jobs::ALL {
        let rows = rows.clone().filter(|row| row.job == job.name);
        let values = extremes.each_ref().map(|extreme| extreme.of(rows.clone()));
        lines.push(line(format!("  {}", job.name), values));
    }
    lines.join("\n")
}

/// The worst of each job over all days, and over those that are planned, each with its day.
pub fn worst(rows: &[Row]) -> String {
    let greatest = |name, value| Extreme { name, least: false, value };
    let extremes = || {
        [
            greatest("slowest call now", |row| row.worst(NOW)),
            greatest("now : plain", |row| row.ratio(NOW, PLAIN)),
            greatest("now : fast", |row| row.ratio(NOW, FAST)),
        ]
    };
    let planned = rows.iter().filter(|row| row.number == 0);
    [
        by_job("Worst of each job over all full days, by medians of turns:", extremes(), rows.iter()),
        by_job("Worst of each job over those that are planned:", extremes(), planned),
    ]
    .join("\n\n")
}

/// The ratios now : before of each job over all days.
pub fn since(rows: &[Row]) -> String {
    let extreme = |name, least, value| Extreme { name, least, value };
    let extremes = [
        extreme("least of medians", true, |row| row.ratio(NOW, BEFORE)),
        extreme("greatest of medians", false, |row| row.ratio(NOW, BEFORE)),
        extreme("greatest of worsts", false, |row| row.worst(NOW) / row.worst(BEFORE)),
    ];
    by_job("Ratios now : before of each job, and their days:", extremes, rows.iter())
}
