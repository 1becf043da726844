//! The second report: the lines of document 01's section "Writer and report", from the second reader,
//! narrowing and bounds. An input is read to its end, however long it is.

use crate::day::{Day, Entry, Refusal, IDLE};
use crate::narrow::{self, Narrowed};
use crate::{bounds, flat, jackson, reader};

/// The bytes that the program takes at most: one more than a longest list has.
pub const LONGEST_INPUT: usize = 966;
/// A buffer in which every report fits.
pub const ENOUGH: usize = 22_352;

/// The report of a planned day, or its refusal.
pub type Outcome = Result<String, Refusal>;

/// How an input is answered.
pub fn outcome(input: &[u8]) -> Outcome {
    let day = reader::read(input)?;
    narrow::settle(&flat::value(&flat::of_day(&day))).map(|narrowed| planned(&narrowed))
}

/// What the program prints for an input.
pub fn text(input: &[u8]) -> String {
    outcome(input).unwrap_or_else(refused)
}

/// "fields one space apart and every line ended by a newline: a head line ..; per entry ..; per maximal run
/// of one entry in the plan"
pub fn planned(Narrowed { day, moves }: &Narrowed) -> String {
    let plan = jackson::schedule(day);
    let head = format!(
        "day {} entries {} moves {moves} broken {}\n",
        day.h,
        day.entries.len(),
        bounds::broken(day, &plan)
    );
    let entries = (0..day.entries.len()).map(|place| entry_line(day, place));
    let runs = runs(&plan).into_iter().map(|(first, end, place)| format!("{first} {end} {place}\n"));
    [head].into_iter().chain(entries).chain(runs).collect()
}

/// "its place, serial, seal or `-`, `pause` or `whole`, settled r, settled d, p, least end, greatest start": minutes of
/// the day, whenever the room opens.
fn entry_line(day: &Day, place: usize) -> String {
    let Entry { serial, seal, r, d, p, whole } = &day.entries[place];
    let seal = seal.map_or("-".to_string(), |seal| seal.to_string());
    let kind = if *whole { "whole" } else { "pause" };
    let (end, start) = (bounds::least_end(day, place), bounds::greatest_start(day, place));
    format!("{place} {serial} {seal} {kind} {r} {d} {p} {end} {start}\n")
}

/// The maximal runs of one entry: "its first minute, its end, the place". Idle minutes are no entry's.
pub fn runs(plan: &[u8]) -> Vec<(usize, usize, u8)> {
    let mut runs = vec![];
    let mut first = 0;
    for run in plan.chunk_by(|one, next| one == next) {
        let end = first + run.len();
        if run[0] != IDLE {
            runs.push((first, end, run[0]));
        }
        first = end;
    }
    runs
}

/// "Refusals print as `refused 7 at 3` (the number, then what it carries), `refused 9 from 2 to 5 work 4`,
/// `refused 10 entry 0`."
pub fn refusal_line(number: u64, [first, second, third]: [u64; 3]) -> String {
    match number {
        9 => format!("refused 9 from {first} to {second} work {third}\n"),
        10 => format!("refused 10 entry {first}\n"),
        _ => format!("refused {number} at {first}\n"),
    }
}

/// The line of a refusal.
pub fn refused(refusal: Refusal) -> String {
    let (number, values) = refusal.code();
    refusal_line(number.into(), values)
}
