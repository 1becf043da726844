//! What a search climbs towards, and how it is measured: by processor time, and by the least of several calls.

use crate::cpu;
use crate::jobs::{Linked, PLAN};
use dock_tests::abi::{Answer, Lent};
use dock_tests::day::{Day, MOST_ENTRIES};
use dock_tests::flat;
use std::time::Duration;

/// The library's time for a plan, in milliseconds; or its ratio to plain Rust's, of days that are planned.
#[derive(Clone, Copy, Debug, PartialEq, Eq)]
pub enum Aim {
    Time,
    Ratio,
}

/// What one call gives of a day: its time or ratio, and for a ratio the rate, the library's milliseconds for each start
/// and end that plain Rust tries.
pub struct First {
    pub value: f64,
    pub rate: f64,
}

/// Days are compared by so many calls at least, and more up to so many while they take less than so long.
pub struct Care {
    least: usize,
    most: usize,
    enough: Duration,
}

/// A first comparison, and one that must confirm a gain.
pub const QUICK: Care = Care { least: 2, most: 15, enough: Duration::from_millis(8) };
pub const CAREFUL: Care = Care { least: 7, most: 41, enough: Duration::from_millis(40) };

impl Aim {
    /// What one call gives of a day, if the aim does not leave it out. All programs that are called must agree. A day of
    /// a lower rate than this is left out before plain Rust is called, which could take seconds.
    pub fn at_first(self, day: &Day, least_rate: f64) -> Option<First> {
        let fields = flat::of_day(day);
        let [mut now, mut plain, mut fast] = PLAN.linked(&fields);
        let mut least = Least::default();
        let answer = least.call(0, &mut now);
        agree(day, &now, answer, &mut fast);
        if !matches!((self, answer.number), (_, 0) | (Aim::Time, 10)) {
            return None;
        }
        let mut rate = 0.0;
        if self == Aim::Ratio {
            rate = least.0[0].as_secs_f64() * 1e3 / f64::from(tried_by_plain(day, now.lent()));
            if rate < least_rate {
                return None;
            }
            least.call(1, &mut plain);
            agree(day, &now, answer, &mut plain);
        }
        Some(First { value: self.value(&least), rate })
    }

    /// What several calls give of each of some days, in turn.
    pub fn of_each<const N: usize>(self, days: [&Day; N], care: &Care) -> [f64; N] {
        let fields = days.map(flat::of_day);
        let mut programs = fields.each_ref().map(|fields| PLAN.linked(fields));
        let mut least = days.map(|_| Least::default());
        let start = cpu::used();
        for turn in 0..care.most {
            if turn >= care.least && cpu::used() - start > care.enough {
                break;
            }
            for ([now, plain, _], least) in programs.iter_mut().zip(&mut least) {
                least.call(0, now);
                if self == Aim::Ratio {
                    least.call(1, plain);
                }
            }
        }
        least.each_ref().map(|least| self.value(least))
    }

    fn value(self, Least([now, plain, _]): &Least) -> f64 {
        match self {
            Aim::Time => now.as_secs_f64() * 1e3,
            Aim::Ratio => now.as_secs_f64() / plain.as_secs_f64(),
        }
    }
}

/// The least times of the library, of plain Rust and of fast Rust.
struct Least([Duration; 3]);

impl Default for Least {
    fn default() -> Least {
        Least([Duration::MAX; 3])
    }
}

impl Least {
    /// Calls a program once, and keeps its time if that is the least.
    fn call(&mut self, at: usize, program: &mut Linked) -> Answer {
        let start = cpu::used();
        let answer = program.answer();
        self.0[at] = self.0[at].min(cpu::used() - start);
        answer
    }
}

/// How many starts and ends of a planned day plain Rust tries at least: for a whole entry those up to its settled window,
/// for a pause entry those up to its bounds.
fn tried_by_plain(day: &Day, lent: &Lent) -> u32 {
    let mut tried = 0;
    for (place, entry) in day.entries.iter().enumerate() {
        let settled =
            flat::entry(lent.narrowed[flat::at(place)..].first_chunk().expect("a place has its numbers"));
        let (end, start) = (lent.bounds[place], lent.bounds[MOST_ENTRIES + place]);
        tried += 2 + match entry.whole {
            true => u32::from(settled.r - entry.r + entry.d - settled.d),
            false => end - u32::from(entry.r + entry.p) + u32::from(entry.d - entry.p) - start,
        };
    }
    tried
}

/// Calls another program, which must answer the same and leave the same.
fn agree(day: &Day, now: &Linked, answer: Answer, other: &mut Linked) {
    assert_eq!(other.answer(), answer, "{}", words(day));
    assert!(other.left() == now.left(), "other values are left: {}", words(day));
}

/// The library and plain Rust must agree on a day.
pub fn agree_with_plain(day: &Day) {
    let fields = flat::of_day(day);
    let [mut now, mut plain, _] = PLAN.linked(&fields);
    let answer = now.answer();
    agree(day, &now, answer, &mut plain);
}

/// The least of some calls of the library, of plain Rust and of fast Rust, in milliseconds.
pub fn by_all(day: &Day) -> [f64; 3] {
    let fields = flat::of_day(day);
    let mut least = Least::default();
    let mut programs = PLAN.linked(&fields);
    for _ in 0..CAREFUL.least {
        for (at, program) in programs.iter_mut().enumerate() {
            least.call(at, program);
        }
    }
    least.0.map(|time| time.as_secs_f64() * 1e3)
}

/// A day's entries in short: `w[0,3)2 p[1,4)1`, as the tests read them.
pub fn words(day: &Day) -> String {
    let mut words = Vec::with_capacity(MOST_ENTRIES);
    for entry in &day.entries {
        let kind = if entry.whole { 'w' } else { 'p' };
        words.push(format!("{kind}[{},{}){}", entry.r, entry.d, entry.p));
    }
    words.join(" ")
}
