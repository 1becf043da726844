//! A search for days on which the library is slow. It changes a day, keeps what is slower, and begins anew when many
//! changes gave nothing. The seed fixes what is drawn; what is kept depends on measured times, so that two runs of one
//! seed differ. Every day that is tried is planned by the library and by fast Rust, and must be answered alike. Plain
//! Rust is asked with the days of the aim `ratio`, but for those that would take it too long to matter, and with the best
//! day of a climb.

mod aim;
mod change;
mod first;

use crate::outcome;
use aim::{words, Aim, First, CAREFUL, QUICK};
use dock_tests::day::{Day, MOST_ENTRIES};
use dock_tests::random::Random;
use dock_tests::writer;
use std::fs;
use std::time::{Duration, Instant};

/// A climb ends after so many changes without a gain.
const PATIENCE: usize = 2_500;
/// It begins with the best of so many days.
const FIRST: usize = 12;
/// How many of the best days are kept, to begin with them again.
const KEPT: usize = 6;
/// A day is measured again if one call gives such a part of what the day before had; and plain Rust is not called at all
/// with a day that has a lower part of its rate.
const NEARLY: f64 = 0.99;
const RATE: f64 = 0.4;
/// After so many changes without a gain the day is measured anew.
const AGAIN: usize = 50;
/// What is kept has at least such a part of the best of its climb.
const FLOOR: f64 = 0.97;
/// A gain is at least such a part of what was before.
const GAIN: f64 = 1.005;

const USAGE: &str = "usage: bench/climb time|ratio SEED MINUTES FILE [LEAST-ENTRIES [LEAST-WORK]]";

/// Runs a search with these arguments.
pub fn run(arguments: &[&str]) {
    let (aim, file, numbers) = match *arguments {
        [aim, seed, minutes, file] => (aim, file, [seed, minutes, "64", "0"]),
        [aim, seed, minutes, file, entries] => (aim, file, [seed, minutes, entries, "0"]),
        [aim, seed, minutes, file, entries, work] => (aim, file, [seed, minutes, entries, work]),
        _ => panic!("{USAGE}"),
    };
    let aim = match aim {
        "time" => Aim::Time,
        "ratio" => Aim::Ratio,
        _ => panic!("{USAGE}"),
    };
    let [seed, minutes, entries, work] = numbers.map(|word| word.parse::<u64>().expect(USAGE));
    let least = Least { entries: (entries as usize).clamp(1, MOST_ENTRIES), work };
    println!("aim {aim:?}, seed {seed}, minutes {minutes}, entries from {}, work from {work}", least.entries);
    let mut search = Search::new(aim, seed, minutes, least);
    search.run();
    search.end(file);
}

/// How many entries a day has at least, and how many minutes they need together at least.
struct Least {
    entries: usize,
    work: u64,
}

/// A day with its time or ratio, and with its rate.
#[derive(Clone)]
struct Tried {
    day: Day,
    value: f64,
    rate: f64,
}

/// A search: what it climbs towards, what it came to, and how much it tried.
struct Search {
    aim: Aim,
    random: Random,
    least: Least,
    /// The benchmark's days, the best of them last.
    known: Vec<Tried>,
    start: Instant,
    length: Duration,
    /// The best day, and the best ones of climbs, the very best of them first.
    best: Option<Tried>,
    kept: Vec<Tried>,
    tries: u64,
    measured: u64,
    climbs: u64,
    said: u64,
}

impl Search {
    fn new(aim: Aim, seed: u64, minutes: u64, least: Least) -> Search {
        Search {
            aim,
            random: Random::new(seed),
            least,
            known: vec![],
            start: Instant::now(),
            length: Duration::from_secs(60 * minutes),
            best: None,
            kept: vec![],
            tries: 0,
            measured: 0,
            climbs: 0,
            said: 0,
        }
    }

    fn is_over(&self) -> bool {
        self.start.elapsed() >= self.length
    }

    /// Climbs until the time is over.
    fn run(&mut self) {
        self.known = first::known().into_iter().filter_map(|day| self.try_day(day, 0.0)).collect();
        self.known.sort_by(|one, other| one.value.total_cmp(&other.value));
        while !self.is_over() {
            if let Some(first) = self.first() {
                let top = self.climb(first);
                self.keep(top);
            }
            self.climbs += 1;
        }
    }

    /// A day to begin with: in turn the best of the benchmark's days that was not taken yet, the best of some drawn
    /// ones, and the best of some that come of kept ones by many changes.
    fn first(&mut self) -> Option<Tried> {
        let turn = self.climbs % 3;
        if turn == 0 && !self.known.is_empty() {
            return self.known.pop();
        }
        let mut first: Option<Tried> = None;
        for _ in 0..FIRST {
            let day = if turn == 2 && !self.kept.is_empty() {
                let place = self.random.below(self.kept.len());
                let often = self.random.pick(&[3, 6, 12, 24]);
                change::changed_often(&mut self.random, &self.kept[place].day, often, self.least.entries)
            } else {
                first::drawn(&mut self.random, self.least.entries)
            };
            let tried = self.try_day(day, 0.0);
            first = match (first, tried) {
                (Some(first), Some(tried)) if tried.value <= first.value => Some(first),
                (first, tried) => tried.or(first),
            };
        }
        first
    }

    /// A day with what one call gives, if the aim does not leave it out.
    fn try_day(&mut self, day: Day, least_rate: f64) -> Option<Tried> {
        self.tries += 1;
        self.tell_each_minute();
        let work: u64 = day.entries.iter().map(|entry| u64::from(entry.p)).sum();
        if work < self.least.work {
            return None;
        }
        let First { value, rate } = self.aim.at_first(&day, least_rate)?;
        self.measured += 1;
        Some(Tried { day, value, rate })
    }

    /// Changes a day until many changes gave nothing, and gives the best one found. One a little worse is kept now and
    /// then, so that a climb does not end at the first top.
    fn climb(&mut self, mut now: Tried) -> Tried {
        let mut top = now.clone();
        let mut without = 0;
        while without < PATIENCE && !self.is_over() {
            if without % AGAIN == 0 {
                [now.value, top.value] = self.aim.of_each([&now.day, &top.day], &QUICK);
            }
            without += 1;
            let slack = self.random.pick(&[1.0, 1.0, 1.0, 0.998, 0.99, 0.97]);
            let Some(mut next) = self.next(&now, slack) else { continue };
            self.measure(&mut next, &mut now, &mut top);
            if next.value < slack * now.value || next.value < FLOOR * top.value {
                continue;
            }
            now = next;
            if now.value > top.value && self.is_gain(&mut now, &mut top) {
                top = now.clone();
                without = 0;
                self.tell_best(&mut top);
            }
        }
        top
    }

    /// A changed day, if one call gives nearly what the day before has.
    fn next(&mut self, now: &Tried, slack: f64) -> Option<Tried> {
        let day = change::changed(&mut self.random, &now.day, self.least.entries);
        if day == now.day {
            return None;
        }
        self.try_day(day, RATE * now.rate).filter(|next| next.value >= NEARLY * slack * now.value)
    }

    /// Measures days together, since other work may slow down all of them.
    fn measure(&self, next: &mut Tried, now: &mut Tried, top: &mut Tried) {
        if now.day == top.day {
            [next.value, now.value] = self.aim.of_each([&next.day, &now.day], &QUICK);
            top.value = now.value;
        } else {
            let days = [&next.day, &now.day, &top.day];
            [next.value, now.value, top.value] = self.aim.of_each(days, &QUICK);
        }
    }

    /// Whether a day is better than another when both are measured with care.
    fn is_gain(&self, new: &mut Tried, old: &mut Tried) -> bool {
        [new.value, old.value] = self.aim.of_each([&new.day, &old.day], &CAREFUL);
        new.value > GAIN * old.value
    }

    /// Says a day that is better than all days before.
    fn tell_best(&mut self, top: &mut Tried) {
        if let Some(mut best) = self.best.clone() {
            if top.value <= FLOOR * best.value || !self.is_gain(top, &mut best) {
                return;
            }
        }
        self.best = Some(top.clone());
        println!("{} best", self.line());
    }

    /// Keeps the best day of a climb, if it is one of the best of all. Plain Rust must agree on it.
    fn keep(&mut self, top: Tried) {
        if self.best.is_none() {
            self.best = Some(top.clone());
        }
        self.kept.push(top.clone());
        self.kept.sort_by(|one, other| other.value.total_cmp(&one.value));
        self.kept.truncate(KEPT);
        if self.kept.iter().any(|kept| kept.day == top.day) {
            aim::agree_with_plain(&top.day);
        }
    }

    fn tell_each_minute(&mut self) {
        let minute = self.start.elapsed().as_secs() / 60;
        if minute > self.said {
            self.said = minute;
            println!("{}", self.line());
        }
    }

    /// How far the search is.
    fn line(&self) -> String {
        let seconds = self.start.elapsed().as_secs();
        let best = self.best.as_ref().map_or(0.0, |best| best.value);
        let Search { tries, measured, climbs, .. } = self;
        format!("{seconds:5} s, tries {tries}, measured {measured}, climbs {climbs}, best {best:.4}")
    }

    /// Says the best day, with the times of all programs, and writes it to a file as a list.
    fn end(mut self, file: &str) {
        println!("{} at the end", self.line());
        let mut best = self.best.take().expect("a day that was measured");
        for mut other in std::mem::take(&mut self.kept) {
            if self.is_gain(&mut other, &mut best) {
                best = other;
            }
        }
        aim::agree_with_plain(&best.day);
        println!("\n{}", words(&best.day));
        fs::write(file, writer::form(&best.day)).unwrap_or_else(|error| panic!("{file}: {error}"));
        println!("\nentries {}, {}", best.day.entries.len(), outcome(&best.day).words);
        let [now, plain, fast] = aim::by_all(&best.day);
        println!("milliseconds: library {now:.4}, plain Rust {plain:.4}, fast Rust {fast:.4}");
        println!("library : plain {:.4}, library : fast {:.4}", now / plain, now / fast);
    }
}
