//! The jobs that are timed, and how.

use crate::{fast, plain};
use dock_tests::abi::{self, Answer, Lent};
use dock_tests::day::LONGEST_DAY;
use dock_tests::flat::Fields;
use std::hash::{DefaultHasher, Hash, Hasher};
use std::hint::black_box;
use std::time::{Duration, Instant};

/// Each program does a job so often at least, and more often until so much time has passed or it was done so often.
pub struct Times {
    pub least: usize,
    pub most: usize,
    pub enough: Duration,
}

/// A job with a single day, and with one of many days.
pub const OF_ONE: Times = Times { least: 5, most: 1_000, enough: Duration::from_secs(1) };
pub const OF_MANY: Times = Times { least: 3, most: 50, enough: Duration::from_millis(200) };

/// A call: it gets a list and all that may be lent, and answers.
type Call = fn(&Fields, &mut Lent) -> Answer;

/// A job, as the proved library and as the two Rust programs do it.
pub struct Job {
    pub name: &'static str,
    /// Whether it is done with lists that are refused, too.
    of_refused: bool,
    /// Whether all that is lent is set to 0 before each call, inside the timed part.
    cleared: bool,
    proved: Call,
    plain: Call,
    fast: Call,
}

pub const PLAN: Job = Job {
    name: "plan",
    of_refused: true,
    cleared: false,
    proved: |fields, lent| abi::ask_into(abi::Call::Plan, fields, lent),
    plain: plain::plan,
    fast: fast::plan,
};

const NARROWING: Job = Job {
    name: "narrowing",
    of_refused: true,
    cleared: false,
    proved: |fields, lent| abi::settle_into(fields, &mut lent.narrowed),
    plain: |fields, lent| plain::settle(fields, &mut lent.narrowed),
    fast: |fields, lent| fast::settle(fields, &mut lent.narrowed),
};

const SCHEDULE: Job = Job {
    name: "schedule",
    of_refused: false,
    cleared: false,
    proved: |fields, lent| abi::schedule_into(fields, &mut lent.plan),
    plain: |fields, lent| plain::schedule(fields, &mut lent.plan),
    fast: |fields, lent| fast::schedule(fields, &mut lent.plan),
};

/// Those with a single day. Planning is timed both ways.
pub const ALL: [Job; 4] = [PLAN, Job { name: "plan, cleared", cleared: true, ..PLAN }, NARROWING, SCHEDULE];
/// Those with one of many days.
pub const NOT_CLEARED: [Job; 3] = [PLAN, NARROWING, SCHEDULE];

/// What came of a call: how long it took, what it answered, and a digest of what it left in all that was lent.
pub struct Done {
    pub time: Duration,
    pub answer: Answer,
    pub left: u64,
}

/// A program that has a job to do with a list. Each call does it anew.
pub trait Program {
    fn call(&mut self) -> Done;
}

impl Job {
    /// Whether the job is done with this list.
    pub fn is_for(&self, fields: &Fields) -> bool {
        self.of_refused || abi::overload(fields).number == 0
    }

    /// The proved library that this program is linked with.
    pub fn proved<'a>(&self, fields: &'a Fields) -> Linked<'a> {
        Linked::new(self.proved, self.cleared, fields)
    }

    /// The programs that are part of this one: the library, plain Rust and fast Rust.
    pub fn linked<'a>(&self, fields: &'a Fields) -> [Linked<'a>; 3] {
        [self.proved, self.plain, self.fast].map(|call| Linked::new(call, self.cleared, fields))
    }

    /// The same, each as any program.
    pub fn programs<'a>(&self, fields: &'a Fields) -> Vec<Box<dyn Program + 'a>> {
        self.linked(fields).map(|program| Box::new(program) as Box<dyn Program>).into()
    }

    /// The times that each program takes for this job.
    pub fn compare(&self, programs: &mut [Box<dyn Program + '_>], often: &Times) -> Vec<Vec<Duration>> {
        compare(self.name, programs, often)
    }
}

/// The times that each program takes for a job of this name. They do it in turn, after each did it once.
pub fn compare(name: &str, programs: &mut [Box<dyn Program + '_>], often: &Times) -> Vec<Vec<Duration>> {
    call_each(name, programs, false);
    let mut times = vec![vec![]; programs.len()];
    let start = Instant::now();
    loop {
        let turns = times[0].len();
        if turns >= often.least && (turns >= often.most || start.elapsed() >= often.enough) {
            return times;
        }
        for (times, time) in times.iter_mut().zip(call_each(name, programs, turns % 2 == 1)) {
            times.push(time);
        }
    }
}

/// Does a job with each program. They must answer the same, and leave the same in what is lent. Every other turn begins
/// with the last program, so that the two fast ones follow the slow one alike.
fn call_each(name: &str, programs: &mut [Box<dyn Program + '_>], last_first: bool) -> Vec<Duration> {
    if last_first {
        programs.reverse();
    }
    let mut done = Vec::from_iter(programs.iter_mut().map(|program| program.call()));
    if last_first {
        programs.reverse();
        done.reverse();
    }
    for (place, one) in done.iter().enumerate() {
        let which = || format!("{name}: program {} beside the first", place + 1);
        assert_eq!(one.answer, done[0].answer, "{}", which());
        assert!(one.left == done[0].left, "{} leaves other values", which());
    }
    done.iter().map(|one| one.time).collect()
}

/// A program that is part of this one, and what is lent to it.
pub struct Linked<'a> {
    call: Call,
    cleared: bool,
    fields: &'a Fields,
    lent: Lent,
}

impl Linked<'_> {
    fn new(call: Call, cleared: bool, fields: &Fields) -> Linked<'_> {
        Linked { call, cleared, fields, lent: Lent::untouched(LONGEST_DAY.into()) }
    }

    /// Does the job.
    pub fn answer(&mut self) -> Answer {
        if self.cleared {
            self.lent.plan.fill(0);
            self.lent.narrowed.fill(0);
            self.lent.bounds.fill(0);
        }
        (self.call)(black_box(self.fields), black_box(&mut self.lent))
    }

    /// All that was lent.
    pub fn lent(&self) -> &Lent {
        &self.lent
    }

    /// A digest of what it left in that.
    pub fn left(&self) -> u64 {
        digest(&self.lent)
    }
}

impl Program for Linked<'_> {
    fn call(&mut self) -> Done {
        let start = Instant::now();
        let answer = self.answer();
        let time = start.elapsed();
        Done { time, answer, left: self.left() }
    }
}

/// The same for the same values in both builds of this program, which one compiler makes.
fn digest(Lent { plan, narrowed, bounds }: &Lent) -> u64 {
    let mut hasher = DefaultHasher::new();
    (plan, narrowed, bounds).hash(&mut hasher);
    hasher.finish()
}
