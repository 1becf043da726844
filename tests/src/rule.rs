//! Jackson's rule as facts about a plan, minute by minute: which of the documents' sentences a plan breaks, if it does.
//! No place is searched for. The one that has the minute is held against each other that might have had it.

use crate::day::{Day, IDLE};
use std::ops::AddAssign;

/// In how many minutes several entries shared the smallest d, by the sentence that decided.
#[derive(Clone, Copy, Debug, Default, PartialEq, Eq)]
pub struct Ties {
    /// The entry that had the minute before went on.
    pub running: usize,
    /// It did so though another had fewer minutes left.
    pub running_with_more: usize,
    /// One had fewer minutes left than the others.
    pub fewest: usize,
    /// It was taken though another had a lower place.
    pub fewest_though_higher: usize,
    /// Several had the fewest minutes left, and one of them the lowest place.
    pub lowest: usize,
}

impl AddAssign for Ties {
    fn add_assign(&mut self, other: Ties) {
        self.running += other.running;
        self.running_with_more += other.running_with_more;
        self.fewest += other.fewest;
        self.fewest_though_higher += other.fewest_though_higher;
        self.lowest += other.lowest;
    }
}

impl Ties {
    /// Each of these was met more often than this.
    #[track_caller]
    pub fn more_than(&self, often: usize) {
        let Ties { running, running_with_more, fewest, fewest_though_higher, lowest } = *self;
        let least = [running, running_with_more, fewest, fewest_though_higher, lowest].into_iter().min();
        assert!(least > Some(often), "{self:?}");
    }
}

/// Whether a plan follows the rule in each minute. Then its ties; else the minute, and the sentence that is broken.
pub fn follows(day: &Day, plan: &[u8]) -> Result<Ties, String> {
    if plan.len() != usize::from(day.h) {
        return Err(format!("{} bytes: a plan is H bytes", plan.len()));
    }
    let mut left: Vec<u16> = day.entries.iter().map(|entry| entry.p).collect();
    let mut ties = Ties::default();
    let mut before = IDLE;
    for (minute, &byte) in (0..day.h).zip(plan) {
        let now = Minute { day, left: &left, minute, before };
        ties += now.has(byte).map_err(|broken| format!("minute {minute}: {broken}"))?;
        if byte != IDLE {
            left[usize::from(byte)] -= 1;
        }
        before = byte;
    }
    Ok(ties)
}

/// A minute: what each entry has left, and the byte of the minute before, 255 for none.
struct Minute<'a> {
    day: &'a Day,
    left: &'a [u16],
    minute: u16,
    before: u8,
}

impl Minute<'_> {
    /// "entries with r reached and minutes left"
    fn ready(&self, place: usize) -> bool {
        place < self.left.len() && self.day.entries[place].r <= self.minute && self.left[place] > 0
    }

    /// "The entry that had the minute before, if it has minutes left", which a ready place has.
    fn running(&self, ready: usize) -> bool {
        usize::from(self.before) == ready
    }

    /// Whether this byte has the minute by the rule.
    fn has(&self, byte: u8) -> Result<Ties, String> {
        let place = usize::from(byte);
        let mut others = (0..self.left.len()).filter(|&other| other != place && self.ready(other));
        if byte == IDLE {
            return match others.next() {
                Some(other) => Err(format!("idle, and {other} is ready")),
                None => Ok(Ties::default()),
            };
        }
        if !self.ready(place) {
            return Err(format!("{place} is not ready"));
        }
        let others = Vec::from_iter(others);
        others.iter().try_for_each(|&other| self.before_another(place, other))?;
        let d = |place: usize| self.day.entries[place].d;
        let tied = Vec::from_iter(others.into_iter().filter(|&other| d(other) == d(place)));
        Ok(self.decided(place, &tied))
    }

    /// Whether a ready place may have the minute rather than another one.
    fn before_another(&self, place: usize, other: usize) -> Result<(), String> {
        let d = |place: usize| self.day.entries[place].d;
        if d(other) < d(place) {
            return Err(format!("\"take the smallest d\", {other} and not {place}"));
        }
        if d(other) > d(place) || self.running(place) {
            return Ok(());
        }
        if self.running(other) {
            return Err(format!("\"goes on unless another d is strictly smaller\", {other} and not {place}"));
        }
        if self.left[other] < self.left[place] {
            return Err(format!("\"take the one with the fewest minutes left\", {other} and not {place}"));
        }
        if self.left[other] == self.left[place] && other < place {
            return Err(format!("\"then the lowest place\", {other} and not {place}"));
        }
        Ok(())
    }

    /// The sentence that decided between this place and others with the same d.
    fn decided(&self, place: usize, tied: &[usize]) -> Ties {
        let has = |is: &dyn Fn(usize) -> bool| usize::from(tied.iter().any(|&other| is(other)));
        let mut ties = Ties::default();
        if self.running(place) {
            ties.running = has(&|_| true);
            ties.running_with_more = has(&|other| self.left[other] < self.left[place]);
        } else {
            ties.lowest = has(&|other| self.left[other] == self.left[place]);
            ties.fewest = usize::from(!tied.is_empty()) - ties.lowest;
            ties.fewest_though_higher = ties.fewest & has(&|other| other < place);
        }
        ties
    }
}
