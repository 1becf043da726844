//! Random lists, damaged inputs and wild values. Every sequence is fixed by its seed. In a list that is well-formed
//! equal serials stand in windows that share no minute; those that are drawn or doubled may be refused with 14.

mod damage;
mod one_more;
mod rooms;

pub use damage::{damaged, damaged_form, damaged_opened, wild_fields, with_header_changed};
pub use one_more::{first_list, long_list, one_more, room_near, stamp_near};
pub use rooms::{any_desk, fresh_desk, room_list, room_number, row, share, share_with_junk};

use crate::day::{Day, Entry, LONGEST_DAY, MOST_ENTRIES};
use crate::opening;
use crate::samples::told_apart;

/// The generator splitmix64.
pub struct Random(u64);

impl Random {
    pub fn new(seed: u64) -> Random {
        Random(seed)
    }

    pub fn any(&mut self) -> u64 {
        self.0 = self.0.wrapping_add(0x9E37_79B9_7F4A_7C15);
        let mixed = (self.0 ^ self.0 >> 30).wrapping_mul(0xBF58_476D_1CE4_E5B9);
        let mixed = (mixed ^ mixed >> 27).wrapping_mul(0x94D0_49BB_1331_11EB);
        mixed ^ mixed >> 31
    }

    /// A number below `end`, which is not 0.
    pub fn below(&mut self, end: usize) -> usize {
        (self.any() % end as u64) as usize
    }

    /// A number from `low` to `high`, both included.
    pub fn within(&mut self, low: u16, high: u16) -> u16 {
        low + self.below(usize::from(high - low) + 1) as u16
    }

    /// True once in `times`.
    pub fn once_in(&mut self, times: usize) -> bool {
        self.below(times) == 0
    }

    pub fn pick<T: Copy>(&mut self, from: &[T]) -> T {
        from[self.below(from.len())]
    }

    /// A generator beside this one, which stays as it is.
    fn beside(&self) -> Random {
        Random(self.0 ^ 0x0F0E_2026)
    }

    fn wide(&mut self) -> u32 {
        let any = self.any() as u32;
        self.pick(&[0, 1, any % 4, any, u32::MAX])
    }
}

/// A count of days by what is answered of them.
pub trait Count: Default {
    fn count(&mut self, day: &Day);
}

/// Makes so many random days, holds each against this check, and counts them.
pub fn each_of<S: Count, T>(
    days: usize,
    seed: u64,
    make: impl Fn(&mut Random) -> Day,
    check: impl Fn(&Day) -> T,
) -> S {
    let mut random = Random::new(seed);
    let mut seen = S::default();
    for _ in 0..days {
        let day = make(&mut random);
        check(&day);
        seen.count(&day);
    }
    seen
}

/// A list of at most `most` entries with the serials as they are drawn: one may stand in windows that share a
/// minute, and else it is well-formed.
pub fn drawn_day(random: &mut Random, most: usize) -> Day {
    let any = random.within(1, LONGEST_DAY);
    let h = random.pick(&[1, 2, any % 20 + 1, any, LONGEST_DAY]);
    let n = random.below(most + 1);
    Day { h, opening: 0, entries: entries(random, h, n) }
}

/// Such a list: mostly a short one, else one of any length or a full one.
pub fn any_drawn_day(random: &mut Random) -> Day {
    let most = random.pick(&[3, 3, 3, MOST_ENTRIES]);
    let mut day = drawn_day(random, most);
    if random.once_in(8) {
        day.entries.resize_with(MOST_ENTRIES, || entry(random, day.h));
    }
    match random.once_in(3) {
        true => opened(random, day),
        false => day,
    }
}

/// The same list, as it is drawn, in a room that opens at some minute after 0, if the day has one: no window begins or
/// ends before that.
pub fn opened(random: &mut Random, mut day: Day) -> Day {
    let last = day.h - 1;
    if last == 0 {
        return day;
    }
    let any = random.within(1, last);
    day.opening = random.pick(&[1, any.min(9), any, last]);
    for entry in &mut day.entries {
        entry.d = entry.d.max(day.opening + 1);
        entry.r = entry.r.max(day.opening);
        entry.p = entry.p.min(entry.d - entry.r);
    }
    day
}

/// The same day, or once in four times so much later in a day of at most `most` minutes, with the opening minute at
/// which it then begins. That is drawn beside the sequence, so that the days which follow do not depend on it.
fn now_or_later(random: &Random, day: Day, most: u16) -> Day {
    let mut beside = random.beside();
    if day.h < most && beside.once_in(4) {
        return opening::later(&day, beside.within(1, most - day.h));
    }
    day
}

/// A well-formed list of the same sort.
pub fn any_day(random: &mut Random) -> Day {
    told_apart(any_drawn_day(random))
}

/// The same list with serials doubled: each entry but the first has the one of an earlier entry, once in `times`.
pub fn with_doubled_serials(random: &mut Random, mut day: Day, times: usize) -> Day {
    for place in 1..day.entries.len() {
        let earlier = random.below(place);
        if random.once_in(times) {
            day.entries[place].serial = day.entries[earlier].serial;
        }
    }
    day
}

/// So many entries of a day of `h` minutes.
pub fn entries(random: &mut Random, h: u16, n: usize) -> Vec<Entry> {
    (0..n).map(|_| entry(random, h)).collect()
}

/// An entry of a day of `h` minutes, which keeps all rules of an entry alone.
pub fn entry(random: &mut Random, h: u16) -> Entry {
    let d = if random.once_in(3) { h } else { random.within(1, h) };
    let r = if random.once_in(3) { 0 } else { random.within(0, d - 1) };
    let p = if random.once_in(3) { d - r } else { random.within(1, d - r) };
    let seal = if random.once_in(2) { None } else { Some(random.wide()) };
    Entry { serial: random.wide(), seal, r, d, p, whole: random.once_in(2) }
}

/// A well-formed list of at most 8 minutes and 5 entries, with a plan or without one, and perhaps with an opening
/// minute.
pub fn small_day(random: &mut Random) -> Day {
    let h = random.within(1, 8);
    let n = random.below(6);
    if random.once_in(4) {
        let day = told_apart(Day { h, opening: 0, entries: entries(random, h, n) });
        return now_or_later(random, day, 8);
    }
    let idle = random.pick(&[0, 2, 9]);
    let mut day = planned_day(random, h, n, idle, &[1, 2, 4, 8]);
    if random.once_in(2) {
        work_more(random, &mut day);
    }
    now_or_later(random, day, 8)
}

/// A list of `n` entries, or as many as there are minutes, that has a plan. One is made up, idle once in
/// `idle` minutes and never if that is 0, and each window is drawn around its entry's minutes: to the next
/// multiples of one of `grids`, so that many windows end together.
pub fn planned_day(random: &mut Random, h: u16, n: usize, idle: usize, grids: &[u16]) -> Day {
    let n = n.min(usize::from(h));
    let mut entries = entries(random, 1, n);
    let mut minutes = vec![vec![]; n];
    let mut turn = n;
    for minute in 0..h {
        let now = usize::from(minute) * n / usize::from(h);
        if n > 0 && turn != now {
            turn = now;
            minutes[now].push(minute); // each entry has a minute at least
        } else if n > 0 && (idle == 0 || !random.once_in(idle)) {
            let long = random.below(n.div_ceil(8)) * 8; // an eighth of the entries have minutes all day long
            let near = (now + random.below(5)).saturating_sub(2).min(n - 1);
            minutes[if random.once_in(3) { long } else { near }].push(minute);
        }
    }
    shuffle(random, &mut minutes);
    for (entry, minutes) in entries.iter_mut().zip(minutes) {
        let grid = random.pick(grids);
        let end = minutes[minutes.len() - 1] + 1;
        entry.r = minutes[0] / grid * grid;
        entry.d = (end.div_ceil(grid) * grid).min(h);
        entry.p = minutes.len() as u16;
    }
    told_apart(Day { h, opening: 0, entries })
}

/// A list of `n` entries, at least 1 and at most as many as there are minutes, that has a plan in which none
/// of them is broken, so that narrowing does not refuse it. One is made up, with idle minutes or without, and
/// each window reaches up to `wider` minutes further at either side.
pub fn unbroken_day(random: &mut Random, h: u16, n: usize, idle: bool, wider: u16) -> Day {
    let mut ends: Vec<u16> = (1..h).collect();
    shuffle(random, &mut ends);
    ends.truncate(n - 1);
    ends.push(h);
    ends.sort_unstable();
    let mut entries = vec![];
    let mut free = 0;
    for end in ends {
        let p = if idle { random.within(1, end - free) } else { end - free };
        let start = random.within(free, end - p);
        let r = start.saturating_sub(random.within(0, wider));
        let d = (start + p + random.within(0, wider)).min(h);
        entries.push(Entry { r, d, p, ..entry(random, 1) });
        free = end;
    }
    shuffle(random, &mut entries);
    told_apart(Day { h, opening: 0, entries })
}

/// A full day with an unbroken plan, of whole entries but for one in `pause`, and none if that is 0.
pub fn full_day(random: &mut Random, idle: bool, wider: u16, pause: usize) -> Day {
    let mut day = unbroken_day(random, LONGEST_DAY, MOST_ENTRIES, idle, wider);
    day.entries.iter_mut().for_each(|entry| entry.whole = pause == 0 || !random.once_in(pause));
    day
}

/// A full day of whole entries that fill it up to two minutes each, and four pause entries of a minute
/// anywhere: often right where a whole entry must be, which then has no place.
pub fn blocked_day(random: &mut Random) -> Day {
    let mut day = unbroken_day(random, LONGEST_DAY, MOST_ENTRIES - 4, false, 40);
    day.entries.iter_mut().for_each(|entry| {
        entry.whole = true;
        entry.p -= if entry.p > 2 { 2 } else { 0 };
    });
    for _ in 0..4 {
        let r = random.within(0, LONGEST_DAY - 1);
        day.entries.push(Entry { r, d: r + 1, p: 1, whole: false, ..entry(random, 1) });
    }
    shuffle(random, &mut day.entries);
    told_apart(day)
}

/// A full day of entries each of which begins later and ends earlier than the last, so that nearly all of
/// them are interrupted. There is a plan, as the minutes to both sides of an entry are enough for the one
/// around it.
pub fn interrupted_day(random: &mut Random) -> Day {
    let mut day = Day { h: LONGEST_DAY, opening: 0, entries: vec![] };
    let (mut r, mut d) = (0, LONGEST_DAY);
    for _ in 0..MOST_ENTRIES {
        let (before, after) = (random.within(1, 11), random.within(1, 11));
        let p = random.within(before, before + after);
        day.entries.push(Entry { r, d, p, whole: random.once_in(8), ..entry(random, 1) });
        (r, d) = (r + before, d - after);
    }
    shuffle(random, &mut day.entries);
    told_apart(day)
}

/// A full day in which many entries have the same r, d or p, so that ties are frequent, here and in the mirror, and a
/// quarter of them, with a minute each, interrupts the others.
pub fn crowded_day(random: &mut Random) -> Day {
    let mut day = Day { h: LONGEST_DAY, opening: 0, entries: vec![] };
    for place in 0..MOST_ENTRIES as u16 {
        let quarter = random.pick(&[0, 360, 720, 1080]);
        let (r, d, p) = if place % 4 == 0 {
            let r = quarter + 10 + 4 * place;
            (r, r + 1, 1)
        } else {
            let (r, d) = (random.pick(&[0, 0, 20, 60]), random.pick(&[300, 340, 360, 360]));
            (quarter + r, quarter + d, random.pick(&[4, 8, 16, 24]))
        };
        day.entries.push(Entry { r, d, p, ..entry(random, 1) });
    }
    told_apart(day)
}

/// A day of at most `most` minutes and `n` entries, of which three in four or all are whole: windows of any
/// kind, or drawn around a plan that breaks entries or not; and perhaps with an opening minute.
pub fn mixed_day(random: &mut Random, most: u16, n: usize) -> Day {
    let h = random.within(1, most);
    let n = random.below(n + 1);
    let idle = random.pick(&[0, 2, 9]);
    let mut day = match random.below(4) {
        0 => told_apart(Day { h, opening: 0, entries: entries(random, h, n) }),
        1 => unbroken_day(random, h, n.clamp(1, h.into()), idle > 0, h / 2),
        _ => planned_day(random, h, n, idle, &[1, 2, 4, 8]),
    };
    if random.once_in(4) {
        work_more(random, &mut day);
    }
    let mixed = random.once_in(2);
    day.entries.iter_mut().for_each(|entry| entry.whole = !mixed || !random.once_in(4));
    now_or_later(random, day, most)
}

/// Two wide whole entries, and two pause entries of a minute that leave little between them: here 10 comes in
/// round two now and then. Windows drawn around a plan hardly ever do that.
pub fn crossed_day(random: &mut Random) -> Day {
    let mut day = Day { h: 7, opening: 0, entries: vec![] };
    for _ in 0..2 {
        let r = random.within(1, 5);
        let d = random.within(r + 1, r + 2);
        day.entries.push(Entry { r, d, p: 1, whole: false, ..entry(random, 1) });
        let p = random.within(2, 3);
        day.entries.push(Entry { r: 0, d: 7, p, whole: true, ..entry(random, 1) });
    }
    shuffle(random, &mut day.entries);
    told_apart(day)
}

/// A day of 7 to `most` minutes with three wide whole entries that fill most of it, and a pause entry of a fixed minute
/// in its middle, now and then another elsewhere: often its windows are settled, and it has no unbroken plan. Windows
/// drawn around a plan hardly ever are so.
pub fn gapped_day(random: &mut Random, most: u16) -> Day {
    let h = random.within(7, most);
    let mut day = Day { h, opening: 0, entries: vec![] };
    let mut fixed = vec![h / 2 - random.within(0, 1)];
    if random.once_in(4) {
        fixed.push(random.within(0, h - 1));
    }
    for r in fixed {
        day.entries.push(Entry { r, d: r + 1, p: 1, whole: false, ..entry(random, 1) });
    }
    let mut left = h - day.entries.len() as u16;
    for others in [3, 2, 1] {
        let share = left / others;
        let p = random.within((share * 2 / 3).max(2).min(share), share);
        let (r, d) = (random.pick(&[0, 0, 0, 1]), h - random.pick(&[0, 0, 0, 1]));
        day.entries.push(Entry { r, d, p, whole: true, ..entry(random, 1) });
        left -= p;
    }
    shuffle(random, &mut day.entries);
    told_apart(day)
}

/// A day of 3 minutes at least with wide entries, and short ones that interrupt them: many plans of it break
/// whole entries, and pause entries cannot end at once.
pub fn nested_day(random: &mut Random, h: u16, n: usize) -> Day {
    let quarter = h / 4;
    let mut day = Day { h, opening: 0, entries: vec![] };
    for _ in 0..n {
        let (r, d, p) = if random.once_in(2) {
            (random.within(0, quarter), h - random.within(0, quarter), random.within(1, 3.min(h / 2)))
        } else {
            let r = random.within(1, h - 2);
            (r, random.within(r + 1, r + 2), 1)
        };
        day.entries.push(Entry { r, d, p, whole: random.once_in(2), ..entry(random, 1) });
    }
    told_apart(day)
}

/// Puts values in any order.
pub fn shuffle<T>(random: &mut Random, values: &mut [T]) {
    for place in (1..values.len()).rev() {
        values.swap(place, random.below(place + 1));
    }
}

/// Gives more work to an entry whose window has room for it, if there is one.
pub fn work_more(random: &mut Random, day: &mut Day) {
    let mut roomy: Vec<_> = day.entries.iter_mut().filter(|entry| entry.p < entry.d - entry.r).collect();
    if !roomy.is_empty() {
        let chosen = random.below(roomy.len());
        let entry = &mut roomy[chosen];
        entry.p = random.within(entry.p + 1, entry.d - entry.r);
    }
}
