//! Rows and shares of rooms, right or wrong.

use super::{
    any_drawn_day, crossed_day, damaged_form, mixed_day, nested_day, small_day, with_doubled_serials,
};
use super::{damaged_opened, entry, shuffle, with_header_changed, Random};
use crate::chains;
use crate::day::{Day, Entry};
use crate::desk::{Desk, Row, FRESH, MOST_COUNTED, SHARE};
use crate::opening;
use crate::samples::told_apart;
use crate::writer;

/// A list of few minutes that a room can have: settled after one round or after several, overloaded, or refused with 10
/// in the first round or in a later one.
pub fn room_list(random: &mut Random) -> Day {
    let day = match random.below(8) {
        0 => crossed_day(random),
        1 => small_day(random),
        2 => nested_day(random, 9, 4),
        3 => {
            let (n, p) = (2 + random.below(4), random.within(2, 3));
            chains::settled_one_by_one(n, p).0
        }
        4 => chains::refused_in_the_end(4 + random.below(3)),
        5 => refused_late(random),
        _ => mixed_day(random, 9, 4),
    };
    let by = random.pick(&[0, 0, 0, 2]);
    opening::later(&day, by)
}

/// `w[0,7)2 p[4,6)1 w[0,7)3 p[1,3)1`, of which 10 comes in the second round, or these boxes in any order, in a day of
/// 7 to 9 minutes.
fn refused_late(random: &mut Random) -> Day {
    let h = random.within(7, 9);
    let mut day = Day { h, opening: 0, entries: vec![] };
    for (r, d, p, whole) in [(0, 7, 2, true), (4, 6, 1, false), (0, 7, 3, true), (1, 3, 1, false)] {
        day.entries.push(Entry { r, d, p, whole, ..entry(random, 1) });
    }
    if random.once_in(2) {
        shuffle(random, &mut day.entries);
    }
    told_apart(day)
}

/// A share that begins with these bytes, as far as it has room for them, and holds junk after them: zeros, the largest
/// bytes, any bytes, map bytes, or the list again.
pub fn share_with_junk(random: &mut Random, list: &[u8]) -> Vec<u8> {
    let sort = random.below(5);
    let mut share = list[..list.len().min(SHARE)].to_vec();
    while share.len() < SHARE {
        share.push(match sort {
            0 => 0,
            1 => u8::MAX,
            2 => random.any() as u8,
            3 => random.pick(&[0x11, 0x1F, 0x31, 0x3F]),
            _ if list.is_empty() => 1,
            _ => list[share.len() % list.len()],
        });
    }
    share
}

/// A share of a right list or of a damaged one, with junk after it.
pub fn share(random: &mut Random) -> Vec<u8> {
    let list = room_list(random);
    let bytes = match random.below(10) {
        0 => with_header_changed(random, &list),
        1 => damaged_form(random, &list),
        2 => {
            let doubled = with_doubled_serials(random, list, 2);
            writer::form(&doubled)
        }
        3 if random.once_in(3) => damaged_opened(random),
        4 if random.once_in(8) => writer::form(&any_drawn_day(random)),
        _ => writer::form(&list),
    };
    share_with_junk(random, &bytes)
}

/// A row of any stage and any counts, many of them near 100,000.
pub fn row(random: &mut Random) -> Row {
    let any = random.any() as u32;
    let stage = random.pick(&[0, 0, 0, 1, 1, 1, 2, 3, 4, 7, 256, u32::MAX, any]);
    [stage, count(random), count(random)]
}

/// A count near a limit, or any.
fn count(random: &mut Random) -> u32 {
    let any = random.any() as u32;
    let near = MOST_COUNTED - 4 + random.below(8) as u32;
    random.pick(&[0, 1, 7, near, near, 65_535, u32::MAX, u32::MAX - 1, any])
}

/// A room number near the rooms' numbers, or any.
pub fn room_number(random: &mut Random, m: usize) -> u64 {
    let near = random.below(m + 3) as u64;
    let any = random.any();
    random.pick(&[near, near, near, near, any, any % 256, near + 256, near + (1 << 32), u64::MAX])
}

/// So many rooms, with rows of any stage, and perhaps some bytes more.
pub fn any_desk(random: &mut Random, m: usize) -> Desk {
    let rows: Vec<Row> = (0..m).map(|_| row(random)).collect();
    let shares: Vec<Vec<u8>> = (0..m).map(|_| share(random)).collect();
    let mut desk = Desk::new(&rows, &shares);
    for _ in 0..random.pick(&[0, 0, 1, 964, 965, 2_000]) {
        desk.lists.push(random.any() as u8);
    }
    desk
}

/// So many fresh rooms, both counts 0.
pub fn fresh_desk(random: &mut Random, m: usize) -> Desk {
    let shares: Vec<Vec<u8>> = (0..m).map(|_| share(random)).collect();
    let mut desk = Desk::fresh(&shares);
    desk.carried = [random.any(), random.any(), random.any()];
    assert!(desk.rows().iter().all(|row| *row == [FRESH, 0, 0]));
    desk
}
