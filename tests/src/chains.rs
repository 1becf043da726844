//! Days of nested whole entries of which each round settles one: document 01's example (a) is the one with
//! two entries of two minutes.

use crate::day::Day;
use crate::samples;

/// A chain of whole entries, r, d and p of each, from the outermost in, and what is left of the day for those
/// inside.
struct Chain {
    entries: Vec<(u16, u16, u16)>,
    settled: Vec<(u16, u16, u16)>,
    free: (u16, u16),
    window: (u16, u16),
}

/// The outermost entry may have any minutes of the day. All others end a minute before it and leave p - 1
/// minutes free until then, one too few, so it comes to the right end. Then the second outermost comes to the
/// left end of what is left in the same way, as all inside it begin a minute later; and so on.
fn chain(h: u16, minutes: &[u16]) -> Chain {
    let mut chain = Chain { entries: vec![], settled: vec![], free: (0, h), window: (0, h) };
    for (turn, &p) in minutes.iter().enumerate() {
        chain.entries.push((chain.window.0, chain.window.1, p));
        let (left, right) = chain.free;
        if turn % 2 == 0 {
            chain.settled.push((right - p, right, p));
            chain.free.1 = right - p;
            chain.window.1 = right - 1;
        } else {
            chain.settled.push((left, left + p, p));
            chain.free.0 = left + p;
            chain.window.0 = left + 1;
        }
    }
    chain
}

/// A day of `n` entries, at least 2, of `p` minutes each, and its settled windows. The outermost entry has
/// the last place, so each round settles one more entry, from the last place to the first: there are n + 1
/// rounds, and 2 n - 2 moves.
pub fn settled_one_by_one(n: usize, p: u16) -> (Day, Day) {
    of_minutes(&vec![p; n])
}

/// The same with these minutes for the entries, from the outermost in.
pub fn of_minutes(minutes: &[u16]) -> (Day, Day) {
    let h = minutes.iter().sum();
    let Chain { mut entries, mut settled, .. } = chain(h, minutes);
    entries.reverse();
    settled.reverse();
    let day = |entries: &[_]| samples::all_whole(samples::windows(h, entries));
    (day(&entries), day(&settled))
}

/// A day of `n` entries of which `n - 2` make a chain around three minutes. The middle one of these is taken
/// by a pause entry, place 1, so that the innermost whole entry, place 0, which needs two, has none when the
/// chain is settled. Each round settles one entry of the chain, until the last of them, place 2, is refused.
pub fn refused_in_the_end(n: usize) -> Day {
    around_a_block(&vec![2; n - 2], 2, 1)
}

/// The same with these minutes for the entries of the chain, from the outermost in. The innermost whole entry needs
/// `inner` minutes, and the pause entry leaves it so many: `before` in front of it, at least one, and at least one after
/// it.
pub fn around_a_block(minutes: &[u16], inner: u16, before: u16) -> Day {
    let block = inner - 1;
    let h = minutes.iter().sum::<u16>() + inner + block;
    let Chain { mut entries, free, window, .. } = chain(h, minutes);
    let first = free.0 + before;
    entries.push((first, first + block, block));
    entries.push((window.0, window.1, inner));
    entries.reverse();
    let places: Vec<_> = (0..entries.len()).filter(|&place| place != 1).collect();
    samples::whole(samples::windows(h, &entries), &places)
}
