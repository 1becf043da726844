//! Rounds until one makes no move, or row 10. The least ends of both sides say which places stay, so that a round
//! begins with the first that does not.

use super::ends::least_ends;
use super::starts::{greatest_end, least_start};
use super::windows::{Minutes, Windows};
use dock_tests::day::Refusal;

/// Settled windows with the moves made, and least ends in them and in their mirror.
pub struct Settled {
    pub windows: Windows,
    pub moves: u64,
    pub ends: Minutes,
    pub mirrored_ends: Minutes,
}

/// The windows have a plan.
pub fn settle(mut windows: Windows) -> Result<Settled, Refusal> {
    let mut moves = 0;
    loop {
        let ends = least_ends(&windows);
        let mirrored_ends = least_ends(&windows.mirrored());
        let Some(first) = first_mover(&windows, &ends, &mirrored_ends) else {
            return Ok(Settled { windows, moves, ends, mirrored_ends });
        };
        for place in first..windows.n {
            if windows.whole[place] {
                moves += visit(&mut windows, place).ok_or(Refusal::NoPlace { place })?;
            }
        }
    }
}

/// The first whole entry that a visit would move.
fn first_mover(windows: &Windows, ends: &Minutes, mirrored_ends: &Minutes) -> Option<usize> {
    let stays = |place: usize| {
        let p = windows.p[place];
        ends[place] == windows.r[place] + p && mirrored_ends[place] == windows.h - windows.d[place] + p
    };
    (0..windows.n).find(|&place| windows.whole[place] && !stays(place))
}

/// "A changed r is one move, a changed d another."
fn visit(windows: &mut Windows, place: usize) -> Option<u64> {
    let s = least_start(windows, place)?;
    let earlier = std::mem::replace(&mut windows.r[place], s);
    let e = greatest_end(windows, place)?;
    let later = std::mem::replace(&mut windows.d[place], e);
    Some(u64::from(earlier != s) + u64::from(later != e))
}
