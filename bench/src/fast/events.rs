//! Jackson's preemptive schedule, from one arrival or end to the next.

use super::windows::{Minutes, Windows};
use dock_tests::day::{IDLE, MOST_ENTRIES};

/// Writes the schedule, and answers how many whole entries it breaks.
pub fn schedule(windows: &Windows, plan: &mut [u8]) -> u64 {
    let mut left = windows.p;
    let mut ended = [None; MOST_ENTRIES];
    let mut broken = [false; MOST_ENTRIES];
    let mut running = None;
    let mut t = 0;
    while t < windows.h {
        running = taken(windows, &left, running, t);
        let mut until = next_arrival(windows, t);
        if let Some(place) = running {
            until = until.min(t + left[place]);
            left[place] -= until - t;
            broken[place] |= windows.whole[place] && ended[place].is_some_and(|end| end != t);
            ended[place] = Some(until);
        }
        let byte = running.map_or(IDLE, |place| place as u8);
        plan[t as usize..until as usize].fill(byte);
        t = until;
    }
    broken.iter().filter(|&&broken| broken).count() as u64
}

/// The next r after a minute, or the day's end.
fn next_arrival(windows: &Windows, t: u32) -> u32 {
    windows.r[..windows.n].iter().copied().filter(|&r| t < r).min().unwrap_or(windows.h)
}

/// The place that has this minute, where `running` had the one before: "among entries with r reached and minutes left,
/// take the smallest d"; the running one "goes on unless another d is strictly smaller"; of several others "take the
/// one with the fewest minutes left, then the lowest place".
fn taken(windows: &Windows, left: &Minutes, running: Option<usize>, t: u32) -> Option<usize> {
    let mut best = running.filter(|&place| left[place] > 0);
    let goes_on = best;
    for place in 0..windows.n {
        if t < windows.r[place] || left[place] == 0 {
            continue;
        }
        let better = match best {
            None => true,
            Some(best) if windows.d[place] == windows.d[best] => {
                goes_on != Some(best) && left[place] < left[best]
            }
            Some(best) => windows.d[place] < windows.d[best],
        };
        if better {
            best = Some(place);
        }
    }
    best
}
