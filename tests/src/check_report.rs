//! Holds the static library's reports and refusals' lines against the second report, byte for byte.

use crate::abi::{self, Answer};
use crate::check::refusing;
use crate::report::{self, Outcome, ENOUGH};

/// Reports an input with both programs, in a buffer in which every report fits, and gives the text: the report
/// of a planned day, or the line of the refusal that the library answers.
#[track_caller]
pub fn report(input: &[u8]) -> String {
    let outcome = report::outcome(input);
    stored(input, &outcome, ENOUGH);
    outcome.unwrap_or_else(|refusal| {
        line_stored(refusing(&refusal), ENOUGH);
        report::refused(refusal)
    })
}

/// The library's report of an input in `room` bytes is this one; or the refusal is answered, and all bytes are
/// as they were.
#[track_caller]
pub fn stored(input: &[u8], outcome: &Outcome, room: usize) {
    let found = abi::report(input, room);
    match outcome {
        Ok(text) => holds(found, text),
        Err(refusal) => {
            assert_eq!(found.0, refusing(refusal), "answer to {input:02X?} in {room} bytes");
            assert!(found.1 == abi::untouched_bytes(room), "bytes changed by {refusal:?}");
        }
    }
}

/// The library's line of a refusal in `room` bytes is the second report's.
#[track_caller]
pub fn line_stored(refusal: Answer, room: usize) {
    holds(abi::refusal_line(refusal, room), &report::refusal_line(refusal.number, refusal.values));
}

/// The text stands at the buffer's start and its length is answered. If the buffer is too short for it, the
/// answer is 12 with its length. All other bytes are as they were.
#[track_caller]
fn holds((answer, out): (Answer, Vec<u8>), text: &str) {
    let room = out.len();
    let fits = text.len() <= room;
    let mut wanted = abi::untouched_bytes(room);
    if fits {
        wanted[..text.len()].copy_from_slice(text.as_bytes());
    }
    if out != wanted {
        let differs = (0..room).find(|&place| out[place] != wanted[place]);
        let found = String::from_utf8_lossy(&out[..room.min(text.len() + 20)]);
        panic!("byte {differs:?} of {room} is wrong: {found}instead of {text}");
    }
    let number = if fits { 0 } else { 12 };
    assert_eq!(answer, Answer { number, values: [text.len() as u64, 0, 0] }, "in {room} bytes, {text}");
}

/// The number that a text tells, 0 for a planned day.
pub fn number(text: &str) -> usize {
    let refused = text.strip_prefix("refused ");
    refused.map_or(0, |rest| rest.split(' ').next().and_then(|word| word.parse().ok()).expect("a number"))
}
