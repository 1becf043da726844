//! The buffer that is lent for a report: its text stands at the start and its length is answered, and the
//! bytes after it keep their values. A buffer that is too short is 12 with the bytes needed, and nothing is
//! written; nor is for a list that is turned back, whose refusal is answered.

use dock_tests::check::{number, refusing};
use dock_tests::check_report::stored;
use dock_tests::random::{self, Random};
use dock_tests::report::{outcome, Outcome, ENOUGH};
use dock_tests::{abi, cases, writer};

/// Enough to draw each number four times.
const DRAWS: usize = 5_000;

/// Inputs of every kind with their outcomes: the cases, and four random ones of each number.
fn inputs() -> Vec<(Vec<u8>, Outcome)> {
    let with_outcome = |input: Vec<u8>| {
        let outcome = outcome(&input);
        (input, outcome)
    };
    let mut inputs: Vec<_> = cases::all().into_iter().map(|case| with_outcome(case.list)).collect();
    let mut random = Random::new(221);
    let mut told = [0; 17];
    for _ in 0..DRAWS {
        let day = random::mixed_day(&mut random, 12, 6);
        let day = random::with_doubled_serials(&mut random, day, 8);
        let input =
            if random.once_in(2) { writer::form(&day) } else { random::damaged_form(&mut random, &day) };
        let (input, outcome) = with_outcome(input);
        told[number(&outcome)] += 1;
        if told[number(&outcome)] <= 4 {
            inputs.push((input, outcome));
        }
    }
    let few = [0, 1, 2, 3, 4, 5, 6, 7, 8, 9, 10, 14, 15, 16].into_iter().find(|&number| told[number] < 4);
    assert_eq!(few, None, "a number of which there are not 4 inputs");
    inputs
}

/// Those of them that are planned, with their reports.
fn reports() -> Vec<(Vec<u8>, String)> {
    inputs().into_iter().filter_map(|(input, outcome)| Some((input, outcome.ok()?))).collect()
}

#[test]
fn a_buffer_that_is_exactly_long_enough_is_filled() {
    for (input, text) in reports() {
        let room = text.len();
        stored(&input, &Ok(text), room);
    }
}

#[test]
fn a_buffer_one_byte_too_short_is_12_with_the_bytes_needed() {
    for (input, text) in reports() {
        let room = text.len() - 1;
        stored(&input, &Ok(text), room);
    }
}

/// A list that is turned back is told by its own refusal even then.
#[test]
fn a_buffer_of_no_bytes() {
    for (input, outcome) in inputs() {
        stored(&input, &outcome, 0);
    }
}

/// All lengths of buffer around those of small reports, and of refusals' lines.
#[test]
fn every_length_of_buffer() {
    for (input, outcome) in inputs() {
        let length = outcome.as_ref().map_or(30, String::len);
        if length < 200 {
            (0..length + 10).for_each(|room| stored(&input, &outcome, room));
        }
    }
}

/// Where the parts of a long report end, and one byte before and after.
#[test]
fn buffers_that_end_with_a_line() {
    let long: Vec<_> = reports().into_iter().filter(|(_, text)| text.len() > 2_000).collect();
    assert!(long.len() >= 2, "two full days");
    for (input, text) in long {
        let ends: Vec<_> = text.match_indices('\n').map(|(end, _)| end).step_by(9).collect();
        let outcome = Ok(text);
        for end in ends {
            (end..end + 3).for_each(|room| stored(&input, &outcome, room));
        }
    }
}

/// The length of a buffer counts with all its bytes: 256 and 65,536 are not 0.
#[test]
fn a_buffer_is_not_measured_by_its_lowest_bytes() {
    for (input, text) in reports().into_iter().filter(|(_, text)| text.len() <= 256) {
        let outcome = Ok(text);
        [256, 257, 65_536, 65_537, 65_792].into_iter().for_each(|room| stored(&input, &outcome, room));
    }
}

/// What the buffer held before changes nothing in the text, and all of it stays that is not text, whatever it
/// is.
#[test]
fn whatever_the_buffer_held() {
    let mut random = Random::new(222);
    for (input, outcome) in inputs() {
        let text = outcome.as_deref().unwrap_or("");
        for room in [text.len().saturating_sub(1), text.len(), text.len() + 30, ENOUGH] {
            let any: Vec<u8> = (0..room).map(|_| random.any() as u8).collect();
            for held in [vec![0; room], vec![b'0'; room], vec![b'\n'; room], vec![255; room], any] {
                let mut out = held.clone();
                let answer = abi::report_into(&input, &mut out);
                let written = if text.len() <= room { text.len() } else { 0 };
                match &outcome {
                    Err(refusal) => assert_eq!(answer, refusing(refusal)),
                    Ok(text) => {
                        assert_eq!(answer.values, [text.len() as u64, 0, 0]);
                        assert_eq!(answer.number, if written > 0 { 0 } else { 12 });
                    }
                }
                assert_eq!(out[..written], text.as_bytes()[..written], "{text}");
                assert!(out[written..] == held[written..], "bytes after the text, {text}");
            }
        }
    }
}

/// A shorter report after a longer one leaves the rest of the longer one; 12 and a list's refusal leave all of
/// it.
#[test]
fn one_report_after_the_other_in_the_same_buffer() {
    let mut out = vec![0; 6_000];
    let mut wanted = out.clone();
    for (input, outcome) in inputs() {
        let text = outcome.as_deref().unwrap_or("");
        for room in [6_000, text.len().saturating_sub(1)] {
            let answer = abi::report_into(&input, &mut out[..room]);
            let short = if text.len() <= room { 0 } else { 12 };
            assert_eq!(answer.number, outcome.as_ref().map_or_else(|no| no.code().0.into(), |_| short));
            if answer.number == 0 {
                wanted[..text.len()].copy_from_slice(text.as_bytes());
            }
            assert!(out == wanted, "after {outcome:?}");
        }
    }
}
