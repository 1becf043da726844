//! Holds the static library against the second reader, writer and planner, call by call.

use crate::abi::{self, Answer};
use crate::day::{Day, Interval, Refusal};
use crate::flat::{self, Fields};
use crate::{brute, planner, reader, writer};
use std::fmt::Debug;

/// The answer of a call that succeeds and has nothing to count.
const ACCEPTED: Answer = Answer { number: 0, values: [0; 3] };

/// The answer of a call that refuses.
pub fn refusing(refusal: &Refusal) -> Answer {
    let (number, values) = refusal.code();
    Answer { number: u64::from(number), values }
}

/// The number of an answer, 0 for a success.
pub fn number<T>(answer: &Result<T, Refusal>) -> usize {
    answer.as_ref().map_or_else(|refusal| refusal.code().0 as usize, |_| 0)
}

/// Reads with both programs. Answer and fields must be alike, a refusal must leave the fields as they were,
/// and what is accepted must be written back byte for byte.
#[track_caller]
pub fn read(bytes: &[u8]) -> Result<Day, Refusal> {
    let expected = reader::read(bytes);
    let (answer, fields) = abi::read(bytes);
    let (wanted, wanted_fields) = match &expected {
        Ok(day) => (ACCEPTED, flat::of_day(day)),
        Err(refusal) => (refusing(refusal), abi::untouched_fields()),
    };
    assert_eq!(answer, wanted, "answer to {bytes:02X?}");
    let differs = (0..flat::SIZE).find(|&i| fields[i] != wanted_fields[i]);
    assert_eq!(differs, None, "the first field that is wrong after {bytes:02X?}");
    if expected.is_ok() {
        assert_eq!(write(&fields, bytes.len()).as_deref(), Ok(bytes), "accepted and written back");
    }
    expected
}

/// Reads an input that must be accepted.
#[track_caller]
pub fn accepted(bytes: &[u8]) -> Day {
    read(bytes).unwrap_or_else(|refusal| panic!("{refusal:?} of {bytes:02X?}"))
}

/// The answer must be a refusal with this number, carrying this value.
#[track_caller]
pub fn is_refused<T: Debug>(answer: Result<T, Refusal>, number: u32, carries: usize) {
    let refusal = answer.expect_err("must be refused");
    assert_eq!(refusal.code(), (number, [carries as u64, 0, 0]));
}

/// Reads an input that must be refused with this number, carrying this value.
#[track_caller]
pub fn refused(bytes: &[u8], number: u32, carries: usize) {
    is_refused(read(bytes), number, carries);
}

/// Writes with both programs into `room` bytes. Answer and bytes must be alike: the form at the start, and
/// all else as it was.
#[track_caller]
pub fn write(fields: &Fields, room: usize) -> Result<Vec<u8>, Refusal> {
    let expected = writer::write(&flat::value(fields), room);
    let (answer, out) = abi::write(fields, room);
    let mut wanted_out = abi::untouched_bytes(room);
    let wanted = match &expected {
        Ok(form) => {
            wanted_out[..form.len()].copy_from_slice(form);
            Answer { number: 0, values: [form.len() as u64, 0, 0] }
        }
        Err(refusal) => refusing(refusal),
    };
    assert_eq!(answer, wanted, "answer to {:?} and {room} bytes", &fields[..]);
    assert_eq!(out, wanted_out, "bytes after writing {:?}", &fields[..]);
    expected
}

/// Writes a value that must be written, and gives its form.
#[track_caller]
pub fn written(fields: &Fields, room: usize) -> Vec<u8> {
    write(fields, room).expect("must be written")
}

/// Writes a value that must be refused with this number, carrying this value.
#[track_caller]
pub fn not_written(fields: &Fields, room: usize, number: u32, carries: usize) {
    is_refused(write(fields, room), number, carries);
}

/// Tests a value for overload with both programs. The answers must be alike.
#[track_caller]
pub fn overload(fields: &Fields) -> Result<(), Refusal> {
    let expected = planner::overload(&flat::value(fields));
    let wanted = expected.as_ref().map_or_else(refusing, |()| ACCEPTED);
    assert_eq!(abi::overload(fields), wanted, "overload test of {:?}", &fields[..]);
    expected
}

/// Tests a list for overload that no row but 9 may refuse, and gives the interval shown, if there is one.
#[track_caller]
pub fn shown(day: &Day) -> Option<Interval> {
    match overload(&flat::of_day(day)) {
        Ok(()) => None,
        Err(Refusal::Overloaded(interval)) => Some(interval),
        Err(refusal) => panic!("{refusal:?} of {day:?}"),
    }
}

/// Plans a value with both programs into `room` bytes. Answer and bytes must be alike: the schedule at the
/// start, and all else as it was.
#[track_caller]
pub fn schedule(fields: &Fields, room: usize) -> Result<Vec<u8>, Refusal> {
    let expected = planner::schedule(&flat::value(fields), room);
    let (answer, out) = abi::schedule(fields, room);
    let mut wanted_out = abi::untouched_bytes(room);
    let wanted = match &expected {
        Ok(plan) => {
            wanted_out[..plan.len()].copy_from_slice(plan);
            ACCEPTED
        }
        Err(refusal) => refusing(refusal),
    };
    assert_eq!(answer, wanted, "answer to {:?} and {room} bytes", &fields[..]);
    assert_eq!(out, wanted_out, "bytes after planning {:?}", &fields[..]);
    expected
}

/// Plans a list that must be planned, in as many bytes as it has minutes and in some more, and gives its
/// schedule, which must be a plan.
#[track_caller]
pub fn planned(day: &Day) -> Vec<u8> {
    let fields = flat::of_day(day);
    let h = usize::from(day.h);
    assert_eq!(overload(&fields), Ok(()), "nothing is overloaded in {day:?}");
    let plan = schedule(&fields, h).unwrap_or_else(|refusal| panic!("{refusal:?} of {day:?}"));
    assert_eq!(schedule(&fields, h + 9).as_deref(), Ok(&plan[..]), "in a longer buffer");
    assert!(brute::is_plan(day, &plan), "{plan:?} is no plan of {day:?}");
    plan
}

/// Plans a list that must be refused with 9, and gives the interval shown, the same by both calls.
#[track_caller]
pub fn overloaded(day: &Day) -> Interval {
    let interval = shown(day).expect("must be overloaded");
    let planned = schedule(&flat::of_day(day), usize::from(day.h));
    assert_eq!(planned, Err(Refusal::Overloaded(interval)), "by the other call");
    interval
}

/// Plans a value into `room` bytes that must be refused with this number, carrying this value.
#[track_caller]
pub fn not_planned(fields: &Fields, room: usize, number: u32, carries: usize) {
    is_refused(schedule(fields, room), number, carries);
}

/// Tests a value for overload that must be refused with this number, carrying this value.
#[track_caller]
pub fn test_refused(fields: &Fields, number: u32, carries: usize) {
    is_refused(overload(fields), number, carries);
}
