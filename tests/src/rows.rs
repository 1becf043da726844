//! Rows of numbers of another length than a list's, which every call that takes a row refuses as 100, carrying 451,
//! before all else.

use crate::abi::Answer;
use crate::day::{Day, Refusal};
use crate::flat::{self, Fields, OPENING};
use crate::samples::boxes;
use crate::{check, values};

/// Lengths that no row of a list has. 450 numbers were a list before it had an opening minute.
pub const WRONG: [usize; 10] = [0, 1, 2, 3, 10, 449, 450, 452, 902, 1000];

/// What is answered to such a row.
pub fn refused() -> Answer {
    check::refusing(&Refusal::RowLength { numbers: flat::SIZE })
}

/// Lists that a call would accept, and those that it would refuse: by the value check, or by their windows.
pub fn lists() -> Vec<Fields> {
    let days = [
        boxes(12, "p[0,12)4 w[2,8)3 p[3,6)2"),
        Day { opening: 2, ..boxes(12, "w[2,8)3 p[3,6)2") },
        boxes(10, "p[2,5)2 p[2,5)2"),
        boxes(6, "w[0,6)3 p[2,4)2"),
        boxes(1, ""),
    ];
    let wrong = values::wrong().map(|(_, fields)| fields);
    days.iter().map(flat::of_day).chain(wrong).chain([[0; flat::SIZE]]).collect()
}

/// The first numbers of a row, so many of them, with zeros after them if that is more than it has.
pub fn of_length(row: &[u32], numbers: usize) -> Vec<u32> {
    let mut row = row.to_vec();
    row.resize(numbers, 0);
    row
}

/// A list in the former 450 numbers: H, n, then the places.
pub fn former(fields: &Fields) -> Vec<u32> {
    [&fields[..OPENING], &fields[OPENING + 1..]].concat()
}

/// All rows of another length that are made of these lists.
pub fn wrong() -> Vec<Vec<u32>> {
    let cut = |fields: &Fields| WRONG.map(|numbers| of_length(fields, numbers));
    lists().iter().flat_map(|fields| cut(fields).into_iter().chain([former(fields)])).collect()
}

/// Numbers before and behind a row that is lent to a call, which it has no business with.
const MARGIN: [u32; 460] = [0xEEEE_EEEE; 460];

/// Lends a row of so many numbers to a call. All of them, and what stands beside them, must stay as they were.
#[track_caller]
pub fn stays(numbers: usize, call: impl FnOnce(&mut [u32]) -> Answer) -> Answer {
    let row: Vec<u32> = (0xD0C5_0000..).take(numbers).collect();
    let mut memory = [&MARGIN[..], &row, &MARGIN].concat();
    let before = memory.clone();
    let answer = call(&mut memory[MARGIN.len()..][..numbers]);
    assert!(memory == before, "a row of {numbers} numbers is written");
    answer
}
