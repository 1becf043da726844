//! The line of a refusal. "Refusals print as `refused 7 at 3` (the number, then what it carries), `refused 9 from 2
//! to 5 work 4`, `refused 10 entry 0`." A refusal that no list has prints like 7.

use dock_tests::abi::{self, Answer};
use dock_tests::check_report::line_stored;
use dock_tests::random::Random;

fn refusal(number: u64, values: [u64; 3]) -> Answer {
    Answer { number, values }
}

/// The library stores this line.
#[track_caller]
fn line(number: u64, values: [u64; 3], text: &str) {
    line_stored(refusal(number, values), 100);
    let (answer, out) = abi::refusal_line(refusal(number, values), 100);
    let found = String::from_utf8_lossy(&out[..answer.values[0] as usize]).into_owned();
    assert_eq!((answer.number, found.as_str()), (0, text));
}

#[test]
fn the_documents_examples() {
    line(7, [3, 0, 0], "refused 7 at 3\n");
    line(9, [2, 5, 4], "refused 9 from 2 to 5 work 4\n");
    line(10, [0, 0, 0], "refused 10 entry 0\n");
}

/// One of each row of document 01's table, and 14 to 19 of document 02; and 100, for a row of another length.
#[test]
fn every_row() {
    for (number, values, text) in [
        (1, [17, 0, 0], "refused 1 at 17\n"),
        (2, [0, 0, 0], "refused 2 at 0\n"),
        (3, [2, 0, 0], "refused 3 at 2\n"),
        (4, [10, 0, 0], "refused 4 at 10\n"),
        (5, [3, 0, 0], "refused 5 at 3\n"),
        (6, [948, 0, 0], "refused 6 at 948\n"),
        (7, [63, 0, 0], "refused 7 at 63\n"),
        (8, [965, 0, 0], "refused 8 at 965\n"),
        (9, [0, 1440, 92_160], "refused 9 from 0 to 1440 work 92160\n"),
        (10, [63, 0, 0], "refused 10 entry 63\n"),
        (11, [1440, 0, 0], "refused 11 at 1440\n"),
        (12, [965, 0, 0], "refused 12 at 965\n"),
        (13, [u64::MAX, 0, 0], "refused 13 at 18446744073709551615\n"),
        (14, [950, 0, 0], "refused 14 at 950\n"),
        (15, [3, 0, 0], "refused 15 at 3\n"),
        (16, [950, 0, 0], "refused 16 at 950\n"),
        (17, [65_535, 0, 0], "refused 17 at 65535\n"),
        (18, [64, 0, 0], "refused 18 at 64\n"),
        (19, [9, 0, 0], "refused 19 at 9\n"),
        (100, [451, 0, 0], "refused 100 at 451\n"),
    ] {
        line(number, values, text);
    }
}

/// Numbers around the powers of ten and of two, up to the greatest of 20 digits.
fn numbers() -> Vec<u64> {
    let tens = (1..20).map(|digits| 10_u64.pow(digits));
    let twos = (1..64).map(|bits| 1_u64 << bits);
    let edges = tens.chain(twos).flat_map(|edge| [edge - 1, edge, edge + 1]);
    edges.chain([0, u64::MAX - 1, u64::MAX]).collect()
}

/// Any number prints like 7, but 9 and 10.
#[test]
fn every_number() {
    for number in (0..1_000).chain(numbers()) {
        line_stored(refusal(number, [3, 5, 7]), 100);
    }
    line(0, [3, 5, 7], "refused 0 at 3\n");
    line(14, [3, 5, 7], "refused 14 at 3\n");
    line(15, [3, 5, 7], "refused 15 at 3\n");
    line(16, [3, 5, 7], "refused 16 at 3\n");
    line(17, [3, 5, 7], "refused 17 at 3\n");
    line(256 + 9, [3, 5, 7], "refused 265 at 3\n");
    line((1 << 32) + 10, [3, 5, 7], "refused 4294967306 at 3\n");
}

#[test]
fn values_of_every_length() {
    for value in numbers() {
        for number in [1, 7, 9, 10, 13, 14, 15, 16, 100, u64::MAX] {
            line_stored(refusal(number, [value, 0, 0]), 100);
            line_stored(refusal(number, [1, value, !value]), 100);
        }
    }
    let most = "18446744073709551615";
    line(9, [u64::MAX; 3], &format!("refused 9 from {most} to {most} work {most}\n"));
}

/// A value that the number does not carry is not looked at.
#[test]
fn only_what_is_carried_is_printed() {
    line(7, [3, u64::MAX, 1], "refused 7 at 3\n");
    line(10, [0, 1, u64::MAX], "refused 10 entry 0\n");
}

/// Every length of buffer, from none to one longer than the longest line.
#[test]
fn buffers_of_every_length() {
    for (number, values) in
        [(7, [3, 0, 0]), (9, [2, 5, 4]), (10, [0; 3]), (9, [u64::MAX; 3]), (u64::MAX, [1; 3])]
    {
        (0..120).for_each(|room| line_stored(refusal(number, values), room));
    }
    for room in [256, 65_536, 65_537] {
        line_stored(refusal(9, [2, 5, 4]), room);
    }
    let answer = abi::refusal_line_into(refusal(10, [0; 3]), &mut []);
    assert_eq!(answer, refusal(12, ["refused 10 entry 0\n".len() as u64, 0, 0]));
}

/// What the buffer held before changes nothing, and stays where no line stands.
#[test]
fn whatever_the_buffer_held() {
    for byte in 0..=u8::MAX {
        let mut out = [byte; 18];
        assert_eq!(abi::refusal_line_into(refusal(7, [3, 0, 0]), &mut out), refusal(0, [15, 0, 0]));
        assert_eq!(out, *[&b"refused 7 at 3\n"[..], &[byte; 3]].concat());
        let mut out = [byte; 14];
        assert_eq!(abi::refusal_line_into(refusal(7, [3, 0, 0]), &mut out), refusal(12, [15, 0, 0]));
        assert_eq!(out, [byte; 14]);
    }
}

#[test]
fn ten_thousand_random_refusals() {
    let mut random = Random::new(241);
    for _ in 0..10_000 {
        let mut any = || {
            let bits = random.below(64);
            random.any() >> bits
        };
        let values = [any(), any(), any()];
        let any = any();
        let number = random.pick(&[9, 9, 10, any % 16, any]);
        let room = random.below(90);
        line_stored(refusal(number, values), room);
    }
}
