//! A refusal writes nothing to what was lent, one input and one value for each number (12 is in write_buffer).

use dock_tests::samples::hex;
use dock_tests::{abi, values};

/// An input for each refusal of reading, late in the input where that can be.
#[test]
fn a_refused_input_leaves_the_fields_as_they_were() {
    let after = |rest: &str| [hex("64 00 02 | 3F 01000000 02000000 0300 3200 0100"), hex(rest)].concat();
    let inputs = [
        (1, hex("64 00")),
        (1, after("11 01000000 01")),
        (2, hex("00 00 01 | 11 01000000 0100")),
        (3, hex("64 00 41 | 11 01000000 0100")),
        (4, after("91 01000000 0100")),
        (5, after("15 01000000 0000 0100")),
        (6, after("11 01000000 0000")),
        (7, after("11 01000000 6500")),
        (8, after("11 01000000 0100 | 00")),
        (14, after("11 01000000 0100")),
        (1, hex("64 00 81 07")),
        (15, hex("64 00 81 64 00 | 11 01000000 0100")),
        (16, hex("64 00 82 03 00 | 3F 01000000 02000000 0400 3200 0100 | 15 02000000 0200 0100")),
    ];
    for (number, bytes) in inputs {
        let (answer, fields) = abi::read(&bytes);
        assert_eq!((answer.number, &answer.values[1..]), (number, &[0, 0][..]), "{bytes:02X?}");
        assert!(fields == abi::untouched_fields(), "fields changed by refusal {number}");
    }
}

#[test]
fn a_refused_value_leaves_the_buffer_as_it_was() {
    for (number, fields) in values::wrong() {
        let (answer, out) = abi::write(&fields, 1000);
        assert_eq!(answer.number, number);
        assert!(out == abi::untouched_bytes(1000), "bytes changed by refusal {number}");
    }
}
