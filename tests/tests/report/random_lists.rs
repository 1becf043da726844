//! The reports of 31,800 lists, fixed by their seeds, against the second report: every byte of the text and
//! of the buffer after it.
//!
//! | Lists | What they are |
//! |---|---|
//! | 8,000 | days of at most 12 minutes and 6 entries, as they are |
//! | 4,000 | such days with serials doubled, so that often one box is in two places; half of them damaged |
//! | 10,000 | such days with one to three damages: bytes cut, added or changed |
//! | 5,000 | such days with one byte of the header changed |
//! | 2,400 | lists of any length, damaged likewise |
//! | 2,000 | inputs of more than 966 bytes: a full list, damaged or not, with bytes added |
//! | 400 | full days, 64 entries and 1,440 minutes, each some hundredths of a second in the library |

use dock_tests::check_report::{number, report};
use dock_tests::day::{Day, LONGEST_DAY, MOST_ENTRIES};
use dock_tests::random::{self, Random};
use dock_tests::report::{text, LONGEST_INPUT};
use dock_tests::told::Told;
use dock_tests::{samples, writer};

/// Makes so many inputs, reports each of them with both programs, and counts what was told.
#[track_caller]
fn reports(inputs: usize, seed: u64, mut make: impl FnMut(&mut Random) -> Vec<u8>) -> Told {
    let mut random = Random::new(seed);
    let mut told = Told::default();
    (0..inputs).for_each(|_| told.count(number(&report(&make(&mut random)))));
    told
}

/// A day of at most 12 minutes and 6 entries.
fn small(random: &mut Random) -> Day {
    match random.below(8) {
        0 => random::crossed_day(random),
        1 | 2 => {
            let h = random.within(3, 12);
            random::nested_day(random, h, 4)
        }
        _ => random::mixed_day(random, 12, 6),
    }
}

#[test]
fn eight_thousand_small_days() {
    let told = reports(8_000, 201, |random| writer::form(&small(random)));
    told.at_least(&[(0, 5_000), (9, 2_000), (10, 400)]);
}

#[test]
fn two_thousand_small_days_with_doubled_serials() {
    let told = reports(2_000, 210, |random| {
        let day = small(random);
        writer::form(&random::with_doubled_serials(random, day, 4))
    });
    told.at_least(&[(0, 500), (9, 100), (10, 50), (14, 500)]);
}

/// All refusals occur, and a damage may also leave a right list with other numbers.
#[test]
fn ten_thousand_damaged_lists() {
    let told = reports(10_000, 202, |random| {
        let day = small(random);
        random::damaged_form(random, &day)
    });
    told.at_least(&[(0, 400), (1, 1_000), (2, 200), (3, 100), (4, 300), (5, 80)]);
    told.at_least(&[(6, 200), (7, 1_500), (8, 800), (9, 150), (10, 40), (15, 100), (16, 20)]);
}

/// Another H moves the end of every window that ends with the day, another n cuts the list or asks for more.
#[test]
fn five_thousand_headers_changed() {
    let told = reports(5_000, 203, |random| {
        let day = small(random);
        random::with_header_changed(random, &day)
    });
    told.at_least(&[(0, 700), (1, 400), (2, 750), (3, 250), (5, 50)]);
    told.at_least(&[(7, 200), (8, 250), (9, 150), (10, 15), (15, 400)]);
}

/// One box in two places and damages together: whatever else is wrong is told first, but for the windows.
#[test]
fn two_thousand_damaged_lists_with_doubled_serials() {
    let told = reports(2_000, 211, |random| {
        let day = small(random);
        let day = random::with_doubled_serials(random, day, 2);
        match random.once_in(2) {
            true => random::damaged_form(random, &day),
            false => random::with_header_changed(random, &day),
        }
    });
    told.at_least(&[(0, 80), (1, 200), (2, 200), (3, 50), (4, 50), (5, 20)]);
    told.at_least(&[(6, 20), (7, 300), (8, 200), (9, 10), (14, 200)]);
}

#[test]
fn twenty_four_hundred_damaged_lists_of_any_length() {
    let told = reports(2_400, 204, random::damaged);
    told.at_least(&[(0, 80), (1, 300), (2, 80), (4, 100), (7, 300), (8, 250), (9, 100), (14, 10), (15, 20)]);
}

/// More than the program takes: a full list, once in four times a longest one, damaged or not, with bytes
/// added.
fn over_the_limit(random: &mut Random) -> Vec<u8> {
    let mut day = random::drawn_day(random, MOST_ENTRIES);
    day.entries.resize_with(MOST_ENTRIES, || random::entry(random, day.h));
    if random.once_in(4) {
        day = samples::longest();
    }
    let mut input = if random.once_in(2) { random::damaged_form(random, &day) } else { writer::form(&day) };
    let more = random.pick(&[1, 40, 5_000]);
    let length = LONGEST_INPUT + 1 + random.below(more);
    if input.len() < length {
        input.resize_with(length, || random.any() as u8);
    }
    input
}

/// None of them is a list, none lacks a byte, and the first 966 bytes alone have the same report. Bytes left over are
/// told before one box in two places.
#[test]
fn two_thousand_inputs_over_966_bytes() {
    let told = reports(2_000, 205, |random| {
        let input = over_the_limit(random);
        assert_eq!(report(&input[..LONGEST_INPUT]), text(&input), "the first 966 bytes of {input:02X?}");
        input
    });
    told.at_least(&[(4, 50), (5, 8), (6, 10), (7, 250), (8, 600)]);
    told.never(&[0, 1, 9, 10, 14]);
}

/// The same list with serials and seals of ten digits.
fn long_numbers(mut day: Day, random: &mut Random) -> Day {
    for entry in &mut day.entries {
        entry.serial |= 1 << 31;
        entry.seal = Some(random.any() as u32 | 1 << 31);
    }
    samples::told_apart(day)
}

/// With minutes to spare or without, all entries whole or one in two or four pause.
#[test]
fn a_hundred_full_days_around_unbroken_plans() {
    let told = reports(100, 206, |random| {
        let (idle, wider, pause) = (random.once_in(2), random.pick(&[15, 40, 200]), random.pick(&[0, 2, 4]));
        writer::form(&random::full_day(random, idle, wider, pause))
    });
    told.at_least(&[(0, 100)]);
}

/// Many windows end together, and one entry in four is whole.
#[test]
fn a_hundred_full_days_around_broken_plans() {
    let told = reports(100, 207, |random| {
        let idle = random.pick(&[0, 4, 20]);
        let mut day = random::planned_day(random, LONGEST_DAY, MOST_ENTRIES, idle, &[1, 5, 15, 60]);
        day.entries.iter_mut().for_each(|entry| entry.whole = random.once_in(4));
        writer::form(&long_numbers(day, random))
    });
    told.at_least(&[(0, 90)]);
}

/// Long texts: a line for each of 64 entries, and more than a hundred runs.
#[test]
fn a_hundred_full_days_of_interrupted_entries() {
    let mut lines = 0;
    let told = reports(100, 208, |random| {
        let day = random::interrupted_day(random);
        let input = writer::form(&long_numbers(day, random));
        lines += text(&input).lines().count();
        input
    });
    told.at_least(&[(0, 100)]);
    assert!(lines > 100 * (1 + MOST_ENTRIES + 100), "{lines} lines");
}

/// Without a place for a whole entry, or overloaded, or planned after all.
#[test]
fn a_hundred_full_days_that_may_be_refused() {
    let told = reports(100, 209, |random| {
        let mut day = random::blocked_day(random);
        if random.once_in(3) {
            random::work_more(random, &mut day);
        }
        writer::form(&day)
    });
    told.at_least(&[(0, 5), (9, 15), (10, 70)]);
}
