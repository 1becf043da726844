//! docs/LATE-BOXES.md: its example is what the library answers, call by call.

use crate::{page, rows};
use dock_tests::abi::{Answer, DayCall, Lent};
use dock_tests::check_commits::{call, made};
use dock_tests::commits::{Row, SIZE, STAMP};
use dock_tests::day::{Day, IDLE};
use dock_tests::flat::{self, Numbers};
use dock_tests::report::refusal_line;

/// The boxes of the example: serials 1 and 2 in the morning, 3 and 4 late.
const MORNING: [Numbers; 2] = [[1, 0, 0, 0, 6, 2, 0], [2, 0, 0, 1, 4, 2, 1]];
const THIRD: Numbers = [3, 0, 0, 2, 6, 2, 1];
const FOURTH: Numbers = [4, 0, 0, 0, 6, 1, 0];

/// A row of the example's table: the call, the stamp handed in, the answer, and the stamp then.
type Line = [String; 4];

/// The table of the example, below its heading.
fn told() -> Vec<Line> {
    let page = page("docs/LATE-BOXES.md");
    let (_, example) = page.split_once("\n## An example\n").expect("the example");
    let (example, _) = example.split_once("\n## ").expect("its end");
    rows(example).into_iter().map(|row| row.try_into().expect("four cells")).collect()
}

/// What the page says of an answer: the plan, or the line of the refusal.
fn in_words(answer: &Answer, lent: &Lent) -> String {
    if answer.number != 0 {
        return refusal_line(answer.number, answer.values).trim_end().to_string();
    }
    let place = |&place: &u8| if place == IDLE { "-".to_string() } else { place.to_string() };
    format!("a plan, `{}`", lent.plan.iter().map(place).collect::<Vec<_>>().join(" "))
}

/// Makes a call, and gives what the page must say of it.
fn called(day_call: DayCall, row: &mut Row, entry: &Numbers) -> [String; 3] {
    let mut lent = Lent::untouched(6);
    let answer = call(day_call, row, entry, &mut lent);
    let handed = match day_call {
        DayCall::Ask => String::new(),
        DayCall::Commit(stamp) => stamp.to_string(),
    };
    [handed, in_words(&answer, &lent), row[STAMP].to_string()]
}

#[test]
fn the_example_is_what_the_library_answers() {
    let entries = MORNING.map(|numbers| flat::entry(&numbers)).to_vec();
    let mut row = made(&Day { h: 6, opening: 0, entries });
    let told = told();
    assert_eq!(told[0], ["fresh day", "", "accepted", "0"].map(String::from));
    let calls = [
        (DayCall::Ask, THIRD),
        (DayCall::Ask, FOURTH),
        (DayCall::Commit(0), THIRD),
        (DayCall::Commit(0), FOURTH),
        (DayCall::Ask, FOURTH),
        (DayCall::Commit(1), FOURTH),
    ];
    assert_eq!(told.len(), 1 + calls.len());
    for ([line, handed, answer, stamp], (day_call, entry)) in told[1..].iter().zip(calls) {
        let wanted = called(day_call, &mut row, &entry);
        assert_eq!([handed, stamp], [&wanted[0], &wanted[2]], "{line}");
        let repeated = answer == "the plan that was asked for" && wanted[1].starts_with("a plan");
        assert!(answer.starts_with(&wanted[1]) || repeated, "{line}: {answer}, and not {}", wanted[1]);
    }
}

/// The lengths of rows that the page's lines in Rust hand over, and the stamp's place.
#[test]
fn the_lines_in_rust_have_the_lengths_of_rows() {
    let page = page("docs/LATE-BOXES.md");
    for wanted in [
        format!("dock_fresh(fields.as_ptr(), {}, day.as_mut_ptr(), {SIZE});", flat::SIZE),
        format!("dock_ask(day.as_ptr(), {SIZE}, entry.as_ptr(), {}, plan.as_mut_ptr(), 6,", THIRD.len()),
        format!("dock_commit(day.as_mut_ptr(), {SIZE}, entry.as_ptr(), {},", THIRD.len()),
        format!("day[{STAMP}] is 1"),
    ] {
        assert!(page.contains(&wanted), "{wanted}");
    }
}
