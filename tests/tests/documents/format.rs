//! docs/FORMAT.md: its two examples are the cases `document` and `opening`, byte by byte, its map bytes are those that the
//! reader takes, and its lengths and its row of numbers are the tests' own.

use crate::{in_one_line, page, rows};
use dock_tests::cases::{self, Case};
use dock_tests::day::{Day, Entry, Refusal, LONGEST_LIST, MOST_ENTRIES};
use dock_tests::flat::{self, SIZE, WIDTH};
use dock_tests::reader;
use dock_tests::report::LONGEST_INPUT;
use dock_tests::samples::hex;

fn format_page() -> String {
    page("docs/FORMAT.md")
}

/// The parts of the page that have the examples, and the case that each of them is.
fn examples() -> [(String, Case); 2] {
    let page = format_page();
    let (_, parts) = page.split_once("\n## An example\n").expect("the examples");
    let (parts, _) = parts.split_once("\n## ").expect("their end");
    let (first, second) = parts.split_once("\n### A room that opens later\n").expect("the second example");
    let case = |name: &str| cases::of(&cases::folder(), name.to_string());
    [(first.to_string(), case("document")), (second.to_string(), case("opening"))]
}

#[test]
fn the_examples_bytes_in_one_row() {
    for (part, case) in examples() {
        let row = part.lines().find(|line| line.starts_with("    0C 00 ")).expect("the bytes");
        assert_eq!(hex(row), case.list, "{}", case.name);
    }
}

/// | From byte | Bytes | What they say |. The first example has all its bytes there, the second its header and map bytes.
#[test]
fn the_examples_bytes_one_by_one() {
    let [first, second] = examples().map(|(part, case)| {
        let (_, table) = part.split_once("| From byte | Bytes | What they say |").expect("the table");
        let (table, _) = table.split_once("\n\n").expect("its end");
        let mut told = vec![];
        for row in rows(table) {
            let (from, bytes) = (row[0].parse().expect("a place"), hex(&row[1]));
            assert!(case.list[from..].starts_with(&bytes), "{row:?} of {}", case.name);
            told.extend(from..from + bytes.len());
        }
        told
    });
    assert_eq!(first, (0..40).collect::<Vec<_>>());
    assert_eq!(second, [0, 1, 2, 3, 4, 5, 12, 25]);
}

/// The bytes that a row of `printf '\x0C\x00'` writes.
#[test]
fn the_examples_commands_write_its_bytes() {
    let [(part, document), _] = examples();
    let written = part.lines().filter_map(|line| line.strip_prefix("    printf '")?.split('\'').next());
    assert_eq!(hex(&written.collect::<String>().replace("\\x", " ")), document.list);
}

#[test]
fn the_examples_reports() {
    for (part, case) in examples() {
        assert!(part.contains(&format!("```\n{}```\n", case.report)), "{}", case.name);
    }
}

#[test]
fn the_lengths_of_a_list_and_of_the_input() {
    let wanted =
        format!("A list has 3 to {LONGEST_LIST} bytes. The program takes {LONGEST_INPUT} bytes at most");
    assert!(in_one_line(&format_page()).contains(&wanted), "{wanted}");
    assert_eq!(LONGEST_INPUT, LONGEST_LIST + 1);
}

/// | Number | What it says |, of place i where the number is `3 + 7 · i`.
#[test]
fn the_row_of_numbers() {
    let page = format_page();
    let (_, part) = page.split_once("\n## The list as numbers\n").expect("the part");
    let wanted = format!("takes and gives a list as a row of {SIZE} numbers of 32 bits");
    assert!(in_one_line(part).contains(&wanted), "{wanted}");
    let wanted = format!("One of another length than {SIZE} is refused with 100");
    assert!(in_one_line(part).contains(&wanted), "{wanted}");
    let numbers = flat::of_day(&in_the_last_place());
    let place = MOST_ENTRIES - 1;
    let of_place = format!("of place i, from 0 to {place}: the serial");
    let wanted = [
        ("H", 900),
        ("n", 64),
        ("the opening minute, 0 if there is none", 300),
        (&of_place, 501),
        ("1 if it has a seal, else 0", 1),
        ("the seal's number, 0 if there is none", 77),
        ("r", 310),
        ("d", 320),
        ("p", 4),
        ("1 if it is whole, 0 if it is pause", 1),
    ];
    let (table, _) = part.split_once("\n\n-").expect("the table's end");
    let found = rows(table).into_iter().map(|row| {
        let at = match row[0].strip_suffix(&format!(" + {WIDTH} · i")) {
            Some(first) => first.parse::<usize>().expect("a number") + WIDTH * place,
            None => row[0].parse().expect("a number"),
        };
        (row[1].clone(), numbers[at])
    });
    assert_eq!(found.collect::<Vec<_>>(), wanted.map(|(words, number)| (words.to_string(), number)));
}

/// A list of which the last place has a number of its own in each field.
fn in_the_last_place() -> Day {
    let last = Entry { serial: 501, seal: Some(77), r: 310, d: 320, p: 4, whole: true };
    let mut entries = vec![Entry::default(); MOST_ENTRIES - 1];
    entries.push(last);
    Day { h: 900, opening: 300, entries }
}

/// "- pause: `11 13 ..`", "- whole: `31 33 ..`"
#[test]
fn the_map_bytes_are_those_that_are_taken() {
    let page = format_page();
    let listed = |kind: &str| {
        let line =
            page.lines().find_map(|line| line.strip_prefix(&format!("- {kind}: "))).expect("map bytes");
        hex(line.trim_matches('`'))
    };
    let listed = [listed("pause"), listed("whole")].concat();
    let taken = |map: &u8| reader::read(&[0x0C, 0x00, 0x01, *map]) != Err(Refusal::MapByte { place: 3 });
    assert_eq!(listed, (0..=255).filter(taken).collect::<Vec<u8>>());
}
