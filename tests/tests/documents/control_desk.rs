//! docs/CONTROL-DESK.md: its example is what the library answers, turn by turn.

use crate::{page, rows};
use dock_tests::abi::turn;
use dock_tests::desk::SHARE;
use dock_tests::samples::hex;

/// The list of room 1: H 2, serial 1, whole [0, 2) p 1, and serial 2, pause [0, 1) p 1; and as its first round leaves it.
const LIST: &str = "02 00 02 | 31 01000000 0100 | 19 02000000 0100 0100";
const NARROWED: &str = "02 00 02 | 35 01000000 0100 0100 | 19 02000000 0100 0100";

/// The stages, in the order of their numbers.
const STAGES: [&str; 4] = ["fresh", "begun", "settled", "refused"];

/// The table of the example: the turn, the number handed in, the room, its refusal, the next number, the rows then.
fn told() -> Vec<[String; 6]> {
    let page = page("docs/CONTROL-DESK.md");
    let (_, example) = page.split_once("\n## An example\n").expect("the example");
    let (example, _) = example.split_once("\n## ").expect("its end");
    rows(example).into_iter().map(|row| row.try_into().expect("six cells")).collect()
}

/// What the page says of the rooms' rows.
fn in_words(rooms: &[u32]) -> String {
    let row = |row: &[u32]| format!("{}, {}, {}", STAGES[row[0] as usize], row[1], row[2]);
    rooms.chunks(3).map(row).collect::<Vec<_>>().join("; ")
}

#[test]
fn the_example_is_what_the_library_answers() {
    let mut lists = vec![0xEE; 2 * SHARE];
    lists[SHARE..][..hex(LIST).len()].copy_from_slice(&hex(LIST));
    let mut rooms = [0; 6];
    let mut number = 9;
    let told = told();
    assert_eq!(told.len(), 4);
    for [at, handed, room, refusal, next, after] in told {
        let mut carried = [7; 3];
        let before = rooms;
        let answer = turn(&mut rooms, &mut lists, number, &mut carried);
        assert_eq!((answer.number, &answer.values[2].to_string()), (0, &next), "turn {at}");
        assert!(handed.starts_with(&number.to_string()), "turn {at}: {handed}");
        match answer.values[0] {
            2 => {
                assert_eq!(
                    (room.as_str(), after.as_str()),
                    ("none is unfinished", "as they were"),
                    "turn {at}"
                );
                assert_eq!((before, carried), (rooms, [7; 3]), "turn {at}");
            }
            taken => {
                assert_eq!((taken.to_string(), in_words(&rooms)), (room, after), "turn {at}");
                assert_eq!(carried, [0; 3], "turn {at}: 2 carries 0, and no refusal nothing");
                let words = if answer.values[1] == 0 { "none;" } else { "2" };
                assert!(
                    refusal.starts_with(words) && [0, 2].contains(&answer.values[1]),
                    "turn {at}: {refusal}"
                );
            }
        }
        number = answer.values[2];
    }
    assert_eq!(lists[SHARE..][..hex(NARROWED).len()], hex(NARROWED));
    assert_eq!(hex(NARROWED).len(), hex(LIST).len() + 2, "\"grows by two bytes\"");
}

/// The numbers that the page's lines in Rust hand over: three a room, and 965 bytes.
#[test]
fn the_lines_in_rust_have_the_lengths_lent() {
    let page = page("docs/CONTROL-DESK.md");
    let wanted = format!("dock_turn(rooms.as_mut_ptr(), {}, lists.as_mut_ptr(), {},", 2 * 3, 2 * SHARE);
    assert!(page.contains(&wanted), "{wanted}");
}
