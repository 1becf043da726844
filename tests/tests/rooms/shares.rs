//! "the lists stay in a buffer beside it, 965 bytes a room, where a turn writes the narrowed list in its one form. A
//! share is read from its first byte; bytes after the list are not tested."

use crate::room;
use dock_tests::check::refused as read_refused;
use dock_tests::check_desk::{answered, run, turn};
use dock_tests::day::Entry;
use dock_tests::desk::{share, share_of, Desk, BEGUN, FRESH, REFUSED, SETTLED};
use dock_tests::samples::{boxes, hex, longest};
use dock_tests::{reader, writer};

/// Any byte may stand after the list, and stays: reading alone gives 8 there.
#[test]
fn any_byte_after_the_list() {
    let list = writer::form(&boxes(4, "w[0,3)2 w[0,4)2"));
    let narrowed = hex("04 00 02 | 39 65000000 0300 0200 | 35 66000000 0200 0200");
    for byte in 0..=u8::MAX {
        let mut desk = Desk::fresh(&[[&list[..], &vec![byte; 965 - list.len()]].concat()]);
        read_refused(&desk.lists, 8, list.len());
        answered(&mut desk, 0, [0, 0, 0], [0; 3]);
        assert_eq!(desk.row(0), [BEGUN, 1, 1]);
        assert_eq!(desk.lists, [&narrowed[..], &vec![byte; 965 - narrowed.len()]].concat());
    }
}

/// "The one form" of (a) grows from 19 bytes to 21 in round one, over the two bytes that stood after the list. In the
/// rounds after that it keeps its length.
#[test]
fn the_form_grows_over_what_stood_there() {
    let list = writer::form(&boxes(4, "w[0,3)2 w[0,4)2"));
    let junk: Vec<u8> = (list.len()..965).map(|at| (at % 251) as u8).collect();
    let mut desk = Desk::fresh(&[[&list[..], &junk].concat()]);
    assert_eq!((list.len(), &desk.lists[19..23]), (19, &[19, 20, 21, 22][..]));
    for wanted in [[0x02, 0x00, 21, 22], [0x02, 0x00, 21, 22], [0x02, 0x00, 21, 22]] {
        turn(&mut desk, 0);
        assert_eq!(desk.lists[19..23], wanted);
        assert_eq!(desk.lists[23..], junk[4..]);
    }
    assert_eq!(desk.row(0), [SETTLED, 3, 2]);
}

/// Junk that would be an entry: it is none, since the count says so, before and after the form has grown over some of
/// it.
#[test]
fn junk_that_looks_like_an_entry() {
    let list = writer::form(&boxes(4, "w[0,3)2 w[0,4)2"));
    let entry = hex("11 67000000 0100");
    let mut desk = Desk::fresh(&[share(&[&list[..], &entry, &entry].concat())]);
    for row in [[BEGUN, 1, 1], [BEGUN, 2, 2], [SETTLED, 3, 2]] {
        answered(&mut desk, 0, [0, 0, 0], [0; 3]);
        assert_eq!(desk.row(0), row);
        assert_eq!(reader::read_share(desk.share(0)).map(|day| day.entries.len()), Ok(2));
    }
    assert_eq!(desk.lists[21..33], [&entry[2..], &entry].concat());
}

/// An entry in the junk that would clash with one of the list is none either.
#[test]
fn junk_of_the_same_serial() {
    let mut desk = Desk::fresh(&[share(&hex("64 00 01 | 11 09000000 0100 | 11 09000000 0100"))]);
    answered(&mut desk, 0, [0, 0, 0], [0; 3]);
    assert_eq!(desk.row(0), [SETTLED, 1, 0]);
}

/// A longest list fills its share: in the first room and in the last, between others.
#[test]
fn longest_lists() {
    let form = writer::form(&longest());
    assert_eq!(form.len(), 965);
    let mut desk = Desk::fresh(&[form.clone(), room(1, ""), form.clone()]);
    for (number, values) in [(0, [0, 0, 1]), (1, [1, 0, 2]), (2, [2, 0, 0])] {
        answered(&mut desk, number, values, [0; 3]);
    }
    assert_eq!(desk.rows(), [[SETTLED, 1, 0]; 3], "each window is alone");
    assert!(desk.share(0) == form && desk.share(2) == form);
}

/// Place 0 fills [301, 318), so that place 1, whole, which may begin at the opening minute, comes to minute 318: its
/// r is written, and the list grows from 963 bytes to the whole share. The next share begins right behind it.
#[test]
fn a_list_that_grows_to_the_shares_end() {
    let mut day = longest();
    day.entries[0].p = 17;
    day.entries[1].r = 300;
    let before = writer::form(&day);
    day.entries[1].r = 318;
    let after = writer::form(&day);
    assert_eq!((before.len(), after.len()), (963, 965));
    for junk in [[0, 0], [0xFF, 0xFF], [0x11, 0x3F]] {
        let grows = [&before[..], &junk].concat();
        let mut desk = Desk::fresh(&[grows.clone(), room(1, ""), grows]);
        answered(&mut desk, 2, [2, 0, 0], [0; 3]);
        answered(&mut desk, 0, [0, 0, 1], [0; 3]);
        assert_eq!(desk.rows(), [[BEGUN, 1, 1], [FRESH, 0, 0], [BEGUN, 1, 1]]);
        assert!(desk.share(0) == after && desk.share(2) == after);
        assert!(desk.share(1) == room(1, ""));
    }
}

/// The same list with both sides of one entry at their defaults: 961 bytes, and then 965. Place 63, whole, comes
/// between place 0, which has all minutes up to 318, and place 62, which has those up to the day's end.
#[test]
fn a_list_that_grows_by_four_bytes_to_the_shares_end() {
    let mut day = longest();
    day.entries[0].p = 17;
    day.entries[62] = Entry { r: 400, d: 1439, p: 1039, whole: false, ..day.entries[62].clone() };
    (1..62)
        .for_each(|place| (day.entries[place].r, day.entries[place].d, day.entries[place].p) = (319, 381, 1));
    day.entries[63] = Entry { r: 300, d: 1440, p: 19, whole: true, ..day.entries[63].clone() };
    let before = writer::form(&day);
    (day.entries[63].r, day.entries[63].d) = (380, 400);
    let after = writer::form(&day);
    assert_eq!((before.len(), after.len()), (961, 965));
    let mut desk = Desk::fresh(&[[&before[..], &[1, 2, 3, 4]].concat()]);
    answered(&mut desk, 0, [0, 0, 0], [0; 3]);
    assert_eq!(desk.row(0), [BEGUN, 1, 2]);
    assert!(desk.lists == after);
}

/// Serials and seals travel along: a narrowed window is all that changes.
#[test]
fn serials_and_seals_stay() {
    let mut day = boxes(4, "w[0,3)2 w[0,4)2");
    for (seals, serials) in [([Some(0), None], [0, u32::MAX]), ([Some(u32::MAX), Some(7)], [7, 8])] {
        for place in 0..2 {
            (day.entries[place].seal, day.entries[place].serial) = (seals[place], serials[place]);
        }
        let mut settled = day.clone();
        (settled.entries[0].d, settled.entries[1].r) = (2, 2);
        let run = run(&Desk::of(std::slice::from_ref(&day)), 0);
        let form = writer::form(&settled);
        assert_eq!(run.desk.share(0)[..form.len()], form);
        assert_eq!(run.desk.lists[form.len()..], share_of(&day)[form.len()..]);
    }
}

/// A share is read as its bytes are now, at each turn: the control program may put another list there.
#[test]
fn another_list_between_two_turns() {
    let mut desk = Desk::fresh(&[room(4, "w[0,3)2 w[0,4)2")]);
    turn(&mut desk, 0);
    assert_eq!(desk.row(0), [BEGUN, 1, 1]);
    desk.share_mut(0).copy_from_slice(&room(6, "p[2,4)2 w[0,6)3"));
    answered(&mut desk, 0, [0, 10, 0], [1, 0, 0]);
    assert_eq!(desk.row(0), [REFUSED, 1, 1]);
}
