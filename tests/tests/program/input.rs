//! How the program reads: a pipe delivers pieces, and 966 bytes are all that it takes.

use dock_tests::cases::{self, Case};
use dock_tests::program::{connected, fed, output, wrote};
use dock_tests::report::LONGEST_INPUT;
use std::fs::File;
use std::io::Seek;
use std::process::Stdio;
use std::thread;
use std::time::Duration;

fn case(name: &str) -> Case {
    cases::of(&cases::folder(), name.to_string())
}

/// Gives the program these pieces, with pauses in which it can do nothing but wait for more. It must be there
/// to take each of them.
#[track_caller]
fn in_pieces(pieces: &[&[u8]]) -> String {
    let (text, complete) = fed(|mut pipe| {
        pieces.iter().all(|piece| {
            thread::sleep(Duration::from_millis(30));
            wrote(&mut pipe, piece)
        })
    });
    assert!(complete, "the program ended before all {} pieces were there", pieces.len());
    text
}

/// One byte, and the rest later; all but one, and that one later.
#[test]
fn two_pieces() {
    for name in [
        "document",
        "seals",
        "field-cut",
        "left-over",
        "clash",
        "full-day",
        "longest-list",
        "longest-list-and-1",
    ] {
        let Case { list, report, .. } = case(name);
        for at in [1, list.len() / 2, list.len() - 1] {
            assert_eq!(in_pieces(&[&list[..at], &list[at..]]), report, "{name} cut at {at}");
        }
    }
}

/// The input's end may come later too.
#[test]
fn a_pause_before_the_end() {
    for name in ["empty-input", "header-cut", "no-entries", "document", "longest-list"] {
        let Case { list, report, .. } = case(name);
        assert_eq!(in_pieces(&[&list, &[]]), report, "{name}");
    }
}

#[test]
fn byte_by_byte() {
    let Case { list, report, .. } = case("document");
    let bytes: Vec<_> = list.chunks(1).collect();
    assert_eq!(in_pieces(&bytes), report);
}

/// What is read later must not go over what was read before.
#[test]
fn many_pieces_of_different_lengths() {
    for name in ["longest-list", "longest-list-and-1", "full-day"] {
        let Case { list, report, .. } = case(name);
        let mut left = &list[..];
        let mut pieces = vec![];
        for length in [2, 1, 100, 3, 255, 1, 256, 7].into_iter().cycle() {
            if left.is_empty() {
                break;
            }
            let (piece, rest) = left.split_at(length.min(left.len()));
            pieces.push(piece);
            left = rest;
        }
        assert_eq!(in_pieces(&pieces), report, "{name}");
    }
}

/// After 966 bytes the program ends though the pipe stays open, and nothing more comes.
#[test]
fn it_does_not_wait_for_more_than_966_bytes() {
    let Case { list, report, .. } = case("longest-list-and-1");
    assert_eq!(list.len(), LONGEST_INPUT);
    let (text, _pipe) = fed(|mut pipe| {
        assert!(wrote(&mut pipe, &list));
        pipe // open until the program has ended
    });
    assert_eq!(text, report);
}

/// The same where bytes come on and on: the writer ends when the program is gone. One that read on would take
/// all of 64 MiB.
#[test]
fn a_never_ending_input() {
    let Case { list, report, .. } = case("far-over");
    let more = [0x11; 65_536];
    let (text, gone) =
        fed(|mut pipe| !wrote(&mut pipe, &list) || (0..1024).any(|_| !wrote(&mut pipe, &more)));
    assert_eq!(text, report);
    assert!(gone, "the program read on");
}

/// From a file too, of which the program takes no more than 966 bytes: whoever reads on finds the others.
#[test]
fn a_file_as_input() {
    for (name, taken) in [("empty-input", 0), ("document", 40), ("longest-list", 965), ("far-over", 966)] {
        let mut file = File::open(cases::folder().join(name).with_extension("list")).expect("a case");
        let shared = file.try_clone().expect("the same file, with one place in it");
        assert_eq!(connected(Stdio::from(shared)), case(name).report, "{name}");
        assert_eq!(file.stream_position().expect("a place"), taken, "bytes taken of {name}");
    }
}

#[test]
fn no_input_at_all() {
    assert_eq!(connected(Stdio::null()), "refused 1 at 0\n");
}

/// Nothing is kept from one run to the next.
#[test]
fn one_run_after_the_other() {
    for name in ["full-day", "empty-input", "document", "greatest-work", "document"] {
        let Case { list, report, .. } = case(name);
        assert_eq!(output(&list), report, "{name}");
    }
}
