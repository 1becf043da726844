//! The limits of a report: inputs around 966 bytes, days without entries and full ones, numbers of many
//! digits, and how long a text can be.

use dock_tests::check_report::report;
use dock_tests::day::{Day, LONGEST_DAY, LONGEST_LIST, MOST_ENTRIES};
use dock_tests::random::{self, Random};
use dock_tests::report::{ENOUGH, LONGEST_INPUT};
use dock_tests::samples::{self, boxes, windows};
use dock_tests::writer;

/// A longest list has a plan, with any byte after it one is left over, and what follows makes no difference.
#[test]
fn inputs_of_965_966_967_and_5000_bytes() {
    let list = writer::form(&samples::longest());
    assert_eq!(list.len(), LONGEST_LIST);
    assert!(report(&list).starts_with("day 1440 entries 64 moves 0 broken 0\n"));
    let mut random = Random::new(231);
    for length in [966, 967, 1_000, 1_927, 5_000, 70_000] {
        for _ in 0..4 {
            let mut input = list.clone();
            input.resize_with(length, || random.any() as u8);
            assert_eq!(report(&input), "refused 8 at 965\n", "{length} bytes");
        }
    }
}

/// The same of a longest list without an opening minute.
#[test]
fn inputs_of_963_964_965_966_and_5000_bytes() {
    let list = writer::form(&samples::longest_from_0());
    assert_eq!(list.len(), 963);
    assert!(report(&list).starts_with("day 1440 entries 64 moves 0 broken 0\n"));
    let mut random = Random::new(234);
    for length in [964, 965, 966, 1_000, 1_927, 5_000, 70_000] {
        for _ in 0..4 {
            let mut input = list.clone();
            input.resize_with(length, || random.any() as u8);
            assert_eq!(report(&input), "refused 8 at 963\n", "{length} bytes");
        }
    }
}

/// The first 966 bytes decide, whatever stands in them and after them.
#[test]
fn the_first_966_bytes_decide() {
    let mut random = Random::new(232);
    let [longest, from_0] = [samples::longest(), samples::longest_from_0()].map(|day| writer::form(&day));
    let starts: [Vec<u8>; 10] = [
        vec![],
        vec![0, 0],
        samples::hex("0C 00"),
        samples::document(),
        samples::opened_document(),
        from_0[..962].to_vec(),
        [&from_0[..948], &[0x1F; 16]].concat(),
        from_0,
        longest[..964].to_vec(),
        [&longest[..950], &[0x1F; 16]].concat(),
    ];
    for start in starts {
        for length in [966, 967, 968, 2_000, 5_000] {
            let mut input = start.clone();
            input.resize_with(length, || random.any() as u8);
            assert_eq!(report(&input), report(&input[..LONGEST_INPUT]), "{length} bytes");
        }
    }
}

/// The bytes of an input before 966 all count: each prefix of a longest list lacks a byte.
#[test]
fn every_prefix_of_a_longest_list() {
    for day in [samples::longest(), samples::longest_from_0()] {
        let list = writer::form(&day);
        for length in 0..list.len() {
            assert_eq!(report(&list[..length]), format!("refused 1 at {length}\n"));
        }
    }
}

#[test]
fn days_without_entries() {
    for h in [1, 9, 10, 99, 100, 999, 1_000, 1_439, 1_440] {
        let text = report(&writer::form(&Day { h, opening: 0, entries: vec![] }));
        assert_eq!(text, format!("day {h} entries 0 moves 0 broken 0\n"));
    }
}

#[test]
fn one_entry_fills_the_day() {
    for h in [1, 10, 255, 256, 1_000, 1_440] {
        for (kind, day) in [("pause", windows(h, &[(0, h, h)])), ("whole", boxes(h, &format!("w[0,{h}){h}")))]
        {
            let lines = format!("0 101 - {kind} 0 {h} {h} {h} 0\n0 {h} 0\n");
            let text = report(&writer::form(&day));
            assert_eq!(text, format!("day {h} entries 1 moves 0 broken 0\n{lines}"));
        }
    }
}

/// The last minute of the longest day ends a run.
#[test]
fn the_last_minute() {
    let text = report(&writer::form(&boxes(1440, "w[1439,1440)1")));
    let lines = "0 101 - whole 1439 1440 1 1440 1439\n1439 1440 0\n";
    assert_eq!(text, format!("day 1440 entries 1 moves 0 broken 0\n{lines}"));
}

/// What 4 and 6 carry has up to three digits.
#[test]
fn a_refusal_at_each_entry() {
    for (mut day, header) in [(samples::longest_from_0(), 3), (samples::longest(), 5)] {
        for place in 0..MOST_ENTRIES {
            let mut wrong = writer::form(&day);
            let map = header + 15 * place;
            wrong[map + 13] = 0;
            wrong[map + 14] = 0;
            assert_eq!(report(&wrong), format!("refused 6 at {map}\n"));
            wrong[map] = 0xFF;
            assert_eq!(report(&wrong), format!("refused 4 at {map}\n"));
        }
        day.entries.truncate(63);
        let mut bytes = writer::form(&day);
        bytes[2] += 1;
        assert_eq!(report(&bytes), format!("refused 1 at {}\n", header + 945));
    }
}

/// Work is not reckoned in 16 bits: 64 entries of 1,440 minutes, and of 1,024, whose work is 65,536.
#[test]
fn work_of_more_than_65535_minutes() {
    let work = |p| report(&writer::form(&windows(LONGEST_DAY, &[(0, LONGEST_DAY, p); MOST_ENTRIES])));
    assert_eq!(work(1_440), "refused 9 from 0 to 1440 work 92160\n");
    assert_eq!(work(1_024), "refused 9 from 0 to 1440 work 65536\n");
    assert_eq!(work(1_023), "refused 9 from 0 to 1440 work 65472\n");
}

/// 10 carries the last place too.
#[test]
fn no_place_for_the_last_entry() {
    let mut entries = vec![(0, 1_000, 1); MOST_ENTRIES - 2];
    entries.push((1_100, 1_101, 1));
    entries.push((1_090, 1_115, 15));
    let day = samples::whole(windows(LONGEST_DAY, &entries), &[63]);
    assert_eq!(report(&writer::form(&day)), "refused 10 entry 63\n");
}

/// More moves than a byte counts, and more broken entries than one digit.
#[test]
fn moves_and_broken_entries_of_more_digits() {
    let text = report(&writer::form(&samples::four_of(&samples::many_moves())));
    assert!(text.starts_with("day 1440 entries 64 moves 272 broken 0\n"), "{text}");
    let text = report(&writer::form(&samples::interrupted(0, true, |_| 2)));
    assert!(text.starts_with("day 1440 entries 64 moves 0 broken 63\n"), "{text}");
}

/// All minutes have four digits, and as many p as the day has room for have two. The head line has 37 bytes.
/// An entry's line has 50, and the digits of its place and p; a run's line has 11, and those of its place.
#[test]
fn a_text_of_5089_bytes() {
    let day = samples::long_text();
    assert_eq!(day.entries.iter().map(|entry| entry.p).sum::<u16>(), 440, "no minute from 1,000 on is idle");
    let text = report(&writer::form(&day));
    assert_eq!(text.lines().count(), 1 + 64 + 127);
    let places = 10 + 2 * 54;
    let entries = 64 * 50 + places + (2 * 39 + 25);
    let runs = 127 * 11 + (2 * places - 2);
    assert_eq!((text.len(), 37 + entries + runs), (5_089, 5_089));
}

/// No text is longer than a head line of 42 bytes, 64 entries of 56 and 127 runs of 13, which is far below
/// the buffer that is enough for any: an entry's arrival or another's end begins a run, so there are at most
/// 127.
#[test]
fn no_text_comes_near_the_buffer_that_is_enough() {
    let longest = "day 1440 entries 64 moves 92096 broken 64\n".len()
        + 64 * "63 4294967295 4294967295 pause 1440 1440 1440 1440 1440\n".len()
        + 127 * "1439 1440 63\n".len();
    assert_eq!(longest, 5_277);
    assert!(longest < ENOUGH);
    let mut random = Random::new(233);
    for _ in 0..30 {
        let text = report(&writer::form(&random::interrupted_day(&mut random)));
        assert!(text.len() <= longest && text.lines().count() <= 1 + 64 + 127, "{text}");
    }
}
