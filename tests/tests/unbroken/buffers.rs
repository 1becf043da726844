//! What is lent to the search. "In a longer buffer the bytes after H keep their values." "A refusal writes nothing to any
//! lent buffer." "None and spent leave the plan buffer as it was." The narrowed list, and the starts where a day is found,
//! are written in full.

use dock_tests::abi::{self, SearchLent};
use dock_tests::check_unbroken::{refused, search, searched, ANY, FOUND, NONE, SPENT};
use dock_tests::day::{Day, LONGEST_DAY, MOST_ENTRIES};
use dock_tests::flat::{self, Fields};
use dock_tests::random::{self, Random};
use dock_tests::samples::{boxes, plan, windows};
use dock_tests::{ignored, torn, values};

/// Days with each ending, and a limit that leads to it.
fn days() -> Vec<(u64, u32, Day)> {
    vec![
        (FOUND, 0, boxes(1, "")),
        (FOUND, ANY, boxes(1, "w[0,1)1")),
        (FOUND, 2, boxes(4, "w[0,3)2 w[0,4)2")),
        (FOUND, 9, boxes(4, "w[0,4)2 w[1,3)1")),
        (FOUND, 1, boxes(300, "p[0,300)40 w[100,200)30")),
        (FOUND, 722, boxes(LONGEST_DAY, "w[0,1440)720 w[0,1440)720")),
        (NONE, 78, torn::smallest()),
        (NONE, ANY, torn::smallest()),
        (SPENT, 77, torn::smallest()),
        (SPENT, 0, boxes(4, "w[0,3)2 w[0,4)2")),
        (SPENT, 721, boxes(LONGEST_DAY, "w[0,1440)720 w[0,1440)720")),
    ]
}

/// What may stand in what is lent.
fn contents(room: usize) -> Vec<SearchLent> {
    let others = ignored::contents(room).into_iter().map(|lent| SearchLent {
        starts: lent.bounds[..MOST_ENTRIES].try_into().expect("64 numbers"),
        plan: lent.plan,
        narrowed: lent.narrowed,
    });
    others.chain([SearchLent::untouched(room)]).collect()
}

/// Whatever the buffers held, the answer is the same; a plan and starts are written exactly where a day is found.
#[test]
fn whatever_the_buffers_held_the_answer_is_the_same() {
    for (ending, limit, day) in days() {
        let (fields, h) = (flat::of_day(&day), usize::from(day.h));
        let (answer, wanted) = search(&fields, limit, h);
        assert_eq!((answer.number, answer.values[1]), (0, ending), "limit {limit} of {day:?}");
        for before in contents(h + 3) {
            let mut lent = before.clone();
            assert_eq!(abi::unbroken_into(&fields, limit, &mut lent), answer, "limit {limit} of {day:?}");
            assert!(lent.narrowed == wanted.narrowed, "limit {limit} of {day:?}");
            assert_eq!(lent.plan[h..], before.plan[h..], "bytes after H, limit {limit} of {day:?}");
            if ending == FOUND {
                assert_eq!(lent.plan[..h], wanted.plan, "limit {limit} of {day:?}");
                assert_eq!(lent.starts, wanted.starts, "limit {limit} of {day:?}");
            } else {
                assert!(lent.plan == before.plan, "limit {limit} of {day:?}");
                assert!(lent.starts == before.starts, "limit {limit} of {day:?}");
            }
        }
    }
}

/// Every byte value is kept after H, those of places and 255 too; and all of them where no day is found.
#[test]
fn any_byte_is_kept() {
    let found = flat::of_day(&boxes(4, "w[0,4)2 w[1,3)1"));
    let none = flat::of_day(&torn::smallest());
    for byte in 0..=u8::MAX {
        let mut lent = SearchLent { plan: vec![byte; 9], ..SearchLent::untouched(0) };
        assert_eq!(abi::unbroken_into(&found, ANY, &mut lent).values[1], FOUND);
        assert_eq!(lent.plan, [plan("0 0 1 -"), vec![byte; 5]].concat(), "found over {byte}");
        for (limit, ending) in [(78, NONE), (20, SPENT)] {
            let mut lent = SearchLent { plan: vec![byte; 9], ..SearchLent::untouched(0) };
            assert_eq!(abi::unbroken_into(&none, limit, &mut lent).values[1], ending);
            assert_eq!(lent.plan, [byte; 9], "{ending} over {byte}");
        }
    }
}

/// The rest of the starts is written, also where a list has no whole entry.
#[test]
fn starts_from_place_n_on_are_0() {
    for n in [0, 1, 2, 10, 63, 64] {
        let entries = Vec::from_iter((0..n).map(|place| (place, LONGEST_DAY - place, 1)));
        let mut fields = flat::of_day(&windows(LONGEST_DAY, &entries));
        let used = usize::from(n);
        fields[flat::at(used)..].fill(7);
        let (answer, lent) = abi::unbroken(&fields, 0, LONGEST_DAY.into());
        assert_eq!((answer.number, answer.values), (0, [0, FOUND, 0]), "{n} entries");
        assert_eq!(lent.starts, [0; MOST_ENTRIES], "{n} pause entries");
        assert!(lent.narrowed[flat::at(used)..].iter().all(|&number| number == 0), "{n} entries");
    }
}

/// Row 11, "plan buffer under H bytes", which carries H: before 9 and 10 and whatever the limit, and not for H bytes.
#[test]
fn a_buffer_under_h_bytes_is_11_with_h() {
    let refused_days =
        [boxes(2, "p[0,2)2 w[1,2)1"), boxes(6, "w[0,6)3 p[2,4)2"), boxes(10, "p[2,5)2 p[2,5)2")];
    let searched = days().into_iter().map(|(_, _, day)| day);
    for day in searched.chain(refused_days) {
        let (h, fields) = (usize::from(day.h), flat::of_day(&day));
        for limit in [0, 1, ANY] {
            for room in [0, h / 2, h - 1] {
                refused(&fields, limit, room, 11, h as u64);
            }
        }
        assert_ne!(search(&fields, 10, h).0.number, 11, "{day:?}");
    }
}

/// Of a buffer of 256 bytes or more, and of 65,536 or more, the whole length counts.
#[test]
fn a_buffer_is_not_measured_by_its_lowest_bytes() {
    let fields = flat::of_day(&boxes(300, "p[10,20)3 w[15,40)3"));
    for room in [300, 512, 65_536, 65_536 + 5] {
        assert_eq!(search(&fields, ANY, room).0.values[1], FOUND, "{room} bytes");
    }
    [256, 299].iter().for_each(|&room| refused(&fields, ANY, room, 11, 300));
}

/// A value for each refusal.
fn refused_values() -> Vec<(u64, Fields)> {
    let days = [
        (9, boxes(2, "p[0,2)2 w[1,2)1")),
        (9, boxes(LONGEST_DAY, "w[0,1440)1440 p[700,701)1")),
        (10, boxes(3, "w[0,3)2 w[1,2)1")),
        (10, boxes(7, "w[0,7)2 p[4,6)1 w[0,7)3 p[1,3)1")),
    ];
    values::wrong().into_iter().chain(days.map(|(number, day)| (number, flat::of_day(&day)))).collect()
}

#[test]
fn a_refusal_leaves_every_number_as_it_was() {
    for (number, fields) in refused_values() {
        for (limit, before) in
            [0, 1, ANY].into_iter().flat_map(|l| contents(1440).into_iter().map(move |b| (l, b)))
        {
            let mut lent = before.clone();
            assert_eq!(abi::unbroken_into(&fields, limit, &mut lent).number, number, "limit {limit}");
            assert!(lent == before, "changed by refusal {number}, limit {limit}");
        }
    }
    let fields = flat::of_day(&torn::smallest());
    for before in contents(6) {
        let mut lent = before.clone();
        assert_eq!(abi::unbroken_into(&fields, ANY, &mut lent).number, 11);
        assert!(lent == before, "changed by refusal 11");
    }
}

/// One search after the other, in the same buffers.
#[test]
fn searches_one_after_the_other_in_the_same_buffers() {
    let mut random = Random::new(821);
    let mut lent = SearchLent::untouched(40);
    let mut kept = 0;
    for turn in 0..1_500 {
        let day = match turn % 2 {
            0 => random::mixed_day(&mut random, 40, 6),
            _ => random::gapped_day(&mut random, 12),
        };
        let limit = random.pick(&[0, 3, 30, 300]);
        let fields = flat::of_day(&day);
        let (wanted, asked) = search(&fields, limit, 40);
        let before = lent.clone();
        assert_eq!(abi::unbroken_into(&fields, limit, &mut lent), wanted, "limit {limit} of {day:?}");
        let found = wanted.number == 0 && wanted.values[1] == FOUND;
        let h = if found { usize::from(day.h) } else { 0 };
        assert_eq!(lent.plan[..h], asked.plan[..h], "limit {limit} of {day:?}");
        assert_eq!(lent.plan[h..], before.plan[h..], "limit {limit} of {day:?}");
        assert!(lent.starts == if found { asked.starts } else { before.starts }, "limit {limit} of {day:?}");
        let narrowed = if wanted.number == 0 { asked.narrowed } else { before.narrowed };
        assert!(lent.narrowed == narrowed, "limit {limit} of {day:?}");
        kept += usize::from(!found);
    }
    assert!(kept > 300, "{kept} without a plan");
}

/// The plan of a found day is answered in a buffer that just has room for it.
#[test]
fn a_buffer_of_h_bytes() {
    let (answer, lent) = searched(&boxes(4, "w[0,4)2 w[1,3)1"), 3);
    assert_eq!((answer.values, lent.plan), ([0, 1, 3], plan("0 0 1 -")));
}
