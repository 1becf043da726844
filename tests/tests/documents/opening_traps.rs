//! Wrong readings of document 02's "The room opens after midnight", each with the first input on which it answers
//! otherwise than the rule, shorter inputs first, then days of fewer minutes: "Bit 7 of the count byte now says that two
//! bytes with the opening minute follow the header; bits 0 to 6 are n, and 3 tests those. .. A missing r means the opening
//! minute, and a written r equal to it is 5. .. If the two bytes are missing that is 1, after 3. An opening minute written
//! as 0, or one of H or more, is refused as 15 next, carrying 3 .., and an r before the opening minute as 16, directly
//! after 5".

use dock_tests::abi::Call;
use dock_tests::check::{self, number};
use dock_tests::check_bounds::asked;
use dock_tests::day::{Day, Refusal};
use dock_tests::flat;
use dock_tests::random::{self, Random};
use dock_tests::samples::{boxes, hex, list, opened_list, plan, Written, SHORT};
use dock_tests::{mirror, reader, writer};

/// What is said of an input: its opening minute and the r, d and p of its entries, or a refusal's number and what it
/// carries.
type Said = Result<(u16, Vec<[u16; 3]>), (u32, usize)>;

/// A row of the table that the request adds or moves.
#[derive(Clone, Copy, PartialEq, Eq)]
enum Row {
    TooMany,
    NoOpening,
    Opening,
    Default,
    BeforeOpening,
    NoMinutes,
    Window,
}

/// A way to read. A trap is one that differs from the right way in one of these.
#[derive(Clone, Copy)]
struct Way {
    /// How many entries a count byte says.
    n: fn(u8) -> usize,
    /// The opening minute that two bytes say.
    opening: fn([u8; 2]) -> u16,
    /// The rows of the header after 2, in the order in which they are tested.
    header: [Row; 3],
    /// Whether an opening minute is refused in a day of so many minutes.
    is_wrong: fn(u16, u16) -> bool,
    /// What 15 carries.
    carries: usize,
    /// What a missing r means under an opening minute.
    missing: fn(u16) -> u16,
    /// What a written r means under an opening minute.
    written: fn(u16, u16) -> u16,
    /// Whether a written r is its default.
    is_default: fn(u16, u16) -> bool,
    /// Whether an r, written or not, is refused as 16.
    is_before: fn(u16, bool, u16) -> bool,
    /// The rows of an entry, in the order in which they are tested.
    entry: [Row; 4],
}

/// The right way.
const RIGHT: Way = Way {
    n: |count| usize::from(count % 128),
    opening: u16::from_le_bytes,
    header: [Row::TooMany, Row::NoOpening, Row::Opening],
    is_wrong: |opening, h| opening == 0 || opening >= h,
    carries: 3,
    missing: |opening| opening,
    written: |r, _| r,
    is_default: |r, opening| r == opening,
    is_before: |r, _, opening| r < opening,
    entry: [Row::Default, Row::BeforeOpening, Row::NoMinutes, Row::Window],
};

/// The next bytes of an input, or 1.
fn take<'a>(left: &mut &'a [u8], bytes: usize, length: usize) -> Result<&'a [u8], (u32, usize)> {
    let (now, later) = left.split_at_checked(bytes).ok_or((1, length))?;
    *left = later;
    Ok(now)
}

fn two(bytes: &[u8]) -> u16 {
    u16::from_le_bytes([bytes[0], bytes[1]])
}

/// What this way says of an input, but for 14.
fn by_way(way: &Way, input: &[u8]) -> Said {
    let length = input.len();
    let mut left = input;
    let header = take(&mut left, 3, length)?;
    let (h, count) = (two(header), header[2]);
    if !(1..=1440).contains(&h) {
        return Err((2, 0));
    }
    let follows = count >= 128;
    let opening = match (follows, left) {
        (true, &[low, high, ..]) => Some((way.opening)([low, high])),
        _ => None,
    };
    for row in way.header {
        let (holds, code) = match row {
            Row::TooMany => ((way.n)(count) > 64, (3, 2)),
            Row::NoOpening => (follows && opening.is_none(), (1, length)),
            _ => (opening.is_some_and(|opening| (way.is_wrong)(opening, h)), (15, way.carries)),
        };
        if holds {
            return Err(code);
        }
    }
    take(&mut left, if follows { 2 } else { 0 }, length)?;
    let opening = opening.unwrap_or(0);
    let entries =
        (0..(way.n)(count)).map(|_| entry(way, &mut left, length, h, opening)).collect::<Result<_, _>>()?;
    if left.is_empty() {
        Ok((opening, entries))
    } else {
        Err((8, length - left.len()))
    }
}

fn entry(way: &Way, left: &mut &[u8], length: usize, h: u16, opening: u16) -> Result<[u16; 3], (u32, usize)> {
    let place = length - left.len();
    let map = take(left, 1, length)?[0];
    if map & 0b1101_0001 != 0b0001_0001 {
        return Err((4, place));
    }
    take(left, if map & 2 == 0 { 4 } else { 8 }, length)?;
    let mut field = |bit: u8| -> Result<Option<u16>, (u32, usize)> {
        Ok(if map & bit == 0 { None } else { Some(two(take(left, 2, length)?)) })
    };
    let (r, d) = (field(4)?, field(8)?);
    let p = two(take(left, 2, length)?);
    let meant = r.map_or((way.missing)(opening), |r| (way.written)(r, opening));
    let until = d.unwrap_or(h);
    for row in way.entry {
        let (holds, number) = match row {
            Row::Default => (r.is_some_and(|r| (way.is_default)(r, opening)) || d == Some(h), 5),
            Row::BeforeOpening => ((way.is_before)(meant, r.is_some(), opening), 16),
            Row::NoMinutes => (p == 0, 6),
            _ => (until > h || u32::from(meant) + u32::from(p) > u32::from(until), 7),
        };
        if holds {
            return Err((number, place));
        }
    }
    Ok([meant, until, p])
}

/// Headers of at most 3 minutes, and lists of one entry, of which every field is tried that can tell; shorter inputs
/// first, then days of fewer minutes.
fn inputs() -> Vec<Vec<u8>> {
    let mut all = vec![];
    for (h, count) in (1..=3).flat_map(|h| [0, 1, 65, 128, 129, 193].map(|count| (h, count))) {
        all.push(vec![h, 0, count]);
        for low in 0..=3 {
            all.push(vec![h, 0, count, low]);
            all.extend([0, 1].map(|high| vec![h, 0, count, low, high]));
        }
    }
    for h in 1..=3 {
        let maybe = |end: u16| (0..=end).map(Some).chain([None]).rev();
        let written = maybe(h).flat_map(|r| maybe(h + 1).map(move |d| (r, d)));
        let entries =
            written.flat_map(|(r, d)| (1..=h).chain([0]).map(move |p| Written { r, d, p, ..SHORT }));
        for entry in entries {
            all.push(list(h, &[entry]));
            all.extend((1..h).map(|opening| opened_list(h, opening, &[entry])));
        }
    }
    all.sort_by_key(Vec::len);
    all
}

/// What the second reader says of an input, in short.
fn read(input: &[u8]) -> Said {
    let code = |refusal: Refusal| (refusal.code().0, refusal.code().1[0] as usize);
    let entries = |day: &Day| day.entries.iter().map(|entry| [entry.r, entry.d, entry.p]).collect();
    reader::read(input).map(|day| (day.opening, entries(&day))).map_err(code)
}

/// The first input on which this way differs is this one; the library answers the first of these, and the trap the other.
#[track_caller]
fn differs(way: Way, input: &str, right: Said, wrong: Said) {
    let bytes = hex(input);
    let first =
        inputs().into_iter().find(|input| by_way(&way, input) != read(input)).expect("an input that tells");
    assert_eq!(first, bytes, "the first input that tells is {first:02X?}");
    let _ = check::read(&bytes);
    assert_eq!(read(&bytes), right);
    assert_eq!(by_way(&way, &bytes), wrong, "by the trap's way");
}

/// The right way is the second reader's, so that what is changed in it makes a trap.
#[test]
fn only_what_is_changed_makes_a_trap() {
    let mut random = Random::new(301);
    let damaged = (0..20_000).map(|_| random::damaged_opened(&mut random));
    let mut seen = [0; 17];
    for input in inputs().into_iter().chain(damaged) {
        let said = read(&input);
        seen[number(&reader::read(&input))] += 1;
        match said {
            Err((14, _)) => assert!(by_way(&RIGHT, &input).is_ok(), "{input:02X?}"),
            _ => assert_eq!(by_way(&RIGHT, &input), said, "{input:02X?}"),
        }
    }
    assert!([0, 1, 2, 3, 4, 5, 6, 7, 8, 14, 15, 16].iter().all(|&number| seen[number] > 20), "{seen:?}");
}

#[test]
fn fifteen_before_3() {
    let way = Way { header: [Row::Opening, Row::TooMany, Row::NoOpening], ..RIGHT };
    differs(way, "01 00 C1 00 00", Err((3, 2)), Err((15, 3)));
}

#[test]
fn missing_opening_bytes_before_3() {
    let way = Way { header: [Row::NoOpening, Row::TooMany, Row::Opening], ..RIGHT };
    differs(way, "01 00 C1", Err((3, 2)), Err((1, 3)));
}

#[test]
fn n_taken_from_all_8_bits() {
    let way = Way { n: usize::from, ..RIGHT };
    differs(way, "01 00 80", Err((1, 3)), Err((3, 2)));
}

#[test]
fn fifteen_carrying_the_count_bytes_place() {
    let way = Way { carries: 2, ..RIGHT };
    differs(way, "01 00 80 00 00", Err((15, 3)), Err((15, 2)));
}

#[test]
fn an_opening_minute_written_as_0_accepted() {
    let way = Way { is_wrong: |opening, h| opening >= h, ..RIGHT };
    differs(way, "01 00 80 00 00", Err((15, 3)), Ok((0, vec![])));
}

#[test]
fn an_opening_minute_of_h_accepted() {
    let way = Way { is_wrong: |opening, h| opening == 0 || opening > h, ..RIGHT };
    differs(way, "01 00 80 01 00", Err((15, 3)), Ok((1, vec![])));
}

#[test]
fn the_highest_byte_first() {
    let way = Way { opening: u16::from_be_bytes, ..RIGHT };
    differs(way, "02 00 80 00 01", Err((15, 3)), Ok((1, vec![])));
}

#[test]
fn an_r_equal_to_the_opening_minute_accepted() {
    let way = Way { is_default: |_, _| false, ..RIGHT };
    differs(way, "01 00 01 | 15 09000000 0000 0100", Err((5, 3)), Ok((0, vec![[0, 1, 1]])));
    let way = Way { is_default: |r, opening| opening == 0 && r == 0, ..RIGHT };
    differs(way, "02 00 81 01 00 | 15 09000000 0100 0100", Err((5, 5)), Ok((1, vec![[1, 2, 1]])));
}

/// Under an opening minute 0 is before it, and not the default.
#[test]
fn a_written_r_of_0_still_5() {
    let way = Way { is_default: |r, opening| r == 0 || r == opening, ..RIGHT };
    differs(way, "02 00 81 01 00 | 15 09000000 0000 0100", Err((16, 5)), Err((5, 5)));
}

/// Then a window begins before the room opens; or, if 16 asks that of a missing r too, every such list is refused.
#[test]
fn a_missing_r_left_0() {
    let way = Way { missing: |_| 0, is_before: |r, written, opening| written && r < opening, ..RIGHT };
    differs(way, "02 00 81 01 00 | 11 09000000 0100", Ok((1, vec![[1, 2, 1]])), Ok((1, vec![[0, 2, 1]])));
    let way = Way { missing: |_| 0, ..RIGHT };
    differs(way, "02 00 81 01 00 | 11 09000000 0100", Ok((1, vec![[1, 2, 1]])), Err((16, 5)));
}

#[test]
fn an_r_before_the_opening_minute_accepted() {
    let way = Way { is_before: |_, _, _| false, ..RIGHT };
    differs(way, "02 00 81 01 00 | 15 09000000 0000 0100", Err((16, 5)), Ok((1, vec![[0, 2, 1]])));
}

#[test]
fn sixteen_after_6() {
    let way = Way { entry: [Row::Default, Row::NoMinutes, Row::BeforeOpening, Row::Window], ..RIGHT };
    differs(way, "02 00 81 01 00 | 15 09000000 0000 0000", Err((16, 5)), Err((6, 5)));
}

#[test]
fn sixteen_after_7() {
    let way = Way { entry: [Row::Default, Row::NoMinutes, Row::Window, Row::BeforeOpening], ..RIGHT };
    differs(way, "02 00 81 01 00 | 15 09000000 0000 0000", Err((16, 5)), Err((6, 5)));
    let input = hex("02 00 81 01 00 | 1D 09000000 0000 0300 0100");
    assert_eq!((read(&input), by_way(&way, &input)), (Err((16, 5)), Err((7, 5))));
}

#[test]
fn sixteen_before_5() {
    let way = Way { entry: [Row::BeforeOpening, Row::Default, Row::NoMinutes, Row::Window], ..RIGHT };
    differs(way, "02 00 81 01 00 | 1D 09000000 0000 0200 0100", Err((5, 5)), Err((16, 5)));
}

/// Minutes of an entry are the day's, not counted from the opening minute.
#[test]
fn a_written_r_counted_from_the_opening_minute() {
    let way = Way { written: |r, opening| r.saturating_add(opening), ..RIGHT };
    differs(way, "02 00 81 01 00 | 15 09000000 0000 0100", Err((16, 5)), Ok((1, vec![[1, 2, 1]])));
    let input = hex("03 00 81 01 00 | 15 09000000 0200 0100");
    assert_eq!((read(&input), by_way(&way, &input)), (Ok((1, vec![[2, 3, 1]])), Err((7, 5))));
}

/// "the mirrored list has opening minute 0". With the opening minute kept, the mirrored window [0, 1) would be 16.
#[test]
fn the_opening_minute_kept_in_the_mirror() {
    let day = Day { opening: 1, ..boxes(2, "p[1,2)1") };
    let (answer, lent) = asked(Call::Late(0), &day);
    assert_eq!((answer.values, lent.plan), ([0, 1, 0], plan("- 0")));
    let trapped = Day { opening: day.opening, ..mirror::day(&day) };
    let said = writer::checked(&flat::value(&flat::of_day(&trapped)));
    assert_eq!(said, Err(Refusal::BeforeOpening { place: 0 }));
    check::planned(&mirror::day(&day));
}

/// "The list value carries and compares that minute": without it these two lists would be one, but their bytes differ.
#[test]
fn the_opening_minute_left_out_of_the_value() {
    let [one, other] = [1, 0].map(|opening| Day { opening, ..boxes(2, "p[1,2)1") });
    assert_eq!((one.h, &one.entries), (other.h, &other.entries));
    let [one, other] = [one, other].map(|day| check::written(&flat::of_day(&day), 100));
    assert_eq!(one, hex("02 00 81 01 00 | 11 65000000 0100"));
    assert_eq!(other, hex("02 00 01 | 15 65000000 0100 0100"));
}

/// An opening minute of 0 in a value is none: it is neither refused nor written.
#[test]
fn an_opening_minute_of_0_refused_or_written_for_a_value() {
    let form = check::written(&flat::of_day(&boxes(1, "")), 100);
    assert_eq!(form, hex("01 00 00"));
    check::refused(&hex("01 00 80 00 00"), 15, 3);
}
