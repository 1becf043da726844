//! Lists handed over as values, for every call that takes one: those that it must refuse whatever else it is
//! lent, those at the limits that it must accept, and wild ones. "A list handed over as a value is tested for
//! 2, 3, then 6 and 7 per entry; 2 and 3 then carry 0, 6 and 7 the entry's place." Document 02 adds 15 after 3, which
//! carries 0, 16 before 6 and 14 "after the last 7", which carry the entry's place too.

mod opening;
mod rules;

use crate::day::MOST_ENTRIES;
use crate::flat::{self, Fields, OPENING, SIZE, WIDTH};
use crate::random::{self, Random};
use crate::samples::boxes;
use crate::told::Told;
use std::panic::{self, AssertUnwindSafe};

/// Holds a call against the values that it must refuse: `check` gets each of them with the number and the
/// value carried. Fails with the names of the rules that are broken.
#[track_caller]
pub fn refused(check: impl Fn(&Fields, u32, usize)) {
    let rules = [&rules::RULES[..], &opening::RULES].concat();
    hold(&rules, &SERIALS, |lists, sort| {
        lists(&|list, number, carries| check(&list.of(sort), number, carries))
    });
}

/// Holds a call against values at the limits of the rules, which it must accept. All of them have a plan, and
/// windows that are settled. Fails with the names of the limits.
#[track_caller]
pub fn accepted(check: impl Fn(&Fields)) {
    let limits = [
        ("the shortest day", list(1, 0, &[])),
        ("the longest day", list(1440, 0, &[])),
        ("an entry at any time of the longest day", list(1440, 1, &[[0, 1440, 1]])),
        ("64 entries", day(&[[0, 100, 1]; MOST_ENTRIES])),
        ("a window of just its minutes", day(&[[40, 50, 10]])),
        ("the first minute", day(&[[0, 1, 1]])),
        ("the last minute", day(&[[99, 100, 1]])),
        ("an entry that fills the day", day(&[[0, 100, 100]])),
        ("one serial in windows that touch", day(&[[0, 50, 50], [50, 100, 50]]).serials(&[7, 7])),
        ("the later one of a serial first", day(&[[50, 100, 50], [0, 50, 50]]).serials(&[0, 0])),
        ("one serial with minutes between", day(&[[0, 49, 1], [60, 61, 1], [50, 55, 1]]).serials(&[7; 3])),
        ("64 entries of one serial", day(&one_by_one()).serials(&[u32::MAX; MOST_ENTRIES])),
        ("windows that share a minute, serials 1 apart", day(&[[0, 100, 9]; 3]).serials(&[0, 1, u32::MAX])),
        (
            "serials that differ in one byte",
            day(&[[0, 100, 9]; 4]).serials(&[7, 0x107, 0x1_0007, 0x100_0007]),
        ),
        ("one serial twice, but behind the list", list(100, 1, &[[0, 100, 9]; 3]).serials(&[7; 3])),
        ("the least opening minute", day(&[[1, 100, 99]]).opening(1)),
        ("the greatest opening minute", day(&[[99, 100, 1]]).opening(99)),
        ("the greatest opening minute of the longest day", list(1440, 1, &[[1439, 1440, 1]]).opening(1439)),
        ("the only opening minute of a day of two", list(2, 1, &[[1, 2, 1]]).opening(1)),
        ("an opening minute without entries", list(1440, 0, &[]).opening(1439)),
        ("an opening minute of two bytes", list(600, 2, &[[258, 300, 2], [259, 600, 2]]).opening(258)),
        ("64 entries from the opening minute on", day(&[[36, 100, 1]; MOST_ENTRIES]).opening(36)),
        (
            "an entry before the opening minute, but behind the list",
            list(100, 1, &[[9, 20, 2], [0, 20, 2]]).opening(9),
        ),
        (
            "windows that touch after the opening minute",
            day(&[[50, 60, 9], [9, 50, 9]]).opening(9).serials(&[7; 2]),
        ),
    ];
    hold(&limits, &SERIALS[..1], |list, sort| check(&list.of(sort)));
}

/// What stands in the end in a list that is mended: H, the opening minute, and r and d of the third entry.
pub struct Mended {
    pub h: u32,
    pub opening: u32,
    pub r: u32,
    pub d: u32,
}

/// Mends a list of three entries of one serial that is wrong in every row of the value check, row by row: H, n and the
/// opening minute are wrong, r of the third entry is before that minute, its p is 0 and its d too late. `told` gets each
/// list with the number and the place of the row that is then the first to hold.
#[track_caller]
pub fn mended(mut fields: Fields, right: Mended, told: impl Fn(&Fields, u32, usize)) -> Fields {
    let (second, third) = (flat::at(1), flat::at(2));
    let (another, yet_another) = (fields[second] ^ 1, fields[second] ^ 2);
    fields[OPENING] = 65_535;
    for (field, right, number, carries) in [
        (0, right.h, 2, 0),
        (1, 3, 3, 0),
        (OPENING, right.opening, 15, 0),
        (third + 3, right.r, 16, 2),
        (third + 5, 1, 6, 2),
        (third + 4, right.d, 7, 2),
        (second, another, 14, 1),
        (third, yet_another, 14, 2),
    ] {
        told(&fields, number, carries);
        fields[field] = right;
    }
    fields
}

/// 64 entries of a minute, one after the other.
fn one_by_one() -> [Times; MOST_ENTRIES] {
    std::array::from_fn(|place| [place as u32, place as u32 + 1, 1])
}

/// Which places are whole.
type Kinds = fn(usize) -> bool;

/// The rules on values are the same for entries of either kind.
const KINDS: [(&str, Kinds); 3] =
    [("pause", |_| false), ("whole", |_| true), ("whole and pause in turn", |place| place % 2 == 0)];

/// The serial of each place, where a list does not name its own.
type Serials = fn(usize) -> u32;

/// All other rows of the value check come before 14, so that a list is refused with them whether its serials differ or not.
const SERIALS: [(&str, Serials); 2] =
    [("with serials that differ", |place| 9 + place as u32), ("of one serial", |_| 9)];

/// Runs a check of each rule with entries of each kind and such serials, all of them even if some fail, so that
/// the failure has the names of all broken rules.
#[track_caller]
fn hold<T>(rules: &[(&str, T)], serials: &[(&str, Serials)], check: impl Fn(&T, (Kinds, Serials))) {
    let mut broken = vec![];
    for (rule, lists) in rules {
        for (name, kinds) in KINDS {
            for &(apart, serials) in serials {
                if panic::catch_unwind(AssertUnwindSafe(|| check(lists, (kinds, serials)))).is_err() {
                    broken.push(format!("{rule}, entries {name} {apart}"));
                }
            }
        }
    }
    assert!(broken.is_empty(), "broken: {broken:#?}");
}

/// r, d and p of an entry, right or wrong or too large for their fields.
type Times = [u32; 3];

/// A value but for the kinds of its entries, and for their serials where none are named.
struct List {
    h: u32,
    n: u32,
    opening: u32,
    entries: Vec<Times>,
    serials: Vec<u32>,
}

fn list(h: u32, n: u32, entries: &[Times]) -> List {
    List { h, n, opening: 0, entries: entries.to_vec(), serials: vec![] }
}

/// A list that says a day of 100 minutes with these entries.
fn day(entries: &[Times]) -> List {
    list(100, entries.len() as u32, entries)
}

impl List {
    /// The same list with this opening minute.
    fn opening(self, opening: u32) -> List {
        List { opening, ..self }
    }

    /// The same list with these serials.
    fn serials(self, serials: &[u32]) -> List {
        assert_eq!(self.entries.len(), serials.len());
        List { serials: serials.to_vec(), ..self }
    }

    fn of(&self, (kinds, serials): (Kinds, Serials)) -> Fields {
        let mut fields = [0; SIZE];
        (fields[0], fields[1], fields[OPENING]) = (self.h, self.n, self.opening);
        for (place, &[r, d, p]) in self.entries.iter().enumerate() {
            let serial = self.serials.get(place).copied().unwrap_or_else(|| serials(place));
            let numbers = [serial, 0, 0, r, d, p, u32::from(kinds(place))];
            fields[flat::at(place)..][..WIDTH].copy_from_slice(&numbers);
        }
        fields
    }
}

/// A check that the list is refused with this number, carrying this value.
type Refused<'a> = &'a dyn Fn(List, u32, usize);

/// A rule's name, and the lists that break it.
type Rule = (&'static str, fn(Refused));

/// A value for each refusal of the value check, with its number: a list of three entries that has a plan, but
/// for one number.
pub fn wrong() -> [(u64, Fields); 12] {
    let right = flat::of_day(&boxes(12, "p[0,12)4 w[2,8)3 p[3,6)2"));
    let last = flat::at(2);
    let wrong = [
        (2, 0, 0),
        (2, 0, 1441),
        (3, 1, 65),
        (6, last + 5, 0),
        (7, last + 4, 4),
        (7, last + 4, 13),
        (14, last, right[flat::at(0)]),
        (14, last, right[flat::at(1)]),
        (15, OPENING, 12),
        (15, OPENING, 65_536),
        (16, OPENING, 1),
        (16, OPENING, 11),
    ];
    wrong.map(|(number, at, instead)| {
        let mut fields = right;
        fields[at] = instead;
        (number, fields)
    })
}

/// Asks a call for the number that it answers to so many values that may break any row.
pub fn wild(seed: u64, times: usize, mut call: impl FnMut(&mut Random, &Fields) -> usize) -> Told {
    let mut random = Random::new(seed);
    let mut told = Told::default();
    for _ in 0..times {
        let fields = random::wild_fields(&mut random);
        told.count(call(&mut random, &fields));
    }
    told
}
