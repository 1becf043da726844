//! The day's list and its refusals, as document 01 describes them, with the opening minute of document 02.

/// An entry. A field that may be missing from the bytes and has a default, r or d, is always here.
#[derive(Clone, Debug, Default, PartialEq, Eq)]
pub struct Entry {
    pub serial: u32,
    pub seal: Option<u32>,
    pub r: u16,
    pub d: u16,
    pub p: u16,
    pub whole: bool,
}

/// A list that was read: its entries are the first n places.
#[derive(Clone, Debug, PartialEq, Eq)]
pub struct Day {
    pub h: u16,
    /// "Without it the opening minute is 0."
    pub opening: u16,
    pub entries: Vec<Entry>,
}

/// An interval [a, b) and its work.
#[derive(Clone, Copy, Debug, PartialEq, Eq)]
pub struct Interval {
    pub a: u16,
    pub b: u16,
    pub work: u64,
}

/// The rows of document 01's table that the library's calls know, and 14 to 19 of document 02, with what each
/// carries; and 100, of a row of numbers of the wrong length.
#[derive(Clone, Copy, Debug, PartialEq, Eq)]
pub enum Refusal {
    Missing { length: usize },
    DayLength,
    TooMany { carries: usize },
    MapByte { place: usize },
    WrittenDefault { place: usize },
    NoMinutes { place: usize },
    Window { place: usize },
    LeftOver { first: usize },
    Overloaded(Interval),
    NoPlace { place: usize },
    ShortPlan { h: u16 },
    ShortBuffer { needed: usize },
    UnknownPlace { place: u64 },
    SerialClash { place: usize },
    Opening { carries: usize },
    BeforeOpening { place: usize },
    StaleStamp { stamp: u16 },
    DayFull { stamp: u16 },
    RoomCount { rooms: usize },
    RowLength { numbers: usize },
}

impl Refusal {
    /// The refusal's number and the values that it carries, 0 where there are fewer than three.
    pub fn code(self) -> (u32, [u64; 3]) {
        let (number, carries) = match self {
            Refusal::Missing { length } => (1, length),
            Refusal::DayLength => (2, 0),
            Refusal::TooMany { carries } => (3, carries),
            Refusal::MapByte { place } => (4, place),
            Refusal::WrittenDefault { place } => (5, place),
            Refusal::NoMinutes { place } => (6, place),
            Refusal::Window { place } => (7, place),
            Refusal::LeftOver { first } => (8, first),
            Refusal::Overloaded(Interval { a, b, work }) => return (9, [u64::from(a), u64::from(b), work]),
            Refusal::NoPlace { place } => (10, place),
            Refusal::ShortPlan { h } => (11, usize::from(h)),
            Refusal::ShortBuffer { needed } => (12, needed),
            Refusal::UnknownPlace { place } => return (13, [place, 0, 0]),
            Refusal::SerialClash { place } => (14, place),
            Refusal::Opening { carries } => (15, carries),
            Refusal::BeforeOpening { place } => (16, place),
            Refusal::StaleStamp { stamp } => (17, usize::from(stamp)),
            Refusal::DayFull { stamp } => (18, usize::from(stamp)),
            Refusal::RoomCount { rooms } => (19, rooms),
            Refusal::RowLength { numbers } => (100, numbers),
        };
        (number, [carries as u64, 0, 0])
    }
}

impl Entry {
    /// The rules 16, 6 and 7, which bytes and values share; `place` is what the refusal carries.
    pub fn fault(&self, h: u16, opening: u16, place: usize) -> Result<(), Refusal> {
        if self.r < opening {
            return Err(Refusal::BeforeOpening { place });
        }
        if self.p == 0 {
            return Err(Refusal::NoMinutes { place });
        }
        let (r, d, p) = (u32::from(self.r), u32::from(self.d), u32::from(self.p));
        if d > u32::from(h) || r + p > d {
            return Err(Refusal::Window { place });
        }
        Ok(())
    }

    /// Whether a minute of this window lies in the other one too.
    fn shares_a_minute(&self, other: &Entry) -> bool {
        (self.r..self.d).any(|minute| (other.r..other.d).contains(&minute))
    }
}

impl Day {
    /// Document 02, "One box in two places": whether the entry at this place is one "whose given window shares a
    /// minute with an earlier entry of the same serial".
    pub fn clashes_at(&self, place: usize) -> bool {
        let later = &self.entries[place];
        self.entries[..place]
            .iter()
            .any(|earlier| earlier.serial == later.serial && earlier.shares_a_minute(later))
    }

    /// "Such an entry, the first in list order": its place.
    pub fn first_clash(&self) -> Option<usize> {
        (0..self.entries.len()).find(|&place| self.clashes_at(place))
    }
}

/// The longest day, in minutes.
pub const LONGEST_DAY: u16 = 1440;
/// The most entries a list has.
pub const MOST_ENTRIES: usize = 64;

/// The byte of a minute that no entry has.
pub const IDLE: u8 = 255;
/// The bytes of a longest list: a header of 3, 2 with the opening minute, and 64 entries with all fields.
pub const LONGEST_LIST: usize = 965;
