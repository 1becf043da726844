//! Windows by place, their mirror, and the places in the order of their r.

use dock_tests::day::MOST_ENTRIES;

/// A minute, or a number of minutes, for each place.
pub type Minutes = [u32; MOST_ENTRIES];

/// The windows, minutes and kinds of n entries.
#[derive(Clone, Copy)]
pub struct Windows {
    pub h: u32,
    pub n: usize,
    pub r: Minutes,
    pub d: Minutes,
    pub p: Minutes,
    pub whole: [bool; MOST_ENTRIES],
}

/// The n places of a list, those with the greatest r first, and of equals the lowest place.
pub struct Order {
    places: [usize; MOST_ENTRIES],
    n: usize,
}

impl Order {
    pub fn places(&self) -> &[usize] {
        &self.places[..self.n]
    }
}

impl Windows {
    /// "[r, d) becomes [H-d, H-r), places kept"
    pub fn mirrored(&self) -> Windows {
        let mut mirrored = *self;
        for place in 0..self.n {
            mirrored.r[place] = self.h - self.d[place];
            mirrored.d[place] = self.h - self.r[place];
        }
        mirrored
    }

    /// By insertion.
    pub fn order(&self) -> Order {
        let mut places = [0; MOST_ENTRIES];
        for place in 0..self.n {
            let mut at = place;
            while at > 0 && self.r[places[at - 1]] < self.r[place] {
                places[at] = places[at - 1];
                at -= 1;
            }
            places[at] = place;
        }
        Order { places, n: self.n }
    }
}
