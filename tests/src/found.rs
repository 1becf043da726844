//! Full days that a search for slow ones found (bench/climb), from the files of bench/days: `NAME.list`.

use crate::cases::{names, root};
use crate::day::Day;
use crate::reader;
use std::fs;

/// The list of this name.
pub fn bytes(name: &str) -> Vec<u8> {
    let file = root().join("bench/days").join(name).with_extension("list");
    fs::read(&file).unwrap_or_else(|error| panic!("{}: {error}", file.display()))
}

/// The day of this name.
pub fn day(name: &str) -> Day {
    reader::read(&bytes(name)).unwrap_or_else(|refusal| panic!("{name}: {refusal:?}"))
}

/// The names of all of them.
pub fn all() -> Vec<String> {
    names(&root().join("bench/days"), "list")
}
