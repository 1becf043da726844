//! What the documents say: the pages of this repository, what its files import, the traps of document 01, wrong
//! readings of document 02's tie rule, of its running sum, of its opening minute, of its control desk, of its edge-finding
//! and of its unbroken days, and the smallest days that the tie rule changes.

mod control_desk;
mod desk_traps;
mod format;
mod imports;
mod late_boxes;
mod opening_traps;
mod pages;
mod picture;
mod refusals;
mod smallest_days;
mod start_traps;
mod sum_traps;
mod tie_traps;
mod traps;
mod unbroken_traps;

use dock_tests::cases::root;
use std::fs;

/// The text of a file of the repository.
fn page(name: &str) -> String {
    fs::read_to_string(root().join(name)).unwrap_or_else(|error| panic!("{name}: {error}"))
}

/// The cells of a table's rows below its heading.
fn rows(table: &str) -> Vec<Vec<String>> {
    let rows =
        table.lines().skip_while(|line| !line.starts_with("|---")).filter(|line| line.starts_with("| "));
    rows.map(|row| row.trim_matches('|').split('|').map(|cell| cell.trim().to_string()).collect()).collect()
}

/// A text in one line, however its page has lines.
fn in_one_line(text: &str) -> String {
    text.split_whitespace().collect::<Vec<_>>().join(" ")
}
