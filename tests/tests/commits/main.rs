//! Document 02's "Ask for a late box, then commit it": fresh days, asks and commits.

mod all_small_days;
mod any_day;
mod as_asked;
mod dispatchers;
mod examples;
mod fresh;
mod full_days;
mod order;
mod random_days;
mod row_length;
mod stamps;
mod untouched;

use dock_tests::flat::{self, Numbers};
use dock_tests::samples::one_box;

/// The numbers of an entry in short, of serial 201, which the lists here do not have.
fn late(entry: &str) -> Numbers {
    flat::numbers(&one_box(201, entry))
}
