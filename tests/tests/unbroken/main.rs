//! Document 02's "A plan with no box torn apart": the search for a day in which all whole entries stay in one piece.

mod all_small_days;
mod buffers;
mod examples;
mod full_days;
mod ignored;
mod limits;
mod opening;
mod random_days;
mod row_length;
mod smallest_days;
mod trials;
mod value;
