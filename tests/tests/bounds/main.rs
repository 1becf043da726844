//! The calls that plan a list in its settled windows: its plan and bounds, and the early and late plan of a place.

mod all_small_days;
mod buffers;
mod clashes;
mod classes;
mod examples;
mod found_days;
mod full_days;
mod ignored;
mod limits;
mod opening;
mod places;
mod random_days;
mod row_length;
mod rule;
mod value;
