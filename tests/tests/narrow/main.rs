//! Narrowing a list's windows.

mod all_small_days;
mod classes;
mod examples;
mod fields;
mod found_days;
mod full_days;
mod ignored;
mod limits;
mod opening;
mod order;
mod random_days;
mod rounds;
mod row_length;
mod starts;
mod value;
