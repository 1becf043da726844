//! The windows as they are given: the overload test and Jackson's schedule.

mod all_small_days;
mod buffer;
mod classes;
mod examples;
mod ignored;
mod limits;
mod opening;
mod overload_interval;
mod random_days;
mod row_length;
mod rule;
mod running_sum;
mod serials;
mod ties;
mod value;
