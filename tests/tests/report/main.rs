//! The report's text and the line of a refusal, as the library stores them.

mod buffers;
mod examples;
mod limits;
mod opening;
mod random_lists;
mod refusal_lines;
