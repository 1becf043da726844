//! The day's list: reading its bytes and writing its one form.

mod clashes;
mod damaged_bytes;
mod entry_fields;
mod examples;
mod header;
mod map_byte;
mod opening_bytes;
mod opening_damaged;
mod opening_entries;
mod opening_values;
mod row_length;
mod seals_and_serials;
mod untouched;
mod write_buffer;
mod write_ignored;
mod write_value;
