//! What the tests of the dock planner stand on. The tests are a program for each layer: `list` (reading and
//! writing), `jackson` (overload test and schedule of the windows as given), `narrow`, `bounds` (the calls that
//! plan), `unbroken` (the search for a day with no whole entry broken), `commits` (a stamped day, asks and commits),
//! `rooms` (turns of the rooms at one control desk), `report` (the report's text), `program` (the built program); and
//! `documents` for the pages, the imports under crates/, and wrong readings of the documents.

// What is tested.
pub mod abi; // the calls of the static library
pub mod program; // the report program as it is built

// The rules of documents 01 and 02 a second time, in another style than the proved code.
pub mod bounds; // least ends, greatest starts, shown plans
pub mod commits; // a day with its stamp, asks and commits
pub mod day; // the list, its entries and refusals
pub mod desk; // the rows and shares of rooms, and a turn
pub mod flat; // a list as the numbers in which the library takes it
pub mod jackson; // Jackson's schedule
pub mod mirror; // the mirrored list and plan
pub mod narrow; // searches, steps and rounds
pub mod overload; // overloaded intervals
pub mod planner; // the schedule of the windows as given, and its refusals
pub mod reader; // from bytes to a list
pub mod report; // from bytes to the report's text
pub mod rule; // Jackson's rule as facts about a plan
pub mod unbroken; // the search for an unbroken day, and such days by trying everything
pub mod writer; // from a list to bytes, and the refusals of a value

// Small days by trying everything.
pub mod brute; // all plans and all intervals
pub mod settled; // all sets of windows and all lists of steps
pub mod small; // every day of so many minutes and entries

// Calls of the library, each held against the rules or against trying everything.
pub mod check; // reading, writing, overload test, schedule
pub mod check_bounds; // planning and shown plans
pub mod check_commits; // fresh days, asks and commits
pub mod check_desk; // turns
pub mod check_narrow; // narrowing
pub mod check_report; // reports and refusals' lines
pub mod check_unbroken; // the search for an unbroken day

// Inputs, lists and values to try.
pub mod cases; // inputs with their reports, from files
pub mod chains; // days that need many rounds
pub mod clashes; // lists in which a serial stands twice
pub mod classes; // classes of full days
pub mod found; // full days that a search for slow ones found
pub mod ignored; // values that differ in what no call looks at
pub mod opening; // days with an opening minute, and the same days without one
pub mod random; // lists, damaged inputs and values, fixed by their seeds
pub mod rows; // rows of numbers of another length than a list's
pub mod samples; // lists that several tests share, and short forms to write others down
pub mod told; // how often each number was answered
pub mod torn; // days without an unbroken day
pub mod values; // values that every call refuses or accepts

// Pages.
pub mod picture; // the planned day that README shows
