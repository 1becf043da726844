//! The program `dock` as it is built, the sample days, the command ./dock-report and the scripts of bench/ and tools/.

mod bench;
mod build;
mod cases;
mod command;
mod folder;
mod input;
mod sample_days;
