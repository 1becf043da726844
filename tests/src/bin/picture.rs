//! Writes docs/morning.svg anew, the picture that README shows; a test compares it.

use dock_tests::picture;
use std::fs;

fn main() {
    let file = picture::file();
    fs::write(&file, picture::morning()).unwrap_or_else(|error| panic!("{}: {error}", file.display()));
}
