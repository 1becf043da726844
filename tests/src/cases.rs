//! Inputs with their reports, from files: `NAME.list` and `NAME.report`.

use std::fs;
use std::path::{Path, PathBuf};

/// An input and the report that it must have.
pub struct Case {
    pub name: String,
    pub list: Vec<u8>,
    pub report: String,
}

/// The repository's root.
pub fn root() -> PathBuf {
    Path::new(env!("CARGO_MANIFEST_DIR")).join("..").canonicalize().expect("the repository's root")
}

/// The folder of the cases.
pub fn folder() -> PathBuf {
    root().join("tests/cases")
}

/// All cases.
pub fn all() -> Vec<Case> {
    names(&folder(), "list").into_iter().map(|name| of(&folder(), name)).collect()
}

/// The case of this name in a folder.
pub fn of(folder: &Path, name: String) -> Case {
    let path = folder.join(&name);
    let read = |ending| fs::read(path.with_extension(ending)).expect("a list has a report beside it");
    let report = String::from_utf8(read("report")).expect("a report is text");
    Case { list: read("list"), report, name }
}

/// The names of the files in a folder that have this ending, in order.
pub fn names(folder: &Path, ending: &str) -> Vec<String> {
    let files = fs::read_dir(folder).unwrap_or_else(|error| panic!("{}: {error}", folder.display()));
    let paths = files.map(|file| file.expect("a file of the folder").path());
    let right = paths.filter(|path| path.extension().is_some_and(|found| found == ending));
    let stem = |path: PathBuf| path.file_stem().and_then(|stem| stem.to_str()).expect("a name").to_string();
    let mut names: Vec<String> = right.map(stem).collect();
    names.sort_unstable();
    names
}
