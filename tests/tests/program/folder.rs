//! A folder of a test, for scripts of the repository that are run beside programs made for the test.

use dock_tests::cases::root;
use std::fs;
use std::ops::Deref;
use std::path::{Path, PathBuf};
use std::process::Command;

/// Removed with all that is in it when the test ends, also when it fails: a folder that stayed could hold Rattle files,
/// and the gate takes those for the repository's.
pub struct Folder(PathBuf);

impl Folder {
    /// A folder of this name with these folders in it.
    pub fn with(name: &str, inner: &[&str]) -> Folder {
        let folder = Folder(Path::new(env!("CARGO_TARGET_TMPDIR")).join(name));
        if folder.exists() {
            fs::remove_dir_all(&*folder).expect("no folder");
        }
        inner.iter().for_each(|inner| fs::create_dir_all(folder.join(inner)).expect("a folder"));
        folder
    }

    /// Copies a file of the repository. Another process does it, as in `program`.
    pub fn copy(&self, file: &str) {
        succeeds(Command::new("cp").arg(root().join(file)).arg(self.join(file)));
    }

    /// Writes a program that a shell runs. Another process does it: what this one has open for writing could not be run
    /// by another test's child.
    pub fn program(&self, file: &str, body: &str) {
        let write = "printf '#!/bin/sh\\n%s\\n' \"$1\" >\"$0\" && chmod +x \"$0\"";
        succeeds(Command::new("sh").args(["-c", write]).arg(self.join(file)).arg(body));
    }

    /// Has a command find the programs of this folder before all others.
    pub fn first_in_path(&self, command: &mut Command) {
        let path = std::env::var("PATH").expect("a path");
        command.env("PATH", format!("{}:{path}", self.display()));
    }
}

impl Deref for Folder {
    type Target = Path;

    fn deref(&self) -> &Path {
        &self.0
    }
}

impl Drop for Folder {
    fn drop(&mut self) {
        let _ = fs::remove_dir_all(&self.0); // a test that fails for another reason is to tell that one
    }
}

/// Runs a command that must succeed, and gives what it prints.
#[track_caller]
pub fn succeeds(command: &mut Command) -> String {
    let output = command.output().expect("it must start");
    assert!(output.status.success(), "{command:?}: {}", String::from_utf8_lossy(&output.stderr));
    String::from_utf8(output.stdout).expect("a text")
}
