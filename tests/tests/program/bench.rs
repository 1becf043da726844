//! The scripts bench/run and bench/climb, where they stop before they build anything, and where the first begins to.

use crate::folder::{succeeds, Folder};
use dock_tests::cases::root;
use std::ffi::OsStr;
use std::fs;
use std::process::{Command, Output};

/// The variables that name a repository to git. Whoever runs the tests may have them set, as a git hook has: then these
/// tests would change that repository.
const REPOSITORY: [&str; 5] =
    ["GIT_DIR", "GIT_WORK_TREE", "GIT_INDEX_FILE", "GIT_COMMON_DIR", "GIT_OBJECT_DIRECTORY"];

/// A command in a folder, for which git has no repository but that folder's.
fn command(folder: &Folder, program: impl AsRef<OsStr>) -> Command {
    let mut command = Command::new(program);
    command.current_dir(&**folder);
    for name in REPOSITORY {
        command.env_remove(name);
    }
    command
}

/// What git prints in a folder, without signatures and hooks that its user may have.
#[track_caller]
fn git(folder: &Folder, arguments: &[&str]) -> String {
    let settings =
        ["commit.gpgsign=false", "core.hooksPath=/dev/null", "user.name=test", "user.email=test@example.org"];
    let settings = settings.iter().flat_map(|setting| ["-c", setting]);
    succeeds(command(folder, "git").args(settings).args(arguments))
}

/// A repository with the scripts, but for the one that builds the library: that one says what it is asked, shows the
/// source and fails. The crate flat has these sources at one commit after the other.
fn repository(name: &str, sources: &[&str]) -> Folder {
    let folder = Folder::with(name, &["crates/flat/src", "bench", "tools"]);
    folder.copy("bench/run");
    folder.copy("bench/climb");
    folder.program("tools/build", "echo \"tools/build $*\"; cat crates/flat/src/lib.rt; exit 7");
    git(&folder, &["init", "-q"]);
    for source in sources {
        fs::write(folder.join("crates/flat/src/lib.rt"), source).expect("a source");
        git(&folder, &["add", "."]);
        git(&folder, &["commit", "-q", "-m", "numbers"]);
    }
    folder
}

/// Runs a script with what it finds first in that folder, and gives what it says on standard error.
fn run(folder: &Folder, script: &str, arguments: &[&str]) -> (Output, String) {
    let mut command = command(folder, folder.join(script));
    folder.first_in_path(&mut command);
    let output = command.args(arguments).output().expect("it must start");
    let said = String::from_utf8_lossy(&output.stderr).into_owned();
    (output, said)
}

/// It ends with status 2, says this line, prints nothing and builds nothing.
#[track_caller]
fn stops(folder: &Folder, script: &str, arguments: &[&str], wanted: &str) {
    let (output, said) = run(folder, script, arguments);
    assert_eq!(said, format!("{wanted}\n"));
    assert_eq!((output.status.code(), &output.stdout[..]), (Some(2), &b""[..]));
    assert!(!folder.join("target").exists(), "something is built");
}

const FORMER: &str = "// numbers\npub const NUMBERS: usize = 450;\n";
const NOW: &str = "// numbers\npub const NUMBERS: usize = 451;\n";

#[test]
fn a_commit_with_rows_of_another_length() {
    let folder = repository("bench-former", &["// none\n", FORMER, NOW]);
    for (commit, numbers) in [("HEAD~1", "450"), ("HEAD~2", "an unknown number of")] {
        let short = git(&folder, &["rev-parse", "--short", commit]);
        let wanted = format!(
            "bench/run: at {} a list has {numbers} numbers, and now 451; the libraries cannot be called alike",
            short.trim_end()
        );
        stops(&folder, "bench/run", &[commit], &wanted);
    }
}

/// The library of that commit is asked for, in a folder with its sources. The script that builds it fails here, so that
/// nothing is built.
#[test]
fn a_commit_with_rows_of_the_same_length() {
    let folder = repository("bench-same", &[NOW, &format!("{NOW}// more\n")]);
    let (output, said) = run(&folder, "bench/run", &["HEAD~1"]);
    assert_eq!(said, format!("tools/build library\n{NOW}"));
    assert_eq!((output.status.code(), &output.stdout[..]), (Some(7), &b""[..]));
}

#[test]
fn what_is_no_commit() {
    let folder = repository("bench-unknown", &[NOW]);
    stops(&folder, "bench/run", &["none"], "bench/run: git knows no commit 'none'");
    let usage = "usage: bench/run [COMMIT], where COMMIT is what git takes for a commit";
    stops(&folder, "bench/run", &["HEAD", "HEAD"], usage);
}

/// A search needs an aim, a seed, its minutes and a file.
#[test]
fn a_search_with_too_few_or_too_many_arguments() {
    let folder = repository("bench-climb", &[NOW]);
    let usage = "usage: bench/climb time|ratio SEED MINUTES FILE [LEAST-ENTRIES [LEAST-WORK]]";
    for arguments in [&[][..], &["time", "1", "1"], &["time", "1", "1", "f", "64", "0", "0"]] {
        stops(&folder, "bench/climb", arguments, usage);
    }
}

/// The script reads the number that this library has, which is the tests' own.
#[test]
fn the_number_is_found_in_the_source() {
    let source = fs::read_to_string(root().join("crates/flat/src/lib.rt")).expect("the source");
    let wanted = format!("pub const NUMBERS: usize = {};", dock_tests::flat::SIZE);
    assert!(source.lines().any(|line| line == wanted), "{wanted}");
}
