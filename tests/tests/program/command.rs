//! The command ./dock-report of the repository's root.

use crate::folder::Folder;
use dock_tests::cases::{self, root, Case};
use std::fs::{self, File};
use std::path::Path;
use std::process::{Command, Output, Stdio};

fn run(folder: &Path, arguments: &[&str], input: Stdio) -> Output {
    let mut command = Command::new(root().join("dock-report"));
    command.args(arguments).current_dir(folder).stdin(input).output().expect("the command must start")
}

/// One test, one run after the other: each looks whether the program is to be built.
#[test]
fn the_command_prints_the_report_of_a_file_or_of_its_input() {
    let samples = root().join("samples");
    for name in ["morning", "overloaded", "one-box-twice"] {
        let Case { report, .. } = cases::of(&samples, name.to_string());
        let file = format!("{name}.list");
        let by_name = run(&samples, &[&file], Stdio::null());
        let by_input = run(&root(), &[], File::open(samples.join(&file)).expect("a sample").into());
        for output in [by_name, by_input] {
            assert!(output.status.success(), "{name}: {}", String::from_utf8_lossy(&output.stderr));
            assert_eq!(String::from_utf8_lossy(&output.stdout), report, "{name}");
        }
    }
    let again = run(&root(), &["samples/tight.list"], Stdio::null());
    assert_eq!(String::from_utf8_lossy(&again.stderr), "", "a run with nothing to build");
}

#[test]
fn the_command_refuses_what_is_no_file() {
    for arguments in [&["samples/none.list"][..], &["samples"], &["samples/tight.list", "samples/tight.list"]]
    {
        let output = run(&root(), arguments, Stdio::null());
        assert_eq!(output.status.code(), Some(2), "{arguments:?}");
        assert_eq!(output.stdout, b"", "{arguments:?}");
        assert!(String::from_utf8_lossy(&output.stderr).starts_with("usage: "), "{arguments:?}");
    }
}

/// A folder with the command, a script `tools/build` that says and does this, and a program `dock` that prints its input.
fn beside_build(name: &str, build: &str) -> Folder {
    let folder = Folder::with(name, &["target/bin", "tools", "crates/one/out", "crates/one/src"]);
    folder.copy("dock-report");
    folder.copy("tools/below");
    folder.copy("crates.txt");
    folder.program("tools/build", build);
    folder.program("target/bin/dock", "cat");
    folder
}

/// Runs the command of such a folder; then what its log has.
fn run_beside_build(folder: &Folder) -> (Output, String) {
    let mut command = Command::new(folder.join("dock-report"));
    let output = command.arg(root().join("samples/morning.txt")).output().expect("the command must start");
    (output, fs::read_to_string(folder.join("target/dock-report.log")).expect("a log"))
}

/// The names go to standard error, the report alone to standard output, and all that was said to the log.
#[test]
fn the_command_names_each_crate_that_is_proved() {
    let said = "rt: list proved (unchanged since it was last proved)\nfn codes::with_one: proved\nbuild: codes proved (4 s)\nrt: jackson proved\nbuild: jackson proved (31 s)\n";
    let folder = beside_build("build-proves", &format!("[ \"$*\" = program ] && printf '{said}'"));
    let (output, log) = run_beside_build(&folder);
    assert!(output.status.success());
    assert_eq!(
        String::from_utf8_lossy(&output.stderr),
        "dock-report: codes proved (4 s)\ndock-report: jackson proved (31 s)\n"
    );
    assert_eq!(output.stdout, fs::read(root().join("samples/morning.txt")).expect("the input"));
    assert_eq!(log, said);
}

/// Where there is no program yet, the crates that it is made of are named first, in the order of crates.txt.
#[test]
fn the_command_names_what_will_be_proved() {
    let folder = beside_build(
        "build-builds",
        "cd \"${0%/*}/..\"; cp dock target/bin/dock; echo 'build: base proved (1 s)'",
    );
    fs::rename(folder.join("target/bin/dock"), folder.join("dock")).expect("no program");
    let (output, _) = run_beside_build(&folder);
    assert!(output.status.success());
    assert_eq!(
        String::from_utf8_lossy(&output.stderr),
        "dock-report: first these are proved, which takes some minutes: base list format order windows jackson \
         edges codes narrow bounds planner report dock\ndock-report: base proved (1 s)\n"
    );
}

#[test]
fn the_command_shows_why_the_program_is_not_built() {
    let folder = beside_build("build-fails", "echo 'an error'; echo 'build: codes NOT PROVED' >&2; exit 1");
    let (output, log) = run_beside_build(&folder);
    assert_eq!(output.status.code(), Some(1));
    assert_eq!(output.stdout, b"");
    assert_eq!(log, "an error\nbuild: codes NOT PROVED\n");
    assert_eq!(
        String::from_utf8_lossy(&output.stderr),
        log + "dock-report: the program could not be built\n"
    );
}

/// It is built again when a source is another, and not for what a build leaves in a folder out/.
#[test]
fn the_command_builds_after_a_change_alone() {
    let folder = beside_build("build-again", "echo 'build: one proved (1 s)'");
    let built = || String::from_utf8_lossy(&run_beside_build(&folder).0.stderr).into_owned();
    assert_eq!(built(), "dock-report: one proved (1 s)\n", "the first run");
    fs::write(folder.join("crates/one/out/made"), "").expect("a file");
    assert_eq!(built(), "", "nothing has changed");
    fs::write(folder.join("crates/one/src/lib.rt"), "").expect("a source");
    assert_eq!(built(), "dock-report: one proved (1 s)\n", "a source is another");
}
