//! The script tools/build, beside an `rt` that says and does what the test wants.

use crate::folder::Folder;
use std::fs;
use std::process::{Command, Output};

/// A folder with the script, the crates `low`, `abi_c` above it and `dock`, and this program `rt`.
fn beside_rt(name: &str, rt: &str) -> Folder {
    let folder = Folder::with(name, &["tools", "crates/low", "crates/abi_c/out", "crates/dock/out"]);
    folder.copy("tools/build");
    folder.copy("tools/below");
    fs::write(folder.join("crates.txt"), "# lowest first\nlow:\nabi_c staticlib: low\ndock: low\n")
        .expect("crates");
    folder.program("rt", rt);
    folder
}

fn run(folder: &Folder, arguments: &[&str]) -> (Output, String) {
    let mut command = Command::new(folder.join("tools/build"));
    folder.first_in_path(&mut command);
    let output = command.args(arguments).output().expect("the script must start");
    let said = String::from_utf8_lossy(&output.stdout).into_owned();
    (output, said)
}

/// Names the crate that it stands in and makes both results.
const MAKES: &str = "echo \"$* in ${PWD##*/}\"; mkdir -p out; echo made >out/libabi_c.a; echo made >out/dock";

#[test]
fn each_crate_is_proved_from_below_and_the_results_are_put_in_their_places() {
    let folder = beside_rt("build-both", MAKES);
    let (output, said) = run(&folder, &[]);
    assert!(output.status.success(), "{said}");
    let lines: Vec<&str> = said.lines().map(|line| line.split(" (").next().expect("a part")).collect();
    let library = ["lib in low", "build: low proved", "lib in abi_c", "build: abi_c proved"];
    let program = ["lib in low", "build: low proved", "run in dock", "build: dock proved"];
    assert_eq!(lines, [library, program].concat());
    for made in ["target/staticlib/libabi.a", "target/bin/dock"] {
        assert_eq!(fs::read_to_string(folder.join(made)).expect(made), "made\n");
    }
}

#[test]
fn one_of_the_two_is_built_alone() {
    for (what, made, other) in
        [("library", "staticlib/libabi.a", "bin/dock"), ("program", "bin/dock", "staticlib/libabi.a")]
    {
        let folder = beside_rt(&format!("build-{what}"), MAKES);
        let (output, said) = run(&folder, &[what]);
        assert!(output.status.success(), "{said}");
        assert!(folder.join("target").join(made).exists(), "{what}");
        assert!(!folder.join("target").join(other).exists(), "{what}");
    }
}

/// The kit says nothing of a library in which nothing has changed, and of a program that it stands as it was.
#[test]
fn a_crate_in_which_nothing_has_changed_is_passed_over() {
    let unchanged = "echo 'rt: nothing has changed since the last proved build, by out/dock.stamp'";
    let folder = beside_rt("build-unchanged", &format!("[ \"$1\" = lib ] || {unchanged}"));
    fs::write(folder.join("crates/abi_c/out/libabi_c.a"), "").expect("a library");
    fs::write(folder.join("crates/dock/out/dock"), "").expect("a program");
    let (output, said) = run(&folder, &[]);
    assert!(output.status.success());
    assert_eq!(said, "");
}

#[test]
fn a_crate_that_is_not_proved_ends_it() {
    let folder = beside_rt("build-fails", "echo \"an error in ${PWD##*/}\"; exit 1");
    let (output, said) = run(&folder, &[]);
    assert_eq!(output.status.code(), Some(1));
    assert_eq!(said, "an error in low\nbuild: low NOT PROVED\n");
    assert!(!folder.join("target").exists(), "something is built");
}

#[test]
fn it_refuses_what_it_does_not_know() {
    let folder = beside_rt("build-usage", "echo asked");
    for arguments in [&["both"][..], &["all"], &["library", "program"]] {
        let (output, said) = run(&folder, arguments);
        assert_eq!((output.status.code(), &said[..]), (Some(2), ""), "{arguments:?}");
        assert!(String::from_utf8_lossy(&output.stderr).starts_with("usage: "), "{arguments:?}");
    }
}
