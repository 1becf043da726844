//! The report program as it is built, run from the outside with something to read on its standard input.

use crate::cases::root;
use std::io::{ErrorKind, Read, Write};
use std::path::PathBuf;
use std::process::{Child, ChildStdin, Command, Stdio};
use std::thread;
use std::time::{Duration, Instant};

/// Where the program is built.
fn path() -> PathBuf {
    root().join("target/bin/dock")
}

/// Starts the program. Without it no test of it can pass.
#[track_caller]
fn start(input: Stdio) -> Child {
    let path = path();
    assert!(path.is_file(), "the program {} is not built: run 'tools/build' first", path.display());
    let mut command = Command::new(&path);
    command.stdin(input).stdout(Stdio::piped()).stderr(Stdio::piped());
    command.spawn().unwrap_or_else(|error| panic!("{} does not start: {error}", path.display()))
}

/// A program that has all it needs ends long before this. One that waits for more input would never end.
const LONGEST_RUN: Duration = Duration::from_secs(120);

/// Waits until the program ends by itself, with exit status 0 and nothing on standard error, and gives what
/// it wrote to standard output.
#[track_caller]
fn finish(mut program: Child) -> String {
    let reader = |pipe: Option<Box<dyn Read + Send>>| {
        let mut pipe = pipe.expect("a pipe");
        thread::spawn(move || {
            let mut bytes = vec![];
            pipe.read_to_end(&mut bytes).map(|_| bytes)
        })
    };
    let output = reader(program.stdout.take().map(|pipe| Box::new(pipe) as _));
    let errors = reader(program.stderr.take().map(|pipe| Box::new(pipe) as _));
    let begin = Instant::now();
    let status = loop {
        match program.try_wait().expect("the program's state") {
            Some(status) => break Some(status),
            None if begin.elapsed() > LONGEST_RUN => break None,
            None => thread::sleep(Duration::from_millis(1)),
        }
    };
    if status.is_none() {
        program.kill().and_then(|()| program.wait()).expect("the program is ended");
    }
    let [output, errors] = [output, errors].map(|pipe| pipe.join().expect("a reader").expect("bytes"));
    let status = status.expect("the program does not end");
    assert!(status.success(), "{status}");
    assert_eq!(String::from_utf8_lossy(&errors), "", "on standard error");
    String::from_utf8(output).expect("a report is text")
}

/// Runs the program while `feed` writes to its standard input, and gives its output and what `feed` gives. The
/// input ends when `feed` drops the pipe.
#[track_caller]
pub fn fed<T: Send>(feed: impl FnOnce(ChildStdin) -> T + Send) -> (String, T) {
    let mut program = start(Stdio::piped());
    let pipe = program.stdin.take().expect("a pipe");
    thread::scope(|scope| {
        let feeding = scope.spawn(|| feed(pipe));
        (finish(program), feeding.join().expect("fed"))
    })
}

/// Runs the program with this input, and gives its output. It may leave only what is more than it takes.
#[track_caller]
pub fn output(input: &[u8]) -> String {
    let (text, complete) = fed(|mut pipe| wrote(&mut pipe, input));
    assert!(complete || input.len() > crate::report::LONGEST_INPUT, "input was left, {} bytes", input.len());
    text
}

/// Writes bytes to the program, and says whether it was still there to take them.
#[track_caller]
pub fn wrote(pipe: &mut ChildStdin, bytes: &[u8]) -> bool {
    match pipe.write_all(bytes) {
        Ok(()) => true,
        Err(error) if error.kind() == ErrorKind::BrokenPipe => false,
        Err(error) => panic!("{error}"),
    }
}

/// Runs the program with its standard input connected so, and gives its output.
#[track_caller]
pub fn connected(input: Stdio) -> String {
    finish(start(input))
}
