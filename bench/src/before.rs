//! The proved library as it was at another commit. Both libraries have the same symbols, so the other is linked
//! into a second build of this benchmark, which runs as a process of its own. A line with the numbers of the day
//! and of the job asks it for a call; its answer is a line with what came of it. It times the call by itself, so
//! that passing the lines is no part of the time.

use crate::days;
use crate::jobs::{self, Done, Program};
use dock_tests::abi::Answer;
use dock_tests::flat;
use std::io::{self, BufRead, BufReader, Write};
use std::process::{Child, ChildStdin, ChildStdout, Command, Stdio};
use std::time::Duration;

/// The argument with which the second build answers.
pub const ANSWER: &str = "answer";

/// Answers each line of standard input, until it ends. Each job of each day has buffers of its own.
pub fn answer() {
    let lists = days::all().map(|day| flat::of_day(&day.list));
    let mut programs = lists.each_ref().map(|fields| jobs::ALL.each_ref().map(|job| job.proved(fields)));
    for line in io::stdin().lines() {
        let [day, job] = numbers(&line.expect("a line"));
        let Done { time, answer, left } = programs[day as usize][job as usize].call();
        let [first, second, third] = answer.values;
        println!("{} {} {first} {second} {third} {left}", time.as_nanos(), answer.number);
    }
}

/// The second build, which runs, and the commit of its library.
pub struct Before {
    pub commit: String,
    process: Child,
    questions: ChildStdin,
    answers: BufReader<ChildStdout>,
}

impl Before {
    /// Starts the second build, a program in a file.
    pub fn start(commit: &str, file: &str) -> Before {
        let mut command = Command::new(file);
        command.arg(ANSWER).stdin(Stdio::piped()).stdout(Stdio::piped());
        let mut process = command.spawn().unwrap_or_else(|error| panic!("{file} does not start: {error}"));
        let questions = process.stdin.take().expect("a pipe");
        let answers = BufReader::new(process.stdout.take().expect("a pipe"));
        Before { commit: commit.to_string(), process, questions, answers }
    }

    /// The library before with a job and a list, by their numbers.
    pub fn at(&mut self, day: usize, job: usize) -> Asked<'_> {
        Asked { before: self, day, job }
    }

    /// Waits until the second build has ended, which it does when its input ends.
    pub fn end(mut self) {
        drop(self.questions);
        let status = self.process.wait().expect("the library before ends");
        assert!(status.success(), "the library before: {status}");
    }
}

/// The library before with a job and a list.
pub struct Asked<'a> {
    before: &'a mut Before,
    day: usize,
    job: usize,
}

impl Program for Asked<'_> {
    fn call(&mut self) -> Done {
        let question = format!("{} {}\n", self.day, self.job);
        self.before.questions.write_all(question.as_bytes()).expect("the library before is asked");
        let mut line = String::new();
        let read = self.before.answers.read_line(&mut line).expect("the library before answers");
        assert!(read > 0, "the library before has ended");
        let [nanoseconds, number, first, second, third, left] = numbers(&line);
        let answer = Answer { number, values: [first, second, third] };
        Done { time: Duration::from_nanos(nanoseconds), answer, left }
    }
}

/// The numbers of a line.
fn numbers<const N: usize>(line: &str) -> [u64; N] {
    let numbers: Result<Vec<u64>, _> = line.split_whitespace().map(str::parse).collect();
    let numbers = numbers.ok().and_then(|numbers| numbers.try_into().ok());
    numbers.unwrap_or_else(|| panic!("a line of {N} numbers is due, and not {line:?}"))
}
