//! The desk program, by running it: `desk/build` builds it first.

mod answers;
mod arguments;
mod asked;
mod charges;
mod drawing;
mod help;
mod job_file;
mod left_out;
mod needs;
mod random;
mod refusals;
mod rehearse;
mod sheets;
mod stops;
mod streams;
mod terminal;

use rbatl_tests::jobs;
use rbatl_tests::process::{self, built, Ran};
use std::path::PathBuf;

const DONE: i32 = 0;
const REFUSED: i32 = 1;
const FAILED: i32 = 2;

/// Each command with arguments that Catch has an answer to.
const ANSWERED: [&str; 9] = [
    "check",
    "list",
    "table 4",
    "move 4 0 5",
    "reply 3 0 5 1",
    "sheet 4 0:5 0:4",
    "needs 5 0",
    "rehearse 3 1 0",
    "dot 4",
];

/// Reasons that it gives for wrong arguments.
const COUNT: &str = "wrong count of numbers";
const NUMBER: &str = "not a number from 0 to 255 without leading zeros";
const POSITION: &str = "not a position STATE:STOCK[:STOCK]";
const SHEET: &str = "a sheet has 1 to 64 positions";
const SCRIPT: &str = "a script has 0 to 255 replies";
const STOCKS: &str = "not one stock for each resource of the job";
const NO_ROW: &str = "no row given, and the job has not exactly one of kind next, always or until";

/// What a sheet says where there is no move.
const LOST: &str = "no move: the coalition does not win here";
const OUTSIDE: &str = "no position: the state does not exist, or a stock is above its bound, \
                       or not 0 where the resource is unlimited or absent";

/// What a run of the desk says.
trait Says {
    fn answer(self) -> String;
    fn refused(&self, number: u8) -> bool;
    fn usage(&self) -> bool;
}

impl Says for Ran {
    /// What an answer printed; there is nothing on standard error.
    fn answer(self) -> String {
        assert_eq!((self.status, self.err.as_str()), (DONE, ""), "{}", self.out);
        self.out
    }

    /// That the library refused: the number in words on standard error, and of a
    /// text perhaps where it stops, of a script which reply it is.
    fn refused(&self, number: u8) -> bool {
        let start = format!("desk: refused, {number}: ");
        let words = self.err.strip_prefix(&start);
        let lines = self.err.lines().count();
        let due = if number == 12 { &[2][..] } else { &[1, 4] };
        let in_words = words.is_some_and(|words| words.len() > 10 && due.contains(&lines));
        self.status == REFUSED && self.out.is_empty() && in_words
    }

    /// That the arguments are wrong: a reason, and the usage line.
    fn usage(&self) -> bool {
        let lines: Vec<&str> = self.err.lines().collect();
        let told = lines.len() == 2 && lines[1].starts_with("usage: desk check | list | table ");
        self.status == FAILED && self.out.is_empty() && told
    }
}

fn program() -> PathBuf {
    built("target/desk/desk")
}

/// The words of a command line.
fn words(line: &str) -> Vec<&str> {
    line.split(' ').filter(|word| !word.is_empty()).collect()
}

/// Runs a command on a job's text.
fn desk(line: &str, text: &[u8]) -> Ran {
    run(&words(line), text)
}

/// Catch with one line changed.
fn changed(from: &str, to: &str) -> Vec<u8> {
    let catch = String::from_utf8(jobs::text("catch.job")).unwrap();
    assert!(catch.contains(from), "{from}");
    catch.replacen(from, to, 1).into_bytes()
}

/// Whether a command has wrong arguments, for the reason.
fn complains(line: &str, text: &[u8], reason: &str) -> bool {
    let ran = desk(line, text);
    ran.usage() && ran.err.starts_with(&format!("desk: {reason}\n"))
}

fn run(arguments: &[&str], text: &[u8]) -> Ran {
    process::run(&program(), arguments, text)
}
