//! Programs, run on a given input.

use crate::jobs;
use std::io::Write;
use std::path::{Path, PathBuf};
use std::process::{Command, Output, Stdio};

/// What a run gave.
#[derive(Debug, PartialEq, Eq)]
pub struct Ran {
    pub status: i32,
    pub out: String,
    pub err: String,
}

impl Ran {
    pub fn of(output: Output) -> Ran {
        let text = |bytes| String::from_utf8(bytes).expect("plain text");
        Ran {
            status: output.status.code().expect("it ends by itself"),
            out: text(output.stdout),
            err: text(output.stderr),
        }
    }
}

/// A file below the project's folder that a build has to have made.
pub fn built(name: &str) -> PathBuf {
    let path = Path::new(env!("CARGO_MANIFEST_DIR")).join("..").join(name);
    assert!(path.is_file(), "{name} is missing: build it first");
    path
}

/// Runs a program on a text.
pub fn run(program: &Path, arguments: &[&str], text: &[u8]) -> Ran {
    let mut command = Command::new(program);
    let piped = command
        .args(arguments)
        .stdin(Stdio::piped())
        .stdout(Stdio::piped())
        .stderr(Stdio::piped());
    let mut child = piped.spawn().expect("the program starts");
    let mut input = child.stdin.take().expect("a pipe to the program");
    let text = text.to_vec();
    // A program that has seen enough closes the pipe, and the rest is not written.
    let writer = std::thread::spawn(move || drop(input.write_all(&text)));
    let output = child.wait_with_output().expect("the program ends");
    writer.join().expect("the text is written");
    Ran::of(output)
}

/// Runs a script of the shell in which `$0` is the program and `$1` the folder
/// of the jobs.
pub fn shell(program: &Path, script: &str) -> Ran {
    let output = Command::new("sh")
        .args(["-c", script])
        .arg(program)
        .arg(jobs::folder())
        .output();
    Ran::of(output.expect("sh runs"))
}
