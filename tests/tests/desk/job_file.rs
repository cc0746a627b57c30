//! The option --job: the job comes from a file, and standard input is left alone.

use super::rehearse::PLANT;
use super::{complains, desk, program, Says, ANSWERED, FAILED};
use rbatl_tests::jobs;
use rbatl_tests::process::{shell, Ran};
use std::path::Path;

const NO_FILE: &str = "--job takes a file and a command";

/// A file with these bytes, made anew; no two tests have one name.
pub fn file_with(name: &str, bytes: &[u8]) -> String {
    let path = Path::new(env!("CARGO_TARGET_TMPDIR")).join(name);
    std::fs::write(&path, bytes).expect("a file of the tests");
    path.to_str().expect("a plain name").to_string()
}

/// Runs the desk on a job of jobs/, by a shell.
fn on_file(job: &str, line: &str, redirections: &str) -> Ran {
    let script = format!("\"$0\" --job \"$1/{job}\" {line} {redirections}");
    shell(&program(), &script)
}

/// Every command says the same as of a job on standard input.
#[test]
fn the_same_is_said() {
    let catch = jobs::text("catch.job");
    let refused = ["table 1", "move 3 3 5", "move 3 0 5", "rehearse 3 1 4"];
    let wrong = ["table", "move 4 0 5 0", "sheet 4 0:5:0"];
    for line in ANSWERED.into_iter().chain(refused).chain(wrong) {
        let due = desk(line, &catch);
        for input in ["< /dev/null", "<&-", "< /", "< \"$1/full.job\""] {
            assert_eq!(on_file("catch.job", line, input), due, "{line} {input}");
        }
    }
}

/// The text is read as it is, also one that is refused or too long.
#[test]
fn refused_texts() {
    let catch = jobs::text("catch.job");
    let long = [&catch[..], &[b'\n'; 32_768]].concat();
    for (number, text) in [(7, &catch[1..]), (7, b""), (1, &long)] {
        let file = file_with(&format!("refused-{number}-{}.job", text.len()), text);
        for line in ANSWERED {
            let ran = desk(&format!("--job {file} {line}"), &catch);
            assert!(ran.refused(number), "{line}: {ran:?}");
        }
    }
}

#[test]
fn standard_input_is_left() {
    for line in ANSWERED.into_iter().chain(["rehearse 3 1"]) {
        let script =
            format!("echo left | {{ \"$0\" --job \"$1/catch.job\" {line} > /dev/null; cat; }}");
        assert_eq!(shell(&program(), &script).answer(), "left\n", "{line}");
    }
}

/// Input that is no terminal holds no replies.
#[test]
fn no_replies_by_a_pipe() {
    let file = file_with("pipe.job", PLANT.as_bytes());
    let due = desk("rehearse 3 0", PLANT.as_bytes()).answer();
    assert!(due.contains("\nunfinished after 0 moves: "), "{due}");
    assert_eq!(
        desk(&format!("--job {file} rehearse 3 0"), b"8\n4\n").answer(),
        due
    );
}

#[test]
fn a_file_that_cannot_be_read() {
    for line in ANSWERED {
        for file in ["no-such.job", "no/such/file", ".", "catch.job/"] {
            let ran = on_file(file, line, "< \"$1/catch.job\"");
            let told = ran.err.starts_with("desk: cannot read the job: ");
            assert!(told && ran.err.lines().count() == 1, "{line}: {ran:?}");
            assert_eq!((ran.status, ran.out.as_str()), (FAILED, ""));
        }
    }
}

#[test]
fn wrong_words() {
    let catch = jobs::text("catch.job");
    for line in ["--job", "--job check", "--job jobs/catch.job"] {
        assert!(complains(line, &catch, NO_FILE), "{line}");
    }
    for line in [
        "--job jobs/catch.job tables",
        "--job jobs/catch.job --help",
        "--job jobs/catch.job --version",
        "--job jobs/catch.job help check",
        "--job jobs/catch.job --job jobs/catch.job check",
        "--job=jobs/catch.job check",
        "-job jobs/catch.job check",
        "--jobs jobs/catch.job check",
    ] {
        assert!(complains(line, &catch, "unknown command"), "{line}");
    }
    // It stands in front of the command; the arguments are tried before the file.
    assert!(complains("check --job no-such.job", &catch, super::COUNT));
    assert!(complains("--job no-such.job move", &catch, super::COUNT));
}
