//! Input and output that fail, and input that never ends.

use super::{program, Says, ANSWERED, DONE, FAILED};
use rbatl_tests::jobs;
use rbatl_tests::process::{shell, Ran};
use std::fs::{File, OpenOptions};
use std::process::{Command, Stdio};

/// What the desk says about itself, without a job.
const WITHOUT_A_JOB: [&str; 4] = ["--help", "--version", "help", "help move"];

/// Runs the desk by a shell that redirects its streams.
fn redirected(line: &str, redirections: &str) -> Ran {
    shell(&program(), &format!("\"$0\" {line} {redirections}"))
}

fn cannot(ran: &Ran, what: &str) -> bool {
    let start = format!("desk: cannot {what}: ");
    ran.status == FAILED && ran.err.starts_with(&start) && ran.err.lines().count() == 1
}

#[test]
fn output_on_a_full_device() {
    for line in ANSWERED.into_iter().chain(WITHOUT_A_JOB) {
        let full = OpenOptions::new().write(true).open("/dev/full");
        let job = File::open(jobs::folder().join("catch.job")).expect("Catch");
        let output = Command::new(program())
            .args(line.split(' '))
            .stdin(job)
            .stdout(full.expect("/dev/full"))
            .stderr(Stdio::piped())
            .output();
        let ran = Ran::of(output.expect("the desk runs"));
        assert!(cannot(&ran, "write"), "{line}: {ran:?}");
    }
}

/// More than a buffer of output: the failure comes midway.
#[test]
fn long_output_on_a_full_device() {
    let ran = redirected("table 11", "< \"$1/full.job\" > /dev/full");
    assert!(cannot(&ran, "write"), "{ran:?}");
}

#[test]
fn closed_output() {
    for line in ANSWERED.into_iter().chain(WITHOUT_A_JOB) {
        let ran = redirected(line, "< \"$1/catch.job\" >&-");
        assert!(cannot(&ran, "write"), "{line}: {ran:?}");
    }
}

/// A refusal writes nothing there, and is told as it is.
#[test]
fn refusals_with_closed_output() {
    let ran = redirected("table 1", "< \"$1/catch.job\" >&-");
    assert!(ran.refused(8), "{ran:?}");
    let ran = redirected("table 1", "< /dev/null > /dev/full");
    assert!(ran.refused(7), "{ran:?}");
}

/// The status alone is left where standard error is closed too.
#[test]
fn closed_error_output() {
    let ran = redirected("table 1", "< \"$1/catch.job\" 2>&-");
    assert_eq!((ran.status, ran.out.as_str()), (1, ""));
    let ran = redirected("list", "< \"$1/catch.job\" > /dev/full 2>&-");
    assert_eq!(ran.status, FAILED);
}

#[test]
fn closed_input() {
    for line in ANSWERED {
        let ran = redirected(line, "<&-");
        assert!(cannot(&ran, "read the job"), "{line}: {ran:?}");
        assert_eq!(ran.out, "");
    }
}

/// Where no job is asked about, none is read.
#[test]
fn input_that_is_left_alone() {
    for line in WITHOUT_A_JOB {
        let ran = redirected(line, "<&-");
        assert!(!ran.answer().is_empty(), "{line}");
        let script = format!("echo job | {{ \"$0\" {line} > /dev/null; cat; }}");
        assert_eq!(shell(&program(), &script).answer(), "job\n", "{line}");
    }
}

#[test]
fn a_directory_as_input() {
    for line in ANSWERED {
        let ran = redirected(line, "< /");
        assert!(cannot(&ran, "read the job"), "{line}: {ran:?}");
    }
}

#[test]
fn endless_input() {
    for line in ANSWERED {
        let mut yes = Command::new("yes")
            .stdout(Stdio::piped())
            .spawn()
            .expect("yes starts");
        let output = Command::new(program())
            .args(line.split(' '))
            .stdin(yes.stdout.take().expect("a pipe"))
            .output();
        let ran = Ran::of(output.expect("the desk runs"));
        yes.wait().expect("yes ends with the pipe");
        assert!(ran.refused(1), "{line}: {ran:?}");
    }
    let ran = redirected("check", "< /dev/zero");
    assert!(ran.refused(1), "{ran:?}");
}

/// No more is taken than shows that the text is too long.
#[test]
fn the_rest_of_a_long_text_is_left() {
    let script = "yes | head -c 40000 | { \"$0\" check; wc -c; }";
    let left = shell(&program(), script).out;
    assert_eq!(left.trim(), (40_000 - 32_769).to_string());
}

/// A text that comes in parts is one text.
#[test]
fn slow_input() {
    let script = "{ head -n 5 \"$1/catch.job\"; sleep 0.1; tail -n +6 \"$1/catch.job\"; } \
                  | \"$0\" check";
    let ran = shell(&program(), script);
    assert_eq!(ran.status, DONE, "{ran:?}");
}
