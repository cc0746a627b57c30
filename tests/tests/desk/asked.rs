//! Rehearsals at a terminal: the desk asks for each reply.

use super::job_file::file_with;
use super::rehearse::PLANT;
use super::terminal::{Terminal, CTRL_D};
use super::{program, Says, DONE, FAILED, REFUSED};
use rbatl_tests::jobs;
use rbatl_tests::process::Ran;
use std::process::Command;
use std::sync::OnceLock;

const PROMPT: &str = "your reply: ";
const ASKS: &str = "type the number of a reply to each move; an empty line ends the rehearsal\n";
const NO_NUMBER: &str = "that is not a number from 0 to 255 without leading zeros\n";

/// The job of the plant in a file, which all tests read.
fn file() -> &'static str {
    static FILE: OnceLock<String> = OnceLock::new();
    FILE.get_or_init(|| file_with("asked.job", PLANT.as_bytes()))
}

/// What stands on the terminal after the desk has asked for each of these, and the
/// status. The keys of an answer come when it is asked for.
fn at_terminal(arguments: &[&str], before: &str, answers: &[&str]) -> (i32, String) {
    let mut terminal = Terminal::new();
    let mut child = terminal.start(arguments);
    terminal.keys(before);
    for answer in answers {
        terminal.wait_for(PROMPT);
        terminal.keys(answer);
    }
    let shown = terminal.all();
    let status = child.wait().expect("the desk ends").code();
    (status.expect("by itself"), shown)
}

/// The same of a row and a state, with the job of the plant in a file.
fn asked(row: &str, state: &str, answers: &[&str]) -> String {
    let (status, shown) = at_terminal(&["--job", file(), "rehearse", row, state], "", answers);
    assert_eq!(status, DONE, "{shown}");
    shown
}

/// A turn in state 0 and one in state 1 of row 3, as they are asked about.
const FIRST: &str = "state 0, stock 3: move 1: agent 0 action 1\n  \
                     reply 0: agent 1 idle\n  \
                     reply 4: agent 1 action 1\n  \
                     reply 8: agent 1 action 2\n\
                     your reply: ";
const SECOND: &str = "state 1, stock 2: move 1: agent 0 action 1\n  \
                      reply 0: agent 1 idle\n  \
                      reply 4: agent 1 action 1\n\
                      your reply: ";
const UNTIL: &str = "row 3: coalition 0 within 3: row 2 until row 0\n";

#[test]
fn of_until() {
    let due = format!(
        "{UNTIL}{ASKS}{FIRST}8\n{SECOND}4\n\
         state 2, stock 0\nfinished after 2 moves: row 0 is true in state 2\n"
    );
    assert_eq!(asked("3", "0", &["8\n", "4\n"]), due);
    let due = format!(
        "{UNTIL}{ASKS}{FIRST}0\n\
         state 2, stock 2\nfinished after 1 move: row 0 is true in state 2\n"
    );
    assert_eq!(asked("3", "0", &["0\n"]), due);
}

/// A reply that is not available, here or any longer, is asked for again.
#[test]
fn a_wrong_reply() {
    let due = format!(
        "{UNTIL}{ASKS}{FIRST}12\nreply 12 is not available here\n\
         {PROMPT}1\nreply 1 is not available here\n\
         {PROMPT}8\n{SECOND}8\nreply 8 is not available here\n\
         {PROMPT}255\nreply 255 is not available here\n\
         {PROMPT}0\nstate 2, stock 0\nfinished after 2 moves: row 0 is true in state 2\n"
    );
    let answers = ["12\n", "1\n", "8\n", "8\n", "255\n", "0\n"];
    assert_eq!(asked("3", "0", &answers), due);
}

#[test]
fn a_line_that_is_no_number() {
    let long = "1".repeat(2000);
    for word in [
        "four", "04", "256", "-1", "+4", "4 4", " 4", "4 ", " ", "4,", "²", &long,
    ] {
        let shown = asked("3", "0", &[&format!("{word}\n"), "0\n"]);
        let due = format!("{FIRST}{word}\n{NO_NUMBER}{PROMPT}0\nstate 2, stock 2\n");
        assert!(shown.contains(&due), "{shown}");
    }
    // A byte 0 is shown in its own way.
    let shown = asked("3", "0", &["4\0\n", "0\n"]);
    assert!(shown.contains(NO_NUMBER), "{shown}");
}

/// An empty line and the end of input end it before its end.
#[test]
fn ended_by_the_pupil() {
    let end =
        |moves: &str| format!("\nunfinished after {moves}: the replies end before row 0 is true\n");
    for stop in ["\n", CTRL_D] {
        let due = format!("{UNTIL}{ASKS}{FIRST}{}", end("0 moves"));
        assert_eq!(asked("3", "0", &[stop]), due);
        let due = format!("{UNTIL}{ASKS}{FIRST}4\n{SECOND}{}", end("1 move"));
        assert_eq!(asked("3", "0", &["4\n", stop]), due);
    }
    // The last line may have no end.
    let due = format!("{UNTIL}{ASKS}{FIRST}4\n{SECOND}{}", end("1 move"));
    assert_eq!(asked("3", "0", &["4\x04\x04"]), due);
}

#[test]
fn of_next() {
    let shown = asked("4", "1", &["4\n"]);
    let end = "state 2, stock 0\nfinished after 1 move: row 0 is true in the second state, 2\n";
    assert!(shown.ends_with(&format!("{PROMPT}4\n{end}")), "{shown}");
    let shown = asked("4", "1", &[CTRL_D]);
    let end = "unfinished after 0 moves: the replies end before the second state\n";
    assert!(shown.ends_with(&format!("{PROMPT}\n{end}")), "{shown}");
}

/// Always goes on until the pupil ends it.
#[test]
fn of_always() {
    let end = |moves| format!("finished after {moves}: row 1 is true in every state so far\n");
    for stop in ["\n", CTRL_D] {
        let shown = asked("5", "0", &[stop]);
        let due = format!("{PROMPT}\n{}", end("0 moves"));
        assert!(shown.ends_with(&due), "{shown}");
        let shown = asked("5", "0", &["4\n", "8\n", "4\n", stop]);
        let due = format!("{PROMPT}\n{}", end("3 moves"));
        assert!(shown.ends_with(&due), "{shown}");
    }
}

/// Or until the script has no more room.
#[test]
fn of_255_replies() {
    let shown = asked("5", "1", &["4\n"; 255]);
    let end =
        "4\nstate 1, stock 0\nfinished after 255 moves: row 1 is true in every state so far\n";
    assert!(shown.ends_with(end), "{shown}");
    assert_eq!(shown.matches(PROMPT).count(), 255);
}

#[test]
fn finished_at_once() {
    let due =
        format!("{UNTIL}state 2, stock 3\nfinished after 0 moves: row 0 is true in state 2\n");
    assert_eq!(asked("3", "2", &[]), due);
}

/// Two opponents have up to 16 replies.
#[test]
fn of_many_replies() {
    let job = jobs::folder().join("full.job");
    let job = job.to_str().expect("a plain name");
    let (status, shown) = at_terminal(&["--job", job, "rehearse", "7", "15"], "", &["60\n"]);
    assert_eq!(status, DONE, "{shown}");
    assert_eq!(shown.matches("\n  reply ").count(), 16);
    let last = "\n  reply 60: agent 1 action 3, agent 2 action 3\nyour reply: 60\n";
    assert!(shown.contains(last), "{shown}");
}

/// The job comes from the terminal too, up to its end, and then the replies.
#[test]
fn of_a_job_that_is_typed() {
    let job = format!("{PLANT}{CTRL_D}");
    let answers = ["9\n", "8\n", "x\n", "0\n"];
    let (status, shown) = at_terminal(&["rehearse", "3", "0"], &job, &answers);
    let due = format!(
        "{PLANT}{UNTIL}{ASKS}{FIRST}9\nreply 9 is not available here\n\
         {PROMPT}8\n{SECOND}x\n{NO_NUMBER}\
         {PROMPT}0\nstate 2, stock 0\nfinished after 2 moves: row 0 is true in state 2\n"
    );
    assert_eq!((status, shown), (DONE, due));
    let (status, shown) = at_terminal(&["rehearse", "3", "0"], &job, &[CTRL_D]);
    let end = "\nunfinished after 0 moves: the replies end before row 0 is true\n";
    assert_eq!(status, DONE, "{shown}");
    assert!(shown.ends_with(&format!("{FIRST}{end}")), "{shown}");
}

/// With replies nothing is asked, and a refusal is told as it is.
#[test]
fn nothing_to_ask() {
    let run =
        |words: &[&str]| at_terminal(&[&["--job", file(), "rehearse"], words].concat(), "", &[]);
    let (status, shown) = run(&["3", "0", "8"]);
    assert_eq!(status, DONE, "{shown}");
    let end = "unfinished after 1 move: the replies end before row 0 is true\n";
    assert!(shown.ends_with(end) && !shown.contains(PROMPT), "{shown}");
    for (words, number) in [(["0", "0"], 8), (["3", "3"], 9), (["5", "2"], 10)] {
        let (status, shown) = run(&words);
        let start = format!("desk: refused, {number}: ");
        assert_eq!(status, REFUSED, "{shown}");
        assert!(shown.starts_with(&start), "{shown}");
    }
}

/// Runs a script of the shell with `$0` for the desk, `$1` for the job, and the
/// terminal as input, which may be one that cannot be read.
fn with_input(terminal: &Terminal, read: bool, script: &str) -> Ran {
    let output = Command::new("sh")
        .args(["-c", script])
        .arg(program())
        .arg(file())
        .stdin(terminal.stream(read))
        .output();
    Ran::of(output.expect("sh runs"))
}

const PLAIN: &str = "\"$0\" --job \"$1\" rehearse 3 0";

/// What is asked goes to standard output, wherever that leads.
#[test]
fn output_to_a_pipe() {
    let mut terminal = Terminal::new();
    terminal.keys("8\n4\n");
    let due = format!(
        "{UNTIL}{ASKS}{FIRST}{SECOND}state 2, stock 0\n\
         finished after 2 moves: row 0 is true in state 2\n"
    );
    assert_eq!(with_input(&terminal, true, PLAIN).answer(), due);
}

/// A question that cannot be shown takes no line.
#[test]
fn output_that_fails() {
    let mut terminal = Terminal::new();
    terminal.keys("left\n\n\x04");
    let script = format!("{PLAIN} > /dev/full; echo $?; cat");
    let ran = with_input(&terminal, true, &script);
    assert_eq!(ran.out, format!("{FAILED}\nleft\n\n"));
    assert!(ran.err.starts_with("desk: cannot write: "), "{ran:?}");
}

#[test]
fn input_that_fails() {
    let ran = with_input(&Terminal::new(), false, PLAIN);
    let told = ran.err.starts_with("desk: cannot read a reply: ");
    assert!(told && ran.err.lines().count() == 1, "{ran:?}");
    assert_eq!(ran.status, FAILED, "{ran:?}");
    assert_eq!(ran.out, format!("{UNTIL}{ASKS}{FIRST}\n"));
}
