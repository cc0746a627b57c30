//! What the desk says about itself: status 0, on standard output, without a job.

use super::{complains, desk, words, Says, ANSWERED};
use rbatl_tests::jobs;

fn said(line: &str) -> String {
    desk(line, b"").answer()
}

/// A line for each command and for each word that takes no job.
#[test]
fn the_overview() {
    let overview = said("--help");
    assert_eq!(said("help"), overview);
    assert!(overview.starts_with("usage: desk COMMAND < job\n\n"));
    let words = ["check", "list", "table [ROW]", "dot [ROW]"];
    let positions = [
        "move [ROW] STATE STOCK..",
        "reply [ROW] STATE STOCK.. MOVE",
        "sheet [ROW] STATE:STOCK[:STOCK] ..",
        "needs [ROW] STATE",
        "rehearse [ROW] STATE [REPLY ..]",
    ];
    let others = ["help COMMAND", "--job FILE COMMAND", "--help", "--version"];
    for start in words.into_iter().chain(positions).chain(others) {
        let start = format!("  {start}  ");
        let lines = overview.lines().filter(|line| line.starts_with(&start));
        let summaries: Vec<&str> = lines.map(|line| line[start.len()..].trim()).collect();
        assert_eq!(summaries.len(), 1, "{start} in\n{overview}");
        assert!(!summaries[0].is_empty(), "{start}");
    }
    for words in ["ROW may be left out where", "Exit status: 0 "] {
        assert!(overview.contains(words), "{words} is not in\n{overview}");
    }
}

/// The header's version.
#[test]
fn the_version() {
    let header = include_str!("../../../include/rbatl.h");
    let version = header.split("#define RBATL_VERSION \"").nth(1);
    let version = version.and_then(|rest| rest.split('"').next());
    assert_eq!(said("--version"), format!("desk {}\n", version.unwrap()));
    assert_eq!(said("--version"), "desk 3.3.0\n");
}

/// The call as in the overview, then what it does, takes and prints.
#[test]
fn each_command_has_its_help() {
    let overview = said("--help");
    for line in ANSWERED {
        let command = words(line)[0];
        let help = said(&format!("help {command}"));
        let call = help.strip_prefix("usage: desk ").expect("a usage line");
        let (call, rest) = call.split_once(" < job\n\n").expect("an empty line");
        assert!(call.split(' ').next() == Some(command), "{help}");
        assert!(overview.contains(&format!("\n  {call}  ")), "{help}");
        let parts: Vec<&str> = rest.split("\n\n").collect();
        assert_eq!(parts.len(), 3, "{help}");
        assert!(parts[0].len() > 20, "{help}");
        assert!(parts[1].starts_with("Arguments:"), "{help}");
        assert!(parts[2].starts_with("Output: "), "{help}");
        let row = parts[1].contains("\n  ROW ") && parts[1].contains("may be left out");
        assert_eq!(row, line != command, "{help}");
    }
}

/// The lines that a help shows stand in the answer for Catch.
#[test]
fn examples_are_true() {
    for line in ANSWERED {
        let help = said(&format!("help {}", words(line)[0]));
        let (_, output) = help.split_once("\nOutput: ").expect("an output");
        let answer = desk(line, &jobs::text("catch.job")).answer();
        let shown = output.lines().filter_map(|line| line.strip_prefix("  "));
        let mut examples = 0;
        // What stands after two spaces explains.
        for example in shown.map(|line| line.split("  ").next().expect("a first part")) {
            let mut lines = answer.lines().map(str::trim);
            assert!(lines.any(|line| line == example), "{example}:\n{answer}");
            examples += 1;
        }
        assert!(examples > 0, "{help}");
    }
}

#[test]
fn wrong_words() {
    for line in ["help table4", "help help", "help --help", "help 4"] {
        assert!(complains(line, b"", "unknown command"), "{line}");
    }
    for line in ["help check check", "help move 4", "help unknown words"] {
        assert!(complains(line, b"", "help takes one command"), "{line}");
    }
    for line in ["--help check", "--version 1", "--help --version"] {
        let reason = "an option takes no more words";
        assert!(complains(line, b"", reason), "{line}");
    }
}
