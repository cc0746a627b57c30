//! Sheets: a line for each position, in order, and status 0 also where there is no
//! move.

use super::{desk, Says, DONE, LOST, OUTSIDE};
use rbatl_tests::process::Ran;
use rbatl_tests::{jobs, text};

/// What is printed for a sheet of these positions.
fn lines(line: &str, job: &[u8]) -> Vec<String> {
    let printed = desk(line, job).answer();
    assert!(printed.ends_with('\n'), "{printed}");
    printed.lines().map(String::from).collect()
}

#[test]
fn of_catch() {
    let line = "sheet 4 0:5 0:4 1:3 2:0 3:0 1:6 0:5";
    let won = "state 0, stock 5: move 1: agent 0 action 1, agent 1 idle";
    let due = [
        won.to_string(),
        format!("state 0, stock 4: {LOST}"),
        "state 1, stock 3: move 1: agent 0 action 1, agent 1 idle".to_string(),
        "state 2, stock 0: move 0: agent 0 idle, agent 1 idle".to_string(),
        format!("state 3, stock 0: {OUTSIDE}"),
        format!("state 1, stock 6: {OUTSIDE}"),
        won.to_string(),
    ];
    assert_eq!(lines(line, &jobs::text("catch.job")), due);
}

/// A line is the table's without the rank, wherever there is a move.
#[test]
fn as_the_table() {
    let job = jobs::text("catch.job");
    let table = desk("table 4", &job).answer();
    for entry in table.lines().skip(2).filter(|line| line.contains(", move")) {
        let (position, rest) = entry.split_once(": ").expect("a position");
        let (_, played) = rest.split_once(", ").expect("a rank");
        let words: Vec<&str> = position.split([' ', ',']).collect();
        let line = format!("sheet 4 {}:{}", words[1], words[4]);
        assert_eq!(lines(&line, &job), [format!("{position}: {played}")]);
    }
}

#[test]
fn of_two_resources() {
    let due = [
        "state 0, stock 3, 1: move 1: agent 0 action 1, agent 1 idle".to_string(),
        format!("state 0, stock 3, 0: {LOST}"),
        format!("state 0, stock 3, 2: {OUTSIDE}"),
        format!("state 8, stock 0, 0: {OUTSIDE}"),
        format!("state 255, stock 255, 255: {OUTSIDE}"),
    ];
    let line = "sheet 3 0:3:1 0:3:0 0:3:2 8:0:0 255:255:255";
    assert_eq!(lines(line, &jobs::text("sensor.job")), due);
}

/// Number 8 refuses the whole sheet, and 9 and 10 do not, one or all of them.
#[test]
fn refusals() {
    let catch = |line: &str| -> Ran { desk(line, &jobs::text("catch.job")) };
    for line in ["sheet 1 0:5", "sheet 6 0:5 0:4", "sheet 255 255:255"] {
        assert!(catch(line).refused(8), "{line}");
    }
    for line in [
        "sheet 4 0:4",
        "sheet 4 3:0",
        "sheet 4 0:4 3:0 0:5",
        "sheet 3 255:255",
    ] {
        assert_eq!(catch(line).status, DONE, "{line}");
    }
}

#[test]
fn of_always() {
    let job = text::write(&jobs::catch_with_always());
    let due = [
        "state 0, stock 0: move 4: agent 1 action 1".to_string(),
        format!("state 1, stock 0: {LOST}"),
    ];
    assert_eq!(lines("sheet 6 0:0 1:0", &job), due);
}
