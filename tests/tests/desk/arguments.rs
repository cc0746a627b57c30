//! Wrong arguments: a reason and a usage line on standard error, status 2.

use super::{complains, desk, run, Says, COUNT, NUMBER, POSITION, SCRIPT, SHEET, STOCKS};
use rbatl_tests::jobs;

/// The reason is the same whatever the job is.
fn complains_first(line: &str, reason: &str) {
    for job in [&jobs::text("catch.job")[..], b"no job"] {
        assert!(complains(line, job, reason), "{line}");
    }
}

#[test]
fn unknown_commands() {
    let near = ["Check", "checks", "chec", "0", "table4"];
    let words = ["-h", "-help", "--helps", "Help", "version", "--version=1"];
    for line in near.into_iter().chain(words) {
        complains_first(line, "unknown command");
    }
    complains_first("", "no command");
    assert!(run(&[""], &[]).usage());
}

/// Fewer or more numbers than any job wants.
#[test]
fn wrong_counts() {
    for line in [
        "check 0",
        "list 0",
        "table 4 0",
        "dot 4 4",
        "move",
        "move 4",
        "move 4 0 5 0 0",
        "reply",
        "reply 4",
        "reply 4 0",
        "reply 4 0 5 1 0 0",
        "needs",
        "needs 4 0 0",
        "rehearse",
    ] {
        complains_first(line, COUNT);
    }
}

/// As many as some job wants, the fewest and the most: the job is read, and here
/// refused.
#[test]
fn counts_that_wait_for_the_job() {
    for line in [
        "check",
        "list",
        "table",
        "table 4",
        "dot",
        "dot 4",
        "move 0 5",
        "move 4 0 5",
        "move 4 0 5 0",
        "reply 0 5 1",
        "reply 4 0 5 1",
        "reply 4 0 5 0 1",
        "needs 0",
        "needs 4 0",
        "rehearse 0",
        "rehearse 4 0",
        "rehearse 4 0 0",
        "sheet 0:5",
        "sheet 4 0:5",
        "sheet 0:5:0 1:5:0",
        "sheet 4 0:5:0 1:5:0",
    ] {
        assert!(desk(line, b"").refused(7), "{line}");
    }
}

/// One stock for each resource of the job; the job decides that.
#[test]
fn wrong_counts_of_stocks() {
    let (catch, sensor) = (jobs::text("catch.job"), jobs::text("sensor.job"));
    for line in ["move 4 0 5 0", "reply 4 0 5 0 1", "sheet 4 0:5:0"] {
        assert!(complains(line, &catch, STOCKS), "{line}");
    }
    for line in ["move 0 3", "reply 0 3 1", "sheet 3 0:3", "sheet 3:0 3:1"] {
        assert!(complains(line, &sensor, STOCKS), "{line}");
    }
    // The numbers of a position are not taken for a row and another.
    assert!(complains("sheet 4:0:5", &catch, STOCKS));
    assert!(complains("sheet 0:5 0:5 1:3", &sensor, STOCKS));
}

#[test]
fn no_numbers() {
    for word in [
        "256",
        "300",
        "999",
        "1000",
        "4294967300",
        "18446744073709551620",
        "00",
        "04",
        "004",
        "-1",
        "-0",
        "+4",
        "4x",
        "x4",
        "0x4",
        "4.0",
        "four",
        "inf",
        "4,",
        "²",
    ] {
        for line in [
            format!("table {word}"),
            format!("dot {word}"),
            format!("move {word} 0 5"),
            format!("move 4 {word} 5"),
            format!("move 4 0 {word}"),
            format!("move {word} 5"),
            format!("reply 3 0 5 {word}"),
            format!("needs {word}"),
            format!("needs {word} 0"),
            format!("needs 4 {word}"),
            format!("rehearse {word}"),
            format!("rehearse {word} 0"),
            format!("rehearse 4 {word}"),
            format!("rehearse 4 0 {word}"),
            format!("rehearse 4 0 0 {word} 0"),
            format!("sheet {word} 0:5"),
            format!("sheet 4 {word}:5"),
            format!("sheet 4 0:5 1:{word}"),
            format!("sheet 0:{word}:5"),
        ] {
            complains_first(&line, NUMBER);
        }
    }
    for word in ["", " ", "4 ", " 4", "4\n", "\t4"] {
        let ran = run(&["table", word], &jobs::text("catch.job"));
        assert!(ran.usage(), "{word:?}: {ran:?}");
    }
}

/// One, 64 and 65 positions, with a row and without.
#[test]
fn counts_of_positions() {
    let catch = jobs::text("catch.job");
    for line in ["sheet", "sheet 4", "sheet four"] {
        complains_first(line, SHEET);
    }
    for count in [1, 2, 63, 64] {
        let printed = desk(&format!("sheet 4{}", " 0:5".repeat(count)), &catch).answer();
        assert_eq!(printed.lines().count(), count);
        let left_out = format!("sheet{}", " 0:5".repeat(count));
        assert!(desk(&left_out, b"").refused(7), "{count}");
    }
    for row in ["", " 4"] {
        for count in [65, 66, 1000] {
            complains_first(&format!("sheet{row}{}", " 0:5".repeat(count)), SHEET);
        }
    }
}

/// None to 255 replies, and 256.
#[test]
fn counts_of_replies() {
    for count in [0, 1, 2, 254, 255] {
        let line = format!("rehearse 4 0{}", " 0".repeat(count));
        assert!(desk(&line, b"").refused(7), "{count}");
    }
    for count in [256, 257, 1000] {
        complains_first(&format!("rehearse 4 0{}", " 0".repeat(count)), SCRIPT);
    }
}

/// Words that are no positions, wherever they stand, and positions that no one job
/// has.
#[test]
fn no_positions() {
    for word in ["0", "0:5:0:0", "4:0:5:0:1"] {
        complains_first(&format!("sheet 4 {word}"), POSITION);
        complains_first(&format!("sheet 0:5 {word}"), POSITION);
    }
    for word in [
        ":", "0:", ":5", "::", "0::5", "0:5:", ":0:5", "0:5,0", "0;5:1",
    ] {
        complains_first(&format!("sheet 4 {word}"), NUMBER);
        complains_first(&format!("sheet 4 0:5 {word}"), NUMBER);
    }
    for line in [
        "sheet 0:5 0:5:0",
        "sheet 4 0:5:0 0:5",
        "sheet 4 0:5 0:5 0:5:0",
    ] {
        complains_first(line, STOCKS);
    }
}

/// 255 is a number, but no row.
#[test]
fn the_largest_number() {
    assert!(desk("table 255", &jobs::text("catch.job")).refused(8));
}
