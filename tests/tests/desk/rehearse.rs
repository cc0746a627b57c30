//! Rehearsals by a script: the turns, the last position, and how it ends.

use super::{desk, Says};
use rbatl_tests::{jobs, text};

/// A job with a plant, agent 1, that has something to choose.
pub const PLANT: &str = include_str!("../../../jobs/plant.job");

/// What is printed after the row.
fn lines(line: &str, job: &[u8]) -> Vec<String> {
    let printed = desk(line, job).answer();
    assert!(printed.ends_with('\n'), "{printed}");
    printed.lines().skip(1).map(String::from).collect()
}

fn plant(line: &str) -> Vec<String> {
    lines(line, PLANT.as_bytes())
}

/// With agents 0 and 1 together nobody is left to reply.
#[test]
fn of_catch() {
    let catch = |line: &str| desk(line, &jobs::text("catch.job")).answer();
    let due = "row 4: coalition 0, 1 within 5: row 2 until row 0\n\
               state 0, stock 5: move 1: agent 0 action 1, agent 1 idle; reply 0: nobody\n\
               state 1, stock 3: move 1: agent 0 action 1, agent 1 idle; reply 0: nobody\n\
               state 2, stock 0\n\
               finished after 2 moves: row 0 is true in state 2\n";
    assert_eq!(catch("rehearse 4 0 0 0"), due);
    let due = "row 5: coalition 0, 1 within 4: row 2 until row 0\n\
               state 1, stock 4: move 1: agent 0 action 1, agent 1 idle; reply 0: nobody\n\
               state 2, stock 1\n\
               finished after 1 move: row 0 is true in state 2\n";
    assert_eq!(catch("rehearse 5 1 0"), due);
}

/// The seventh row of document 01: agent 1 keeps agent 0 from leaving state 0.
#[test]
fn of_the_seventh_row() {
    let job = text::write(&jobs::catch_with_always());
    let due = "row 6: coalition 1 within 0: always row 1\n\
               state 0, stock 0: move 4: agent 1 action 1; reply 1: agent 0 action 1\n\
               state 0, stock 0: move 4: agent 1 action 1; reply 0: agent 0 idle\n\
               state 0, stock 0\n\
               finished after 2 moves: row 1 is true in every state so far\n";
    assert_eq!(desk("rehearse 6 0 1 0", &job).answer(), due);
}

/// Charge and minutes, which run side by side or are summed.
#[test]
fn of_two_resources() {
    let due = |minutes: u8| {
        let both = "move 5: agent 0 action 1, agent 1 action 1; reply 0: agent 2 idle";
        let one = "move 1: agent 0 action 1, agent 1 idle; reply 0: agent 2 idle";
        [
            format!("state 0, stock 5, {minutes}: {both}"),
            format!("state 3, stock 1, 2: {one}"),
            "state 4, stock 0, 0".to_string(),
            "finished after 2 moves: row 0 is true in state 4".to_string(),
        ]
    };
    let minutes = |name: &str, line: &str| lines(line, &jobs::text(name));
    assert_eq!(minutes("minutes.job", "rehearse 3 0 0 0"), due(5));
    assert_eq!(minutes("minutes-sum.job", "rehearse 4 0 0 0"), due(8));
}

/// Energy is unlimited in row 4 of the sensor network, and its stock stays 0.
#[test]
fn of_an_unlimited_resource() {
    let due = [
        "state 4, stock 0, 0: move 4: agent 0 idle, agent 1 action 1; reply 0: nobody",
        "state 6, stock 0, 0",
        "finished after 1 move: row 0 is true in state 6",
    ];
    assert_eq!(lines("rehearse 4 4 0", &jobs::text("sensor.job")), due);
}

/// How long an until row takes goes by the replies.
#[test]
fn of_until() {
    let first = "state 0, stock 3: move 1: agent 0 action 1; reply";
    let second = "state 1, stock 2: move 1: agent 0 action 1; reply";
    let due = [
        &format!("{first} 0: agent 1 idle"),
        "state 2, stock 2",
        "finished after 1 move: row 0 is true in state 2",
    ];
    assert_eq!(plant("rehearse 3 0 0"), due);
    let due = [
        &format!("{first} 8: agent 1 action 2"),
        &format!("{second} 4: agent 1 action 1"),
        "state 2, stock 0",
        "finished after 2 moves: row 0 is true in state 2",
    ];
    assert_eq!(plant("rehearse 3 0 8 4"), due);
    let due = [
        &format!("{first} 4: agent 1 action 1"),
        "state 1, stock 2",
        "unfinished after 1 move: the replies end before row 0 is true",
    ];
    assert_eq!(plant("rehearse 3 0 4"), due);
    let due = [
        "state 0, stock 3",
        "unfinished after 0 moves: the replies end before row 0 is true",
    ];
    assert_eq!(plant("rehearse 3 0"), due);
}

/// A row that is met in the first state takes no move.
#[test]
fn finished_at_once() {
    let due = [
        "state 2, stock 3",
        "finished after 0 moves: row 0 is true in state 2",
    ];
    assert_eq!(plant("rehearse 3 2"), due);
    let unused = "replies past the end, not used: 3";
    assert_eq!(
        plant("rehearse 3 2 99 0 255"),
        [&due[..], &[unused]].concat()
    );
}

#[test]
fn of_next() {
    let due = [
        "state 1, stock 2: move 1: agent 0 action 1; reply 4: agent 1 action 1",
        "state 2, stock 0",
        "finished after 1 move: row 0 is true in the second state, 2",
    ];
    assert_eq!(plant("rehearse 4 1 4"), due);
    let unused = "replies past the end, not used: 1";
    assert_eq!(plant("rehearse 4 1 4 255"), [&due[..], &[unused]].concat());
    let due = [
        "state 1, stock 2",
        "unfinished after 0 moves: the replies end before the second state",
    ];
    assert_eq!(plant("rehearse 4 1"), due);
}

/// Always is finished with any count of replies.
#[test]
fn of_always() {
    let due = [
        "state 0, stock 0",
        "finished after 0 moves: row 1 is true in every state so far",
    ];
    assert_eq!(plant("rehearse 5 0"), due);
    let due = [
        "state 0, stock 0: move 0: agent 0 idle; reply 4: agent 1 action 1",
        "state 0, stock 0: move 0: agent 0 idle; reply 8: agent 1 action 2",
        "state 1, stock 0: move 0: agent 0 idle; reply 4: agent 1 action 1",
        "state 1, stock 0",
        "finished after 3 moves: row 1 is true in every state so far",
    ];
    assert_eq!(plant("rehearse 5 0 4 8 4"), due);
}

/// The longest script; one reply more is not taken, of a row that would not read it
/// either.
#[test]
fn of_255_replies() {
    let printed = plant(&format!("rehearse 5 0 8{}", " 4".repeat(254)));
    assert_eq!(printed.len(), 255 + 2);
    let turn = "state 1, stock 0: move 0: agent 0 idle; reply 4: agent 1 action 1";
    assert!(printed[1..255].iter().all(|line| line == turn));
    let end = "finished after 255 moves: row 1 is true in every state so far";
    assert_eq!(printed[256], end);
    let printed = plant(&format!("rehearse 3 0{}", " 0".repeat(255)));
    assert_eq!(printed[3], "replies past the end, not used: 254");
    for row in [3, 4, 5] {
        let line = format!("rehearse {row} 2{}", " 0".repeat(256));
        assert!(super::complains(&line, PLANT.as_bytes(), super::SCRIPT));
    }
}

/// The first reply that is not available, and those that are; nothing is printed of
/// the turns before it.
#[test]
fn a_reply_that_is_not_available() {
    let words = "desk: refused, 12: a reply of the script is not available when its turn comes\n";
    let (first, second) = (
        "in state 0 the replies are 0, 4, 8\n",
        "in state 1 the replies are 0, 4\n",
    );
    for (line, told) in [
        (
            "rehearse 3 0 12",
            format!("place 1 of the script has 12; {first}"),
        ),
        (
            "rehearse 3 0 1",
            format!("place 1 of the script has 1; {first}"),
        ),
        (
            "rehearse 3 0 255 0",
            format!("place 1 of the script has 255; {first}"),
        ),
        (
            "rehearse 3 0 4 8",
            format!("place 2 of the script has 8; {second}"),
        ),
        (
            "rehearse 3 0 4 16 99",
            format!("place 2 of the script has 16; {second}"),
        ),
        (
            "rehearse 5 0 8 4 0 8 4",
            format!("place 4 of the script has 8; {second}"),
        ),
        (
            "rehearse 4 1 8",
            format!("place 1 of the script has 8; {second}"),
        ),
    ] {
        let ran = desk(line, PLANT.as_bytes());
        assert!(ran.refused(12), "{line}: {ran:?}");
        assert_eq!(ran.err, format!("{words}{told}"), "{line}");
    }
}

/// The replies that are said to be available are those that the library takes.
#[test]
fn every_number_as_a_reply() {
    let full = jobs::text("full.job");
    let cases: [(&[u8], &str, &str); 3] = [
        (PLANT.as_bytes(), "3 0", "0, 4, 8"),
        (&full, "16 20", "0, 16, 32, 48"),
        (
            &full,
            "7 15",
            "0, 4, 8, 12, 16, 20, 24, 28, 32, 36, 40, 44, 48, 52, 56, 60",
        ),
    ];
    for (job, start, replies) in cases {
        let available = |number: &String| replies.split(", ").any(|reply| reply == number);
        for number in (0..=255).map(|number: u8| number.to_string()) {
            let ran = desk(&format!("rehearse {start} {number}"), job);
            let told = format!("the replies are {replies}\n");
            let refused = ran.refused(12) && ran.err.ends_with(&told);
            let answered = ran.status == super::DONE;
            let due = if available(&number) {
                answered
            } else {
                refused
            };
            assert!(due, "{start} {number}: {ran:?}");
        }
    }
}
