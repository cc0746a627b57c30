//! What each command prints for Catch, with the starred values of document 01,
//! and for the sensor network.

use super::{changed, desk, Says};
use rbatl_tests::jobs;
use rbatl_tests::layout::{resource_kind, MAX, SUM};
use rbatl_tests::text::{self, EDITIONS};

fn catch(line: &str) -> String {
    desk(line, &jobs::text("catch.job")).answer()
}

fn sensor(line: &str) -> String {
    desk(line, &jobs::text("sensor.job")).answer()
}

#[test]
fn check_says_the_sizes() {
    let sizes = "passes: 2 agents, 1 resource (sum), 3 states, 1 proposition, 6 rows\n";
    assert_eq!(catch("check"), sizes);
    let sizes = "passes: 2 agents, 2 resources (sum, sum), 8 states, 1 proposition, 8 rows\n";
    assert_eq!(sensor("check"), sizes);
    let full = desk("check", &jobs::text("full.job")).answer();
    let sizes = "passes: 3 agents, 2 resources (sum, sum), 24 states, 8 propositions, 32 rows\n";
    assert_eq!(full, sizes);
    for edition in EDITIONS {
        let smallest = text::write_as(edition, &jobs::smallest(1, 1, 1, 1, 1));
        let sizes = "passes: 1 agent, 1 resource (sum), 1 state, 1 proposition, 1 row\n";
        assert_eq!(desk("check", &smallest).answer(), sizes);
    }
}

/// Every choice of kinds, of one resource and of two.
#[test]
fn check_says_the_kinds() {
    for (resources, kinds, words) in [
        (1, [SUM, 0], "1 resource (sum)"),
        (1, [MAX, 0], "1 resource (max)"),
        (2, [SUM, SUM], "2 resources (sum, sum)"),
        (2, [SUM, MAX], "2 resources (sum, max)"),
        (2, [MAX, SUM], "2 resources (max, sum)"),
        (2, [MAX, MAX], "2 resources (max, max)"),
    ] {
        let mut job = jobs::smallest(1, resources, 1, 1, 1);
        job[resource_kind(0)..].copy_from_slice(&kinds);
        let said = desk("check", &text::write(&job)).answer();
        let due = format!("passes: 1 agent, {words}, 1 state, 1 proposition, 1 row\n");
        assert_eq!(said, due);
    }
}

/// The two jobs whose minutes are of different kinds.
#[test]
fn minutes_side_by_side() {
    let minutes = |name: &str, line: &str| desk(line, &jobs::text(name));
    let table = minutes("minutes.job", "table 3").answer();
    let head = "row 3: coalition 0, 1 within 5, 5: row 2 until row 0\nstates: 0 3 4\n";
    assert!(table.starts_with(head), "{table}");
    let table = minutes("minutes-sum.job", "table 3").answer();
    let head = "row 3: coalition 0, 1 within 5, 5: row 2 until row 0\nstates: 3 4\n";
    assert!(table.starts_with(head), "{table}");
    let played = minutes("minutes.job", "move 3 0 5 5").answer();
    assert_eq!(played, "move 5: agent 0 action 1, agent 1 action 1\n");
    assert!(minutes("minutes-sum.job", "move 3 0 5 5").refused(10));
    let played = minutes("minutes-sum.job", "move 4 0 5 8").answer();
    assert_eq!(played, "move 5: agent 0 action 1, agent 1 action 1\n");
}

#[test]
fn list_is_the_listing_of_document_01() {
    assert_eq!(catch("list"), jobs::CATCH_LISTING);
}

#[test]
fn table_has_a_line_for_each_position() {
    let table = catch("table 4");
    let lines: Vec<&str> = table.lines().collect();
    assert_eq!(lines.len(), 2 + 18);
    assert_eq!(
        lines[0],
        "row 4: coalition 0, 1 within 5: row 2 until row 0"
    );
    assert_eq!(lines[1], "states: 0 1 2");
    for line in [
        "state 0, stock 5: rank 2, move 1: agent 0 action 1, agent 1 idle",
        "state 0, stock 4: rank never, no move",
        "state 1, stock 3: rank 1, move 1: agent 0 action 1, agent 1 idle",
        "state 1, stock 2: rank never, no move",
        "state 2, stock 0: rank 0, move 0: agent 0 idle, agent 1 idle",
    ] {
        assert!(lines.contains(&line), "{line} is not in\n{table}");
    }
}

#[test]
fn table_of_two_resources() {
    let table = sensor("table 3");
    let lines: Vec<&str> = table.lines().collect();
    assert_eq!(lines.len(), 2 + 8 * 4 * 2);
    assert_eq!(
        lines[0],
        "row 3: coalition 0, 1 within 3, 1: row 2 until row 0"
    );
    assert_eq!(lines[1], "states: 0 1 2 3 4 5 6 7");
    let first = "state 0, stock 3, 1: rank 3, move 1: agent 0 action 1, agent 1 idle";
    assert!(lines.contains(&first), "{table}");
    assert!(
        lines.contains(&"state 0, stock 3, 0: rank never, no move"),
        "{table}"
    );
}

/// An unlimited resource has one stock place, and its stock is 0.
#[test]
fn table_of_an_unlimited_resource() {
    let table = sensor("table 4");
    let lines: Vec<&str> = table.lines().collect();
    assert_eq!(lines.len(), 2 + 8);
    assert_eq!(
        lines[0],
        "row 4: coalition 0, 1 within inf, 0: row 2 until row 0"
    );
    assert_eq!(lines[2], "state 0, stock 0, 0: rank never, no move");
}

/// A bound that is left empty is 0, and the table says so.
#[test]
fn table_of_an_empty_bound() {
    let job = changed("until,3,5,2,0", "until,3,,2,0");
    let table = desk("table 4", &job).answer();
    let head = "row 4: coalition 0, 1 within 0: row 2 until row 0\nstates: 2\n";
    assert!(table.starts_with(head), "{table}");
    assert_eq!(table.lines().count(), 2 + 3);
}

#[test]
fn table_of_always_and_next() {
    let job = text::write(&jobs::catch_with_always());
    let table = desk("table 6", &job).answer();
    let lines: Vec<&str> = table.lines().collect();
    assert_eq!(lines[0], "row 6: coalition 1 within 0: always row 1");
    assert_eq!(lines[1], "states: 0");
    assert_eq!(
        lines[2],
        "state 0, stock 0: rank never, move 4: agent 1 action 1"
    );
    assert_eq!(lines[3], "state 1, stock 0: rank 1, no move");
    assert_eq!(lines[4], "state 2, stock 0: rank 0, no move");

    let job = String::from_utf8(jobs::text("catch.job")).unwrap();
    let job = job.replace("until,3,4,2,0", "next,1,2,0");
    let table = desk("table 5", job.as_bytes()).answer();
    let head = "row 5: coalition 0 within 2: next row 0\nstates: 2\n";
    assert!(table.starts_with(head), "{table}");
}

/// Catch where the proposition holds nowhere.
#[test]
fn a_row_without_states() {
    let job = String::from_utf8(jobs::text("catch.job")).unwrap();
    let job = job.replace("state,2,1", "state,2,0");
    let table = desk("table 4", job.as_bytes()).answer();
    assert!(table.contains("\nstates: none\n"), "{table}");
}

#[test]
fn move_is_the_tables() {
    assert_eq!(
        catch("move 4 0 5"),
        "move 1: agent 0 action 1, agent 1 idle\n"
    );
    assert_eq!(catch("move 3 1 3"), "move 1: agent 0 action 1\n");
    assert_eq!(catch("move 3 2 0"), "move 0: agent 0 idle\n");
    let seventh = text::write(&jobs::catch_with_always());
    let first = desk("move 6 0 0", &seventh).answer();
    assert_eq!(first, "move 4: agent 1 action 1\n");
    assert_eq!(
        sensor("move 3 0 3 1"),
        "move 1: agent 0 action 1, agent 1 idle\n"
    );
}

#[test]
fn reply_is_the_opponents() {
    assert_eq!(catch("reply 3 0 5 1"), "reply 4: agent 1 action 1\n");
    assert_eq!(catch("reply 3 0 5 0"), "reply 0: agent 1 idle\n");
    assert_eq!(catch("reply 4 0 4 1"), "reply 0: nobody\n");
    assert_eq!(sensor("reply 6 0 0 0 0"), "reply 0: agent 1 idle\n");
}
