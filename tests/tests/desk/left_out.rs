//! A row that is left out: the count of the numbers tells, and the job must have
//! exactly one strategic row.

use super::{complains, desk, Says, NO_ROW, STOCKS};
use rbatl_tests::layout::*;
use rbatl_tests::random::{self, cases, Rng};
use rbatl_tests::{jobs, text};

/// The rows of Catch whose kind is strategic are the last three, and this is
/// Catch with others in their place.
fn catch_with(rows: [&str; 3]) -> Vec<u8> {
    let job = String::from_utf8(jobs::text("catch.job")).unwrap();
    let last = job.find("until").expect("a strategic row");
    format!("{}{}\n", &job[..last], rows.join("\n")).into_bytes()
}

/// Row 3 alone is strategic, and has one resource.
fn one_resource() -> Vec<u8> {
    catch_with(["until,1,5,2,0", "not,3", "or,3,0"])
}

/// Row 3 alone is strategic, and has two resources: the sensor network with its
/// first four rows.
fn two_resources() -> Vec<u8> {
    let job = String::from_utf8(jobs::text("sensor.job")).unwrap();
    let (job, _) = job.split_once("until,3,inf").expect("row 4");
    job.replacen("job,2,2,8,1,8", "job,2,2,8,1,4", 1)
        .into_bytes()
}

/// The same is said, answered or refused, with the row left out and with it.
fn same(job: &[u8], short: &str, long: &str) {
    let ran = desk(short, job);
    assert_ne!(ran.status, super::FAILED, "{short}: {ran:?}");
    assert_eq!(ran, desk(long, job), "{short}");
}

#[test]
fn with_one_resource() {
    let job = one_resource();
    same(&job, "table", "table 3");
    same(&job, "dot", "dot 3");
    same(&job, "move 1 3", "move 3 1 3");
    same(&job, "reply 0 5 1", "reply 3 0 5 1");
    same(&job, "sheet 1:3 0:5", "sheet 3 1:3 0:5");
    same(&job, "needs 1", "needs 3 1");
    same(&job, "rehearse 1", "rehearse 3 1");
    assert_eq!(desk("needs 1", &job).status, super::DONE);
    assert_eq!(desk("rehearse 1", &job).status, super::DONE);
    assert_eq!(desk("move 1 3", &job).status, super::DONE);
    assert_eq!(desk("reply 0 5 1", &job).status, super::DONE);
    assert_eq!(desk("sheet 1:3 0:5", &job).status, super::DONE);
    // Refusals too.
    same(&job, "needs 3", "needs 3 3");
    same(&job, "rehearse 0", "rehearse 3 0");
    same(&job, "rehearse 3", "rehearse 3 3");
    same(&job, "move 3 3", "move 3 3 3");
    same(&job, "move 1 6", "move 3 1 6");
    same(&job, "move 1 2", "move 3 1 2");
    same(&job, "reply 0 5 255", "reply 3 0 5 255");
    assert!(complains("move 3 1 3 0", &job, STOCKS));
    assert!(complains("reply 3 0 5 1 0", &job, STOCKS));
}

#[test]
fn with_two_resources() {
    let job = two_resources();
    same(&job, "table", "table 3");
    same(&job, "dot", "dot 3");
    same(&job, "move 0 3 1", "move 3 0 3 1");
    same(&job, "reply 0 0 0 0", "reply 3 0 0 0 0");
    same(&job, "sheet 0:3:1 0:0:0", "sheet 3 0:3:1 0:0:0");
    same(&job, "needs 0", "needs 3 0");
    same(&job, "rehearse 0", "rehearse 3 0");
    assert_eq!(desk("move 0 3 1", &job).status, super::DONE);
    assert_eq!(desk("reply 0 0 0 0", &job).status, super::DONE);
    // Three numbers are a row, a state and a stock with one resource only.
    same(&job, "move 3 0 3", "move 3 3 0 3");
    assert!(desk("move 3 0 3", &job).refused(9));
    assert!(complains("move 0 3", &job, STOCKS));
    assert!(complains("reply 0 3 1", &job, STOCKS));
}

/// The first job that anybody sees has one strategic row, its last.
#[test]
fn of_the_first_job() {
    let job = jobs::text("first.job");
    same(&job, "table", "table 2");
    same(&job, "move 0 2", "move 2 0 2");
    same(&job, "reply 0 1 0", "reply 2 0 1 0");
    same(&job, "sheet 0:2", "sheet 2 0:2");
    same(&job, "needs 0", "needs 2 0");
    same(&job, "rehearse 0", "rehearse 2 0");
}

/// With replies it is never left out: two numbers are a row and a state, whatever
/// the job.
#[test]
fn of_a_script() {
    let job = one_resource();
    assert!(desk("rehearse 1 0", &job).refused(8));
    assert!(desk("rehearse 1 0 0", &job).refused(8));
    assert_eq!(desk("rehearse 3 1 0", &job).status, super::DONE);
}

#[test]
fn of_each_strategic_kind() {
    for row in ["next,1,5,2", "always,1,5,2", "until,1,5,2,0"] {
        let job = catch_with([row, "not,3", "or,3,0"]);
        same(&job, "table", "table 3");
        let job = catch_with(["not,0", row, "prop,0"]);
        same(&job, "table", "table 4");
    }
}

/// None, two and three: the row has to be said.
#[test]
fn of_several_rows_or_none() {
    let none = catch_with(["not,0", "or,0,1", "prop,0"]);
    let two = catch_with(["until,1,5,2,0", "not,3", "next,1,5,2"]);
    for job in [none, two, jobs::text("catch.job")] {
        for line in [
            "table",
            "dot",
            "move 0 5",
            "reply 0 5 1",
            "sheet 0:5 0:4",
            "needs 0",
            "rehearse 0",
        ] {
            assert!(complains(line, &job, NO_ROW), "{line}");
        }
        assert_eq!(desk("dot 0", &job).status, super::DONE);
        assert!(desk("table 0", &job).refused(8));
    }
    let smallest = text::write(&jobs::smallest(1, 2, 1, 1, 1));
    for line in ["table", "dot", "move 0 0 0", "reply 0 0 0 0", "sheet 0:0:0"] {
        assert!(complains(line, &smallest, NO_ROW), "{line}");
    }
}

#[test]
fn of_random_jobs() {
    let mut found = 0;
    for case in 0..cases(100) {
        let mut rng = Rng::for_case(113, case);
        let sizes = random::small_sizes(&mut rng);
        let block = random::block(&mut rng, sizes);
        let strategic = |i: &usize| is_strategic(block[row(*i, KIND)]);
        let rows: Vec<usize> = (0..sizes.rows).filter(strategic).collect();
        let text = text::write(&block);
        match rows[..] {
            [only] => same(&text, "table", &format!("table {only}")),
            _ => assert!(complains("table", &text, NO_ROW), "case {case}"),
        }
        found += usize::from(rows.len() == 1);
    }
    assert!(found > 5, "{found}");
}
