//! What a row needs in a state: a line for each smallest allowance.

use super::{changed, desk, Says};
use rbatl_tests::layout::*;
use rbatl_tests::model::{Model, ALLOWANCES_BYTES, ROOM_BYTES};
use rbatl_tests::random::{any_text, cases, Rng};
use rbatl_tests::{games, jobs, text};

const SEED: u64 = 0x64_6573_6B;

/// What is printed after the row.
fn lines(line: &str, job: &[u8]) -> Vec<String> {
    let printed = desk(line, job).answer();
    assert!(printed.ends_with('\n'), "{printed}");
    printed.lines().skip(1).map(String::from).collect()
}

/// The bounds of the row play no part and are not shown.
#[test]
fn of_catch() {
    let catch = |line: &str| desk(line, &jobs::text("catch.job")).answer();
    let needs = "coalition 0, 1: row 2 until row 0\n\
                 state 0: enough: 5 of resource 0\n\
                 state 0: nothing smaller is enough\n";
    assert_eq!(catch("needs 4 0"), format!("row 4: {needs}"));
    assert_eq!(catch("needs 5 0"), format!("row 5: {needs}"));
    let needs = "row 3: coalition 0: row 2 until row 0\n\
                 state 0: no allowance from 0 to 15 is enough\n";
    assert_eq!(catch("needs 3 0"), needs);
    let needs = "row 3: coalition 0: row 2 until row 0\nstate 2: enough: 0 of resource 0\n";
    assert_eq!(catch("needs 3 2"), needs);
}

/// Charge and minutes, which run side by side or are summed; energy and memory.
#[test]
fn of_two_resources() {
    let needs = |name: &str, line: &str| lines(line, &jobs::text(name));
    let due = |minutes: u8| {
        [
            format!("state 0: enough: 5 of resource 0 and {minutes} of resource 1"),
            "state 0: nothing smaller is enough".to_string(),
        ]
    };
    assert_eq!(needs("minutes.job", "needs 3 0"), due(5));
    assert_eq!(needs("minutes-sum.job", "needs 3 0"), due(8));
    let due = [
        "state 0: enough: 3 of resource 0 and 1 of resource 1",
        "state 0: nothing smaller is enough",
    ];
    assert_eq!(needs("sensor.job", "needs 3 0"), due);
}

/// From state 0 three actions lead to state 1, for 3 of either resource or 2 of both;
/// state 2 is not left. Row 1 has these bounds.
fn trade(bounds: &str) -> Vec<u8> {
    let text = format!(
        "job2,1,2,3,1,2,sum,sum\n\
         state,0,0\nacts,0,0,4,0,0,3,0,0,3,2,2\ngo,0,0,1,1,1\n\
         state,1,1\nacts,1,0,1,0,0\ngo,1,1\n\
         state,2,0\nacts,2,0,1,0,0\ngo,2,2\n\
         prop,0\nnext,1,{bounds},0\n"
    );
    text.into_bytes()
}

#[test]
fn of_several_allowances() {
    for bounds in ["0,0", "15,15", ","] {
        let due = [
            "state 0: enough: 0 of resource 0 and 3 of resource 1",
            "state 0: enough: 2 of resource 0 and 2 of resource 1",
            "state 0: enough: 3 of resource 0 and 0 of resource 1",
            "state 0: nothing smaller is enough",
        ];
        assert_eq!(lines("needs 1 0", &trade(bounds)), due);
        let due = ["state 1: enough: 0 of resource 0 and 0 of resource 1"];
        assert_eq!(lines("needs 1 1", &trade(bounds)), due);
        let due = ["state 2: no allowance from 0 to 15 is enough"];
        assert_eq!(lines("needs 1 2", &trade(bounds)), due);
    }
}

/// What is unlimited in the row stays so; a row that limits nothing needs nothing
/// that has a number.
#[test]
fn of_unlimited_resources() {
    let none = "state 2: no allowance from 0 to 15 is enough, even with resource";
    for (bounds, state, due) in [
        (
            "inf,0",
            0,
            "state 0: enough: resource 0 unlimited and 0 of resource 1",
        ),
        (
            "9,inf",
            0,
            "state 0: enough: 0 of resource 0 and resource 1 unlimited",
        ),
        ("inf,9", 2, &format!("{none} 0 unlimited")),
        ("9,inf", 2, &format!("{none} 1 unlimited")),
        (
            "inf,inf",
            0,
            "state 0: the row limits no resource, and is true",
        ),
        (
            "inf,inf",
            2,
            "state 2: the row limits no resource, and is false",
        ),
    ] {
        assert_eq!(lines(&format!("needs 1 {state}"), &trade(bounds)), [due]);
    }
    let job = changed("until,3,5,2,0", "until,3,inf,2,0");
    let due = ["state 0: the row limits no resource, and is true"];
    assert_eq!(lines("needs 4 0", &job), due);
    let due = [
        "state 0: enough: resource 0 unlimited and 1 of resource 1",
        "state 0: nothing smaller is enough",
    ];
    assert_eq!(lines("needs 4 0", &jobs::text("sensor.job")), due);
}

/// Of next and always the row is told in its own words.
#[test]
fn of_each_strategic_kind() {
    let first = |line: &str, job: &[u8]| {
        let printed = desk(line, job).answer();
        printed.lines().next().map(String::from)
    };
    let row = Some("row 1: coalition 0: next row 0".to_string());
    assert_eq!(first("needs 1 0", &trade("0,0")), row);
    let row = Some("row 6: coalition 1: always row 1".to_string());
    let job = text::write(&jobs::catch_with_always());
    assert_eq!(first("needs 6 0", &job), row);
}

/// The lines after the row, from the checker's list.
fn due_lines(block: &[u8], model: &Model, i: u8, state: u8) -> Vec<String> {
    let (mut list, mut room) = ([0; ALLOWANCES_BYTES], vec![0; ROOM_BYTES]);
    let count = model.allowances(i, state, &mut list, &mut room) as usize;
    let resources = Sizes::of(block).resources;
    let bounds = &block[row(i.into(), BOUND)..][..resources];
    let unlimited: Vec<usize> = (0..resources).filter(|&j| bounds[j] == UNLIMITED).collect();
    let words = |j: usize, bound: u8| match bound {
        UNLIMITED => format!("resource {j} unlimited"),
        bound => format!("{bound} of resource {j}"),
    };
    let mut said: Vec<String> = Vec::new();
    if unlimited.len() == resources {
        said.push(format!("the row limits no resource, and is {}", count > 0));
    } else if count == 0 {
        let even = |j: &usize| format!(", even with resource {j} unlimited");
        let even: String = unlimited.iter().map(even).collect();
        said.push(format!("no allowance from 0 to 15 is enough{even}"));
    } else {
        for pair in list.chunks(2).take(count) {
            let each: Vec<String> = (0..resources).map(|j| words(j, pair[j])).collect();
            said.push(format!("enough: {}", each.join(" and ")));
        }
        if list.iter().any(|&bound| ![0, UNLIMITED].contains(&bound)) {
            said.push("nothing smaller is enough".to_string());
        }
    }
    let line = |words: String| format!("state {state}: {words}");
    said.into_iter().map(line).collect()
}

#[test]
fn of_random_jobs() {
    let mut several = 0;
    for case in 0..cases(60) {
        let mut rng = Rng::for_case(SEED, case);
        let mut block = games::trade(&mut rng);
        let text = any_text(&mut rng, &mut block);
        let model = Model::of(&block);
        for i in model.rows() {
            let state = rng.below(Sizes::of(&block).states) as u8;
            let due = due_lines(&block, &model, i, state);
            let line = format!("needs {i} {state}");
            assert_eq!(lines(&line, &text), due, "case {case}, {line}");
            several += u32::from(due.len() > 2);
        }
    }
    assert!(several > 5, "{several}");
}
