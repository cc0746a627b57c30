//! Number 5: kind, left and right, proposition, coalition, bounds.

use super::*;

const STRATEGIC: [u8; 3] = [NEXT, ALWAYS, UNTIL];

#[test]
fn kind_up_to_5() {
    let mut cases = Cases::default();
    for kind in PROP..=UNTIL {
        cases.expect(&format!("kind {kind}"), &job_with_row(kind, 1), &[], 0);
    }
    for i in [0, 1] {
        let name = format!("kind of row {i}");
        cases.values(
            &name,
            &job_with_row(UNTIL, 1),
            row(i, KIND),
            &[(6, 5), (255, 5)],
        );
    }
    cases.report();
}

#[test]
fn left_is_a_lower_row() {
    let mut cases = Cases::default();
    for kind in NOT..=UNTIL {
        let name = format!("left of row 0, kind {kind}");
        cases.values(&name, &job_with_row(kind, 0), row(0, LEFT), &[(0, 5)]);
        for i in [1, 2, 31] {
            let name = format!("left of row {i}, kind {kind}");
            let numbers = [(i as u8 - 1, 0), (i as u8, 5), (i as u8 + 1, 5), (255, 5)];
            cases.values(&name, &job_with_row(kind, i), row(i, LEFT), &numbers);
        }
    }
    cases.report();
}

#[test]
fn right_is_a_lower_row() {
    let mut cases = Cases::default();
    for kind in [OR, UNTIL] {
        for i in [1, 2, 31] {
            let name = format!("right of row {i}, kind {kind}");
            let numbers = [(i as u8 - 1, 0), (i as u8, 5), (i as u8 + 1, 5), (255, 5)];
            cases.values(&name, &job_with_row(kind, i), row(i, RIGHT), &numbers);
        }
    }
    cases.report();
}

#[test]
fn proposition_exists() {
    let mut cases = Cases::default();
    let place = row(0, LEFT);
    cases.values(
        "prop, P 1",
        &smallest(1, 1, 1, 1, 1),
        place,
        &[(0, 0), (1, 5), (255, 5)],
    );
    cases.values(
        "prop, P 8",
        &smallest(1, 1, 1, 8, 1),
        place,
        &[(7, 0), (8, 5)],
    );
    // A proposition is no row: it may be above its own row's number.
    cases.values(
        "prop in row 31, P 2",
        &smallest(1, 1, 1, 2, 32),
        row(31, LEFT),
        &[(1, 0), (2, 5)],
    );
    cases.report();
}

#[test]
fn coalition_of_agents_that_exist() {
    let mut cases = Cases::default();
    for kind in STRATEGIC {
        for agents in 1..=MAX_AGENTS {
            let mut block = smallest(agents, 1, 1, 1, 2);
            block[row(1, KIND)] = kind;
            let absent = 1 << agents;
            let numbers = [
                (0, 5),
                (1, 0),
                (absent - 1, 0),
                (absent, 5),
                (absent + 1, 5),
                (255, 5),
            ];
            let name = format!("coalition, kind {kind}, N {agents}");
            cases.values(&name, &block, row(1, COALITION), &numbers);
        }
    }
    cases.report();
}

#[test]
fn bound_up_to_15_or_unlimited() {
    let mut cases = Cases::default();
    let numbers = [(0, 0), (15, 0), (16, 5), (254, 5), (255, 0)];
    for kind in STRATEGIC {
        for resource in 0..MAX_RESOURCES {
            let name = format!("bound {resource}, kind {kind}");
            let place = row(1, BOUND + resource);
            cases.values(&name, &job_with_row(kind, 1), place, &numbers);
        }
    }
    cases.report();
}

#[test]
fn every_row_is_tried() {
    let mut cases = Cases::default();
    let block = full();
    for i in 0..MAX_ROWS {
        let name = format!("kind of row {i}");
        cases.values(&name, &block, row(i, KIND), &[(0, 0), (6, 5)]);
    }
    cases.report();
}
