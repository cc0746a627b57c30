//! Number 1, another length; number 2, a size out of range.

use super::*;

#[test]
fn length() {
    let mut cases = Cases::default();
    let right = BLOCK_BYTES;
    let near = [(OLD_BLOCK_BYTES, 1), (2470, 1), (2471, 0), (2472, 1)];
    for (length, number) in near.into_iter().chain([(0, 1), (1, 1), (2 * right, 1)]) {
        let mut block = smallest(1, 1, 1, 1, 1);
        block.resize(length, 0);
        cases.expect(&format!("length {length}"), &block, &[], number);
    }
    cases.report();
}

#[test]
fn agents() {
    let mut cases = Cases::default();
    cases.expect("N 1", &smallest(1, 1, 1, 1, 1), &[], 0);
    cases.expect("N 3", &smallest(3, 1, 1, 1, 1), &[], 0);
    cases.values(
        "N",
        &smallest(1, 1, 1, 1, 1),
        AGENTS,
        &[(0, 2), (4, 2), (255, 2)],
    );
    cases.report();
}

#[test]
fn resources() {
    let mut cases = Cases::default();
    cases.values(
        "R",
        &smallest(1, 1, 1, 1, 1),
        RESOURCES,
        &[(0, 2), (1, 0), (2, 0), (3, 2), (255, 2)],
    );
    cases.report();
}

#[test]
fn states() {
    let mut cases = Cases::default();
    cases.expect("M 1", &smallest(1, 1, 1, 1, 1), &[], 0);
    cases.expect("M 24", &smallest(1, 1, 24, 1, 1), &[], 0);
    cases.values(
        "M",
        &smallest(1, 1, 24, 1, 1),
        STATES,
        &[(0, 2), (25, 2), (255, 2)],
    );
    cases.report();
}

#[test]
fn propositions() {
    let mut cases = Cases::default();
    let block = smallest(1, 1, 1, 1, 1);
    cases.values(
        "P",
        &block,
        PROPOSITIONS,
        &[(0, 2), (1, 0), (8, 0), (9, 2), (255, 2)],
    );
    cases.report();
}

#[test]
fn rows() {
    let mut cases = Cases::default();
    // A row of zeros is `prop,0`, so every number of rows in range passes.
    let block = smallest(1, 1, 1, 1, 1);
    cases.values(
        "F",
        &block,
        ROWS,
        &[(0, 2), (1, 0), (32, 0), (33, 2), (255, 2)],
    );
    cases.report();
}
