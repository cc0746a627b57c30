//! Number 6: an unused place that is not 0, also where its value would break
//! another number's condition if the place were in use.

use super::*;

/// A job of three states that leaves something of every sort unused.
fn small() -> Vec<u8> {
    let mut block = smallest(2, 1, 3, 1, 2);
    block[count(1, 0)] = 2;
    block[count(1, 1)] = 3;
    block
}

fn refuses_all(name: &str, block: &[u8], places: impl Iterator<Item = usize>) {
    let mut cases = Cases::default();
    for place in places {
        let numbers = [(0, 0), (1, 6), (16, 6), (255, 6)];
        cases.values(&format!("{name}, byte {place}"), block, place, &numbers);
    }
    cases.report();
}

#[test]
fn byte_28() {
    let mut cases = Cases::default();
    cases.values(
        "byte 28 of three states",
        &small(),
        mask(23),
        &[(0, 0), (1, 6)],
    );
    cases.values(
        "byte 28 of 23 states",
        &smallest(1, 1, 23, 1, 1),
        mask(23),
        &[(0, 0), (1, 6)],
    );
    cases.values(
        "byte 28 of 24 states",
        &smallest(1, 1, 24, 1, 1),
        mask(23),
        &[(0, 0), (1, 0)],
    );
    cases.report();
}

#[test]
fn states_that_do_not_exist() {
    let block = small();
    refuses_all("mask", &block, mask(3)..mask(24));
    refuses_all("count", &block, count(3, 0)..count(24, 0));
    refuses_all("cost", &block, cost(3, 0, 0, 0)..cost(24, 0, 0, 0));
    refuses_all("next state", &block, next(3, 0)..next(24, 0));
}

#[test]
fn agents_that_do_not_exist() {
    let block = small();
    refuses_all("count", &block, (0..3).map(|state| count(state, 2)));
    let costs = |state| cost(state, 2, 0, 0)..cost(state + 1, 0, 0, 0);
    refuses_all("cost", &block, (0..3).flat_map(costs));
    refuses_all(
        "next state",
        &block,
        (0..3).flat_map(|state| next(state, 16)..next(state, 64)),
    );
    let alone = smallest(1, 1, 1, 1, 1);
    refuses_all("count of agents 1 and 2", &alone, count(0, 1)..count(1, 0));
    refuses_all(
        "next state with agent 1 or 2",
        &alone,
        next(0, 4)..next(0, 64),
    );
}

#[test]
fn resources_that_do_not_exist() {
    let costs = (0..4).map(|action| cost(1, 0, action, 1));
    refuses_all("cost in resource 1", &small(), costs);
}

#[test]
fn actions_that_do_not_exist() {
    let block = small();
    let first = (2..4).map(|action| cost(1, 0, action, 0));
    refuses_all("cost, count 2", &block, first);
    refuses_all("cost, count 3", &block, [cost(1, 1, 3, 0)].into_iter());
    refuses_all(
        "cost, count 1",
        &block,
        (1..4).map(|action| cost(0, 0, action, 0)),
    );
    let mut cases = Cases::default();
    cases.values(
        "cost of the last action, count 3",
        &block,
        cost(1, 1, 2, 0),
        &[(1, 0), (16, 3)],
    );
    cases.report();
}

/// State 1 has 2 actions for agent 0 and 3 for agent 1.
#[test]
fn joint_actions_that_do_not_exist() {
    let used = [0, 1, 4, 5, 8, 9];
    let mut cases = Cases::default();
    for joint in 0..JOINTS {
        let number = if used.contains(&joint) { 0 } else { 6 };
        let name = format!("next state by {joint}");
        cases.values(&name, &small(), next(1, joint), &[(0, 0), (2, number)]);
    }
    cases.report();
}

/// Agent 2's digit, at and above its count.
#[test]
fn joint_actions_of_the_third_agent() {
    let mut block = smallest(3, 1, 2, 1, 1);
    block[count(0, 2)] = 3;
    let mut cases = Cases::default();
    cases.values("agent 2's action 2", &block, next(0, 32), &[(1, 0), (2, 4)]);
    cases.values(
        "agent 2's action 3",
        &block,
        next(0, 48),
        &[(0, 0), (1, 6), (2, 6)],
    );
    cases.report();
}

#[test]
fn rows_that_do_not_exist() {
    refuses_all("row past F", &small(), row(2, 0)..row(32, 0));
}

/// The fields that each kind uses, with two resources.
const USED: [(u8, &[usize]); 6] = [
    (PROP, &[KIND, LEFT]),
    (NOT, &[KIND, LEFT]),
    (OR, &[KIND, LEFT, RIGHT]),
    (NEXT, &[KIND, LEFT, COALITION, BOUND, BOUND + 1]),
    (ALWAYS, &[KIND, LEFT, COALITION, BOUND, BOUND + 1]),
    (UNTIL, &[KIND, LEFT, RIGHT, COALITION, BOUND, BOUND + 1]),
];

#[test]
fn fields_that_the_kind_does_not_use() {
    for (kind, used) in USED {
        let block = job_with_row(kind, 2);
        let unused = (0..ROW_BYTES).filter(|field| !used.contains(field));
        refuses_all(
            &format!("kind {kind}"),
            &block,
            unused.map(|field| row(2, field)),
        );
        let mut cases = Cases::default();
        for &field in used.iter().filter(|&&field| field != KIND) {
            let name = format!("kind {kind}, field {field}");
            cases.values(&name, &block, row(2, field), &[(1, 0)]);
        }
        cases.report();
    }
}

#[test]
fn second_bound_of_one_resource() {
    for kind in [NEXT, ALWAYS, UNTIL] {
        let mut block = job_with_row(kind, 1);
        block[RESOURCES] = 1;
        let name = format!("second bound, kind {kind}, R 1");
        refuses_all(&name, &block, [row(1, BOUND + 1)].into_iter());
        let mut cases = Cases::default();
        let numbers = [(1, 0), (15, 0), (255, 0)];
        cases.values("the first bound", &block, row(1, BOUND), &numbers);
        cases.report();
    }
}

#[test]
fn padding_of_every_row() {
    let block = full();
    let padding = |i| row(i, PADDING)..row(i + 1, 0);
    refuses_all("padding", &block, (0..MAX_ROWS).flat_map(padding));
}
