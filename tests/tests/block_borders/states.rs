//! Number 3: mask, count, cost, idle with a cost. Charges stand in charges.rs.

use super::*;

#[test]
fn mask_below_the_propositions() {
    let mut cases = Cases::default();
    let last = mask(2);
    cases.values(
        "mask, P 1",
        &smallest(1, 1, 3, 1, 1),
        last,
        &[(0, 0), (1, 0), (2, 3), (3, 3)],
    );
    cases.values(
        "mask, P 7",
        &smallest(1, 1, 3, 7, 1),
        last,
        &[(64, 0), (127, 0), (128, 3), (255, 3)],
    );
    cases.values(
        "mask, P 8",
        &smallest(1, 1, 3, 8, 1),
        last,
        &[(128, 0), (255, 0)],
    );
    cases.values(
        "mask of state 0, P 1",
        &smallest(1, 1, 3, 1, 1),
        mask(0),
        &[(1, 0), (2, 3)],
    );
    cases.values(
        "mask of state 23, P 7",
        &smallest(3, 2, 24, 7, 1),
        mask(23),
        &[(64, 0), (128, 3)],
    );
    cases.report();
}

#[test]
fn count_1_to_4() {
    let mut cases = Cases::default();
    let numbers = [(0, 3), (1, 0), (4, 0), (5, 3), (255, 3)];
    let block = smallest(3, 2, 24, 1, 1);
    for (state, agent) in [(0, 0), (0, 2), (1, 1), (23, 0), (23, 2)] {
        let name = format!("count of agent {agent} in state {state}");
        cases.values(&name, &block, count(state, agent), &numbers);
    }
    cases.report();
}

#[test]
fn cost_up_to_15() {
    let mut cases = Cases::default();
    let numbers = [(0, 0), (15, 0), (16, 3), (127, 3), (128, 3), (240, 3)];
    for (state, agent, action) in [(0, 0, 1), (0, 2, 3), (1, 1, 2), (23, 0, 1), (23, 2, 3)] {
        for resource in 0..MAX_RESOURCES {
            let name = format!("cost in {resource} of {action} by agent {agent} in state {state}");
            let place = cost(state, agent, action, resource);
            cases.values(&name, &full(), place, &numbers);
        }
    }
    cases.report();
}

#[test]
fn idle_without_cost() {
    let mut cases = Cases::default();
    let numbers = [
        (0, 0),
        (1, 3),
        (15, 3),
        (16, 3),
        (240, 3),
        (241, 3),
        (255, 3),
    ];
    for (state, agent) in [(0, 0), (0, 2), (1, 1), (23, 0), (23, 2)] {
        for resource in 0..MAX_RESOURCES {
            let name = format!("idle cost in {resource} of agent {agent} in state {state}");
            let place = cost(state, agent, 0, resource);
            cases.values(&name, &full(), place, &numbers);
        }
    }
    cases.report();
}
