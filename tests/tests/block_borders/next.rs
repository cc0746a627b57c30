//! Number 4: a next state at or above M.

use super::*;

#[test]
fn next_state_below_the_states() {
    let mut cases = Cases::default();
    let one_state = smallest(1, 1, 1, 1, 1);
    cases.values(
        "next state, M 1",
        &one_state,
        next(0, 0),
        &[(0, 0), (1, 4), (255, 4)],
    );
    let three_states = smallest(2, 1, 3, 1, 1);
    for state in 0..3 {
        let name = format!("next state of {state}, M 3");
        cases.values(
            &name,
            &three_states,
            next(state, 0),
            &[(2, 0), (3, 4), (255, 4)],
        );
    }
    for (state, joint) in [(0, 0), (0, 63), (11, 21), (23, 0), (23, 63)] {
        let name = format!("next state of {state} by {joint}, M 24");
        cases.values(
            &name,
            &full(),
            next(state, joint),
            &[(23, 0), (24, 4), (255, 4)],
        );
    }
    cases.report();
}

/// The last joint action of each agent by itself.
#[test]
fn next_state_of_each_agent() {
    let mut cases = Cases::default();
    for (agent, joint) in [(0, 3), (1, 12), (2, 48)] {
        let mut block = smallest(3, 1, 2, 1, 1);
        block[count(1, agent)] = 4;
        let name = format!("next state by agent {agent}'s last action");
        cases.values(&name, &block, next(1, joint), &[(1, 0), (2, 4)]);
    }
    cases.report();
}
