//! Numbers 3 and 13: a charge, held as 256 minus it, in a resource of either kind, by
//! an action that exists, by idling, and by none.

use super::*;

/// Bytes at both sides of the borders between costs, no costs and charges.
const OF_SUM: [(u8, u8); 9] = [
    (0, 0),
    (15, 0),
    (16, 3),
    (127, 3),
    (128, 3),
    (240, 3),
    (241, 0),
    (254, 0),
    (255, 0),
];
const OF_MAX: [(u8, u8); 9] = [
    (0, 0),
    (15, 0),
    (16, 3),
    (127, 3),
    (128, 3),
    (240, 3),
    (241, 13),
    (254, 13),
    (255, 13),
];

/// The job of full size with these kinds.
fn full_of(kinds: [u8; MAX_RESOURCES]) -> Vec<u8> {
    let mut block = full();
    block[resource_kind(0)..].copy_from_slice(&kinds);
    block
}

const KINDS: [[u8; MAX_RESOURCES]; 4] = [[SUM, SUM], [SUM, MAX], [MAX, SUM], [MAX, MAX]];

#[test]
fn of_each_action() {
    let mut cases = Cases::default();
    for kinds in KINDS {
        let block = full_of(kinds);
        for (state, agent, action) in [(0, 0, 1), (0, 2, 3), (1, 1, 2), (23, 0, 1), (23, 2, 3)] {
            for (resource, kind) in kinds.into_iter().enumerate() {
                let name = format!("{kinds:?}, {resource} of {action} by {agent} in {state}");
                let numbers = if kind == MAX { OF_MAX } else { OF_SUM };
                cases.values(
                    &name,
                    &block,
                    cost(state, agent, action, resource),
                    &numbers,
                );
            }
        }
    }
    cases.report();
}

/// Every byte of one cost, of a resource of each kind.
#[test]
fn every_byte() {
    let mut cases = Cases::default();
    let block = full_of([SUM, MAX]);
    for byte in 0..=u8::MAX {
        let numbers = match byte {
            0..=15 => [0, 0],
            16..=240 => [3, 3],
            241.. => [0, 13],
        };
        for (resource, number) in numbers.into_iter().enumerate() {
            let name = format!("resource {resource}");
            cases.values(&name, &block, cost(7, 1, 2, resource), &[(byte, number)]);
        }
    }
    cases.report();
}

/// Idling neither costs nor charges, whatever the kind.
#[test]
fn idling() {
    let mut cases = Cases::default();
    let numbers = [
        (0, 0),
        (1, 3),
        (15, 3),
        (16, 3),
        (240, 3),
        (241, 3),
        (255, 3),
    ];
    for kinds in KINDS {
        for (state, agent) in [(0, 0), (11, 1), (23, 2)] {
            for resource in 0..MAX_RESOURCES {
                let name = format!("{kinds:?}, idling in {resource} of {agent} in {state}");
                let place = cost(state, agent, 0, resource);
                cases.values(&name, &full_of(kinds), place, &numbers);
            }
        }
    }
    cases.report();
}

/// Actions, agents, states and resources that there are not charge nothing: their
/// places are unused, of either kind.
#[test]
fn of_none() {
    let mut cases = Cases::default();
    let numbers = [(0, 0), (1, 6), (16, 6), (240, 6), (241, 6), (255, 6)];
    for kind in [SUM, MAX] {
        let mut block = smallest(2, 1, 3, 1, 1);
        block[count(1, 0)] = 3;
        block[resource_kind(0)] = kind;
        for (what, place) in [
            ("the action after the last", cost(1, 0, 3, 0)),
            ("the action after idling", cost(0, 0, 1, 0)),
            ("an absent resource", cost(1, 0, 2, 1)),
            ("an absent agent", cost(1, 2, 1, 0)),
            ("an absent state", cost(3, 0, 1, 0)),
        ] {
            cases.values(&format!("{what}, kind {kind}"), &block, place, &numbers);
        }
        let last = [(241, if kind == MAX { 13 } else { 0 })];
        cases.values("the last action", &block, cost(1, 0, 2, 0), &last);
    }
    cases.report();
}

/// The kind decides, wherever it stands: with max the same charge is refused.
#[test]
fn by_the_kind() {
    let mut cases = Cases::default();
    for resource in 0..MAX_RESOURCES {
        let mut block = full();
        block[cost(5, 1, 1, resource)] = 241;
        let name = format!("charge and kind of resource {resource}");
        let numbers = [(SUM, 0), (MAX, 13), (2, 2), (255, 2)];
        cases.values(&name, &block, resource_kind(resource), &numbers);
        let other = resource_kind(1 - resource);
        let name = format!("charge of {resource} and the other kind");
        cases.values(&name, &block, other, &[(SUM, 0), (MAX, 0), (2, 2)]);
    }
    cases.report();
}

/// Number 3 of the last state comes before 13 of the first, and 13 of the last before
/// 4 of the first.
#[test]
fn between_3_and_4() {
    let mut cases = Cases::default();
    let block = full_of([SUM, MAX]);
    let charges = [cost(0, 0, 1, 1), cost(23, 2, 3, 1)].map(|place| (place, 255));
    let threes = [
        (mask(0), 1, 0),
        (count(23, 2), 5, 3),
        (cost(0, 0, 1, 0), 16, 3),
        (cost(23, 2, 3, 0), 240, 3),
        (cost(23, 2, 3, 1), 16, 3),
        (cost(0, 0, 0, 1), 255, 3),
        (cost(23, 2, 0, 1), 241, 3),
    ];
    for charge in charges {
        for (place, value, number) in threes {
            let due = if number == 0 { 13 } else { number };
            let name = format!("{charge:?} and byte {place} = {value}");
            cases.expect(&name, &block, &[charge, (place, value)], due);
        }
        for later in [
            (next(0, 0), 24),
            (next(23, 63), 255),
            (row(0, KIND), 6),
            (row(31, LEFT), 8),
            (row(0, PADDING), 1),
        ] {
            let name = format!("{charge:?} and {later:?}");
            cases.expect(&name, &block, &[charge, later], 13);
            cases.expect(&name, &block, &[later, (AGENTS, 4), charge], 2);
        }
    }
    cases.report();
}

/// Values just below and above: what is no charge is tried as before.
#[test]
fn without_a_charge() {
    let mut cases = Cases::default();
    let block = full_of([MAX, MAX]);
    for (name, changes, number) in [
        ("cost 15", [(cost(3, 0, 1, 0), 15), (next(0, 0), 0)], 0),
        (
            "cost 15 and a next state",
            [(cost(3, 0, 1, 0), 15), (next(0, 0), 24)],
            4,
        ),
        (
            "charge 1 and a next state",
            [(cost(3, 0, 1, 0), 255), (next(0, 0), 24)],
            13,
        ),
        (
            "charge 16 and a next state",
            [(cost(3, 0, 1, 0), 240), (next(0, 0), 24)],
            3,
        ),
    ] {
        cases.expect(name, &block, &changes, number);
    }
    cases.report();
}
