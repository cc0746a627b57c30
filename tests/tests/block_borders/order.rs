//! Several conditions at once: the first in the order 1, 2, 3, 13, 4, 5, 6 answers,
//! wherever each of them stands.

use super::*;

/// One change for each number of the block, in their order.
type Damage = [(u8, Change); 6];

/// Each agent has an action beside idling in each state; the resource is of kind max.
fn base() -> Vec<u8> {
    let mut block = smallest(2, 1, 3, 1, 2);
    block[resource_kind(0)] = MAX;
    for (state, agent) in [(0, 0), (0, 1), (1, 0), (1, 1), (2, 0), (2, 1)] {
        block[count(state, agent)] = 2;
    }
    block
}

/// The earlier a number is tried, the earlier its place.
fn rising() -> Damage {
    [
        (2, (AGENTS, 4)),
        (3, (mask(0), 2)),
        (13, (cost(0, 0, 1, 0), 255)),
        (4, (next(0, 0), 3)),
        (5, (row(0, KIND), 6)),
        (6, (row(31, PADDING + 1), 1)),
    ]
}

/// Within the states, the rows and the block, the earlier number later.
fn falling() -> Damage {
    [
        (2, (ROWS, 33)),
        (3, (cost(2, 1, 1, 0), 16)),
        (13, (cost(2, 0, 1, 0), 241)),
        (4, (next(1, 0), 255)),
        (5, (row(1, LEFT), 1)),
        (6, (mask(3), 255)),
    ]
}

/// Number 2 by a kind, which stands behind all else, and 6 by another.
fn with_kinds() -> Damage {
    let mut damage = rising();
    damage[0] = (2, (resource_kind(0), 2));
    damage[5] = (6, (resource_kind(1), MAX));
    damage
}

/// Every choice of the changes gives the first number chosen.
fn every_choice(name: &str, damage: Damage) {
    let mut cases = Cases::default();
    for choice in 0..1 << damage.len() {
        let chosen = damage
            .iter()
            .enumerate()
            .filter(|(i, _)| choice >> i & 1 == 1);
        let (numbers, changes): (Vec<u8>, Vec<Change>) = chosen.map(|(_, &pair)| pair).unzip();
        let first = numbers.first().copied().unwrap_or(0);
        cases.expect(&format!("{name}: {numbers:?}"), &base(), &changes, first);
    }
    cases.report();
}

#[test]
fn first_number_first() {
    every_choice("rising", rising());
    every_choice("falling", falling());
    every_choice("with kinds", with_kinds());
}

#[test]
fn length_before_all() {
    let mut cases = Cases::default();
    let changes = rising().map(|(_, change)| change);
    for length in [BLOCK_BYTES - 1, BLOCK_BYTES + 1] {
        let mut block = base();
        for (place, value) in changes {
            block[place] = value;
        }
        block.resize(length, 1);
        cases.expect(&format!("length {length}"), &block, &[], 1);
    }
    cases.report();
}

/// A size or count out of range answers before the places that it decides on.
#[test]
fn a_bad_size_or_count_answers_first() {
    let mut cases = Cases::default();
    let count_5 = (count(0, 0), 5);
    cases.expect(
        "count 5 and a bad next state",
        &base(),
        &[count_5, (next(0, 4), 9)],
        3,
    );
    cases.expect(
        "count 0 and a bad next state",
        &base(),
        &[(count(0, 0), 0), (next(0, 0), 9)],
        3,
    );
    cases.expect(
        "M 25 and a bad mask",
        &base(),
        &[(STATES, 25), (mask(0), 2)],
        2,
    );
    cases.report();
}
