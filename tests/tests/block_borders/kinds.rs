//! Numbers 2 and 6: the kind of a resource, in use and absent.

use super::*;

/// Kinds at both sides of the border between known and unknown.
const IN_USE: [(u8, u8); 5] = [(0, 0), (1, 0), (2, 2), (3, 2), (255, 2)];
const ABSENT: [(u8, u8); 5] = [(0, 0), (1, 6), (2, 6), (3, 6), (255, 6)];

#[test]
fn of_each_resource() {
    let mut cases = Cases::default();
    for (resources, numbers) in [(1, [IN_USE, ABSENT]), (2, [IN_USE, IN_USE])] {
        let block = smallest(1, resources, 1, 1, 1);
        for (resource, numbers) in numbers.iter().enumerate() {
            let name = format!("kind of resource {resource}, R {resources}");
            cases.values(&name, &block, resource_kind(resource), numbers);
        }
    }
    cases.report();
}

#[test]
fn both_at_once() {
    let mut cases = Cases::default();
    let one = smallest(1, 1, 1, 1, 1);
    let two = smallest(1, 2, 1, 1, 1);
    for first in [0, 1, 2, 255] {
        for second in [0, 1, 2, 255] {
            let changes = [(resource_kind(0), first), (resource_kind(1), second)];
            let name = format!("kinds {first} and {second}");
            let number = if first > 1 || second > 1 { 2 } else { 0 };
            cases.expect(&format!("{name}, R 2"), &two, &changes, number);
            let number = match (first, second) {
                (2.., _) => 2,
                (_, 0) => 0,
                _ => 6,
            };
            cases.expect(&format!("{name}, R 1"), &one, &changes, number);
        }
    }
    cases.report();
}

/// The sizes decide which kinds are in use, and are tried together with them.
#[test]
fn beside_sizes_out_of_range() {
    let mut cases = Cases::default();
    let block = smallest(2, 2, 3, 1, 2);
    for (place, value) in [
        (AGENTS, 4),
        (RESOURCES, 0),
        (RESOURCES, 3),
        (STATES, 25),
        (ROWS, 0),
    ] {
        for kind in [0, 1, 2] {
            let changes = [(place, value), (resource_kind(1), kind)];
            let name = format!("byte {place} = {value}, kind {kind}");
            cases.expect(&name, &block, &changes, 2);
        }
    }
    cases.report();
}

/// Over the whole block: a kind comes before any state, next state and row.
#[test]
fn before_all_but_the_length() {
    let mut cases = Cases::default();
    let block = smallest(2, 1, 3, 1, 2);
    for change in [
        (mask(0), 2),
        (count(0, 0), 5),
        (next(0, 0), 3),
        (row(0, KIND), 6),
    ] {
        let changes = [change, (resource_kind(0), 2)];
        cases.expect(&format!("{change:?} and kind 2"), &block, &changes, 2);
    }
    let mut short = block.clone();
    short[resource_kind(0)] = 2;
    short.pop();
    cases.expect("a byte less and kind 2", &short, &[], 1);
    cases.report();
}
