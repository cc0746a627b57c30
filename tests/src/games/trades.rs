//! Jobs in which a step can be paid in several ways, less of one resource for more of
//! the other, so that several allowances are enough and none makes another needless.

use super::{block, few_sizes, part, Shape};
use crate::layout::*;
use crate::random::Rng;

/// The way leads from state 1 to the last. That has both propositions, state 0 has
/// none, and neither is left; between them the common one holds. Where the driver
/// does not pay its step it comes to state 0.
pub fn trade(rng: &mut Rng) -> Vec<u8> {
    let few = few_sizes(rng);
    let sizes = Sizes {
        resources: if rng.one_in(4) { 1 } else { 2 },
        states: few.states.max(3),
        ..few
    };
    let shape = Shape {
        sizes,
        actions: MAX_ACTIONS,
        cost: rng.pick(&[2, 3, 5, 9]),
        bound: rng.pick(&[0, 2, 5, MAX_BOUND]),
        fixed: false,
        driver: rng.within(1..=(1 << sizes.agents) - 1) as u8,
    };
    let mut block = block(rng, shape);
    for state in 0..sizes.states {
        block[mask(state)] = match state {
            0 => 0,
            _ if state + 1 == sizes.states => 3,
            _ => 2,
        };
        set_prices(rng, &mut block, shape, state);
        set_steps(rng, &mut block, shape.driver, state);
    }
    for i in 4..sizes.rows {
        ask_for_the_way(rng, &mut block, shape.driver, i);
    }
    block
}

/// Each action, mostly of two or three beside idling, takes a part of the state's
/// price from either resource.
fn set_prices(rng: &mut Rng, block: &mut [u8], shape: Shape, state: usize) {
    let price = rng.within(1..=shape.cost.into());
    for agent in 0..shape.sizes.agents {
        let actions = block[count(state, agent)].max(rng.pick(&[1, 3, 3, 4]));
        block[count(state, agent)] = actions;
        for action in 1..actions.into() {
            let first = rng.within(0..=price);
            let parts = [first, price - first];
            for resource in 0..shape.sizes.resources {
                block[cost(state, agent, action, resource)] = parts[resource] as u8;
            }
        }
    }
}

/// The driver pays where all its agents act who can; what the others do seldom
/// matters.
fn set_steps(rng: &mut Rng, block: &mut [u8], driver: u8, state: usize) {
    let last = Sizes::of(block).states - 1;
    let joints: Vec<usize> = joint_actions(block, state).collect();
    for joint in joints {
        let idles = |agent: usize| {
            let can_act = block[count(state, agent)] > 1;
            driver >> agent & 1 == 1 && can_act && actions(joint)[agent] == 0
        };
        let target = match part(joint, driver) {
            _ if state == 0 || state == last => state,
            number if number != joint && !rng.one_in(16) => block[next(state, number)].into(),
            _ if (0..MAX_AGENTS).any(idles) => 0,
            _ => last.min(state + rng.within(1..=2)),
        };
        block[next(state, joint)] = target as u8;
    }
}

/// Most strategic rows ask the driver to go the way.
pub(super) fn ask_for_the_way(rng: &mut Rng, block: &mut [u8], driver: u8, i: usize) {
    let kind = block[row(i, KIND)];
    if !is_strategic(kind) || rng.one_in(4) {
        return;
    }
    block[row(i, LEFT)] = match kind {
        NEXT => rng.pick(&[0, 1]),
        _ => 1,
    };
    block[row(i, RIGHT)] = 0;
    block[row(i, COALITION)] = driver;
}
