//! Jobs whose driver has to act together, so that the kind of a resource matters:
//! in others one agent's action mostly decides.

use super::{block, few_sizes, pair, small_shape, Shape};
use crate::layout::*;
use crate::random::Rng;

/// Few positions, and a coalition of several that has to act together to come to
/// the rare proposition.
pub fn teamwork(rng: &mut Rng) -> Vec<u8> {
    let sizes = few_sizes(rng);
    let drivers: &[u8] = if sizes.agents == 2 {
        &[3]
    } else {
        &[3, 5, 6, 7]
    };
    let shape = Shape {
        sizes,
        actions: rng.within(2..=MAX_ACTIONS),
        cost: rng.pick(&[1, 2, 4]),
        bound: rng.pick(&[2, 5, 9]),
        fixed: false,
        driver: rng.pick(drivers),
    };
    act_together(rng, shape)
}

/// A job whose last state has the rare proposition, and whose driver has to act
/// together.
fn act_together(rng: &mut Rng, shape: Shape) -> Vec<u8> {
    let mut block = block(rng, shape);
    side_by_side(rng, &mut block, shape);
    block[mask(shape.sizes.states - 1)] |= 1;
    block
}

/// So small that strategies can be tried outright.
pub fn tiny_teamwork(rng: &mut Rng) -> Vec<u8> {
    let sizes = pair(rng, 2..=3, 7);
    let bound = if sizes.resources == 1 { 3 } else { 1 };
    act_together(rng, small_shape(sizes, bound, 3))
}

/// The driver leads on, and often keeps the common propositions, only where all its
/// agents act at once, each at a cost: then the kind of a resource matters.
pub(super) fn side_by_side(rng: &mut Rng, block: &mut [u8], shape: Shape) {
    let agents = (0..MAX_AGENTS).filter(|agent| shape.driver >> agent & 1 == 1);
    let agents: Vec<usize> = agents.collect();
    for state in 0..shape.sizes.states {
        for &agent in &agents {
            fill_costs(rng, block, shape, state, agent);
        }
        lead_on_together(rng, block, &agents, state);
    }
}

/// An action beside idling, and costs of all but that.
fn fill_costs(rng: &mut Rng, block: &mut [u8], shape: Shape, state: usize, agent: usize) {
    let actions = block[count(state, agent)].max(2);
    block[count(state, agent)] = actions;
    for action in 1..actions.into() {
        for resource in 0..shape.sizes.resources {
            let spent = rng.within(0..=shape.cost.into()).max(1) as u8;
            block[cost(state, agent, action, resource)] = spent;
        }
    }
}

fn lead_on_together(rng: &mut Rng, block: &mut [u8], agents: &[usize], state: usize) {
    let states = Sizes::of(block).states;
    let idle = match rng.one_in(2) {
        true => state,
        false => rng.below(states),
    };
    let joints: Vec<usize> = joint_actions(block, state).collect();
    for joint in joints {
        let all_act = agents.iter().all(|&agent| actions(joint)[agent] > 0);
        let target = match all_act {
            true => (state + 1) % states,
            false => idle,
        };
        if !rng.one_in(16) {
            block[next(state, joint)] = target as u8;
        }
    }
}
