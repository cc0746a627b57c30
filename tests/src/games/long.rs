//! Jobs of full size with one strategic row, for limits and times. Both resources
//! are of kind sum.

use super::{fill_actions, fill_next, Shape};
use crate::layout::*;
use crate::random::{fill_charges, Rng};

/// A ring of full size that the coalition can go round once for each unit of
/// its stock, the longest play that there can be for always. Every step is
/// forced but one: the gate, the last state on the way, leads to the end, where
/// proposition 1 holds and proposition 0 does not, unless an agent of the
/// coalition pays. `rising` says whether the states come in rising order.
pub fn ring(kind: u8, coalition: u8, rising: bool) -> Vec<u8> {
    let mut block = full_frame(kind, coalition);
    let (gate, end) = (MAX_STATES - 2, MAX_STATES - 1);
    let state = |place: usize| if rising { place } else { end - place };
    for place in 0..MAX_STATES {
        block[mask(state(place))] = if place == end { 2 } else { 1 };
        fill_paying_actions(&mut block, state(place));
        for joint in 0..JOINTS {
            let pays = |agent| coalition >> agent & 1 == 1 && actions(joint)[agent] != 0;
            let target = match (0..MAX_AGENTS).any(pays) {
                true if place == gate => 0,
                _ => end.min(place + 1),
            };
            block[next(state(place), joint)] = state(target) as u8;
        }
    }
    block
}

/// A random job of full size. A joint action leads at most `reach` states on,
/// or, with reach 0, anywhere. Proposition 0 is common, and 1 is rare. The
/// coalition drives, but not in always, which it would win at once.
pub fn maze(rng: &mut Rng, kind: u8, coalition: u8, reach: usize) -> Vec<u8> {
    let mut block = full_frame(kind, coalition);
    let shape = Shape {
        sizes: Sizes::of(&block),
        actions: MAX_ACTIONS,
        cost: 2,
        bound: MAX_BOUND,
        fixed: true,
        driver: if kind == ALWAYS { 0 } else { coalition },
    };
    for state in 0..MAX_STATES {
        fill_actions(rng, &mut block, shape, state);
        fill_next(rng, &mut block, shape, state, reach);
        block[mask(state)] = u8::from(!rng.one_in(12)) + 2 * u8::from(rng.one_in(12));
    }
    block
}

/// A maze in which some actions charge.
pub fn charged_maze(rng: &mut Rng, kind: u8, coalition: u8, reach: usize) -> Vec<u8> {
    let mut block = maze(rng, kind, coalition, reach);
    fill_charges(rng, &mut block);
    block
}

/// What one agent's actions 1, 2 and 3 cost at a place of a ring.
type Prices = [[i32; MAX_RESOURCES]; 3];

/// A ring with a cradle half way. Until: a pass gives a unit of each resource, and the
/// way out at the gate takes all 15 of both. Always: the gate takes two of each, and the
/// cradle gives one back; without them the gate leads to the end.
pub fn cradle_ring(kind: u8, coalition: u8, rising: bool) -> Vec<u8> {
    let charge = [[-1, -1], [0, 0], [0, 0]];
    let gate = match kind {
        UNTIL => [[0, 0], [0, 0], [15, 15]],
        _ => [[2, 2], [2, 2], [0, 0]],
    };
    charged_ring(kind, coalition, rising, charge, gate)
}

/// A ring whose one way is as long as two stocks can make it: a pass for every unit of
/// the one for every unit of the other. Until: a pass gives a unit of the second, 15 of
/// which give one of the first, 15 of which pay the way out. Always: a pass takes a unit
/// of the second, and one of the first gives 15 of it back; without either the gate
/// leads to the end. `swapped` says whether the first is resource 1.
pub fn long_way(kind: u8, coalition: u8, rising: bool, swapped: bool) -> Vec<u8> {
    let mut gate = match kind {
        UNTIL => [[0, -1], [-1, 15], [15, 0]],
        _ => [[0, 1], [1, -15], [0, 0]],
    };
    if swapped {
        gate.iter_mut().for_each(|costs| costs.reverse());
    }
    charged_ring(kind, coalition, rising, Prices::default(), gate)
}

/// A ring as above in which one agent of the coalition decides, by its action at the
/// gate: of until action 3 leads to the end, and of others all but actions 1 and 2. Half
/// way and at the gate its actions have these prices, and all else is free.
fn charged_ring(kind: u8, coalition: u8, rising: bool, half: Prices, gate: Prices) -> Vec<u8> {
    let mut block = full_frame(kind, coalition);
    let (last, end) = (MAX_STATES - 2, MAX_STATES - 1);
    let lead = coalition.trailing_zeros() as usize;
    let state = |place: usize| if rising { place } else { end - place };
    let leaves = |action: usize| match kind {
        UNTIL => action == 3,
        _ => action == 0 || action == 3,
    };
    for place in 0..MAX_STATES {
        block[mask(state(place))] = if place == end { 2 } else { 1 };
        block[count(state(place), 0)..count(state(place) + 1, 0)].fill(MAX_ACTIONS as u8);
        for joint in 0..JOINTS {
            let target = match actions(joint)[lead] {
                action if place == last && !leaves(action) => 0,
                _ => end.min(place + 1),
            };
            block[next(state(place), joint)] = state(target) as u8;
        }
    }
    for (place, prices) in [(last / 2, half), (last, gate)] {
        set_prices(&mut block, state(place), lead, prices);
    }
    block
}

/// Stairs of 15 steps, each paid by a unit of either resource, so that each pair of
/// bounds with sum 15 is a smallest allowance at their foot. At the top, where the row is
/// settled, one agent of the coalition can charge; off the stairs nothing holds.
pub fn charged_stairs(kind: u8, coalition: u8) -> Vec<u8> {
    let mut block = full_frame(kind, coalition);
    let (top, off) = (usize::from(MAX_BOUND), MAX_STATES - 1);
    let lead = coalition.trailing_zeros() as usize;
    for state in 0..MAX_STATES {
        block[mask(state)] = match state {
            _ if state < top => 1,
            _ if state == top => 3,
            _ => 0,
        };
        block[count(state, 0)..count(state + 1, 0)].fill(MAX_ACTIONS as u8);
        for joint in 0..JOINTS {
            let target = match actions(joint)[lead] {
                1 | 2 if state < top => state + 1,
                _ if state == top => top,
                _ => off,
            };
            block[next(state, joint)] = target as u8;
        }
        let step = [[1, 0], [0, 1], [0, 0]];
        let charge = [[-1, -1], [0, 0], [0, 0]];
        set_prices(
            &mut block,
            state,
            lead,
            if state < top { step } else { charge },
        );
    }
    block
}

fn set_prices(block: &mut [u8], state: usize, agent: usize, prices: Prices) {
    for (k, price) in prices.into_iter().enumerate() {
        for (resource, spent) in price.into_iter().enumerate() {
            block[cost(state, agent, k + 1, resource)] = cost_byte(spent);
        }
    }
}

/// The rows of a job of full size: propositions 0 and 1, and a row of the kind
/// over them with bounds 15 and 15.
fn full_frame(kind: u8, coalition: u8) -> Vec<u8> {
    let mut block = vec![0; BLOCK_BYTES];
    let rows = 3;
    let sizes = Sizes {
        rows,
        ..Sizes::FULL
    };
    sizes.store(&mut block);
    block[row(1, LEFT)] = 1;
    block[row(2, KIND)] = kind;
    block[row(2, RIGHT)] = u8::from(kind == UNTIL);
    block[row(2, COALITION)] = coalition;
    block[row(2, BOUND)..row(2, PADDING)].fill(MAX_BOUND);
    block
}

/// Actions 1, 2 and 3 take one unit of the first, the second or both resources.
fn fill_paying_actions(block: &mut [u8], state: usize) {
    for agent in 0..MAX_AGENTS {
        block[count(state, agent)] = MAX_ACTIONS as u8;
        for action in 1..MAX_ACTIONS {
            for resource in 0..MAX_RESOURCES {
                block[cost(state, agent, action, resource)] = (action >> resource & 1) as u8;
            }
        }
    }
}
