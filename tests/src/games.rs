//! Random jobs with something to play for: states that lead on to one another,
//! costs that a bound pays for several times, and mostly strategic rows.

mod cradles;
mod long;
mod teamwork;
mod trades;

use crate::layout::*;
use crate::random::{any_block, fill_charges, fill_kinds, some_charges, Rng};
pub use cradles::{cradle, tiny_cradle};
pub use long::{charged_maze, charged_stairs, cradle_ring, long_way, maze, ring};
use std::ops::RangeInclusive;
use teamwork::side_by_side;
pub use teamwork::{teamwork, tiny_teamwork};
pub use trades::trade;

/// What the jobs of a kind have in common.
#[derive(Clone, Copy)]
pub struct Shape {
    pub sizes: Sizes,
    /// The most actions, the largest cost and the largest limited bound.
    pub actions: usize,
    pub cost: u8,
    pub bound: u8,
    /// Every agent has that many actions, and every bound is that bound.
    pub fixed: bool,
    /// The coalition whose move mostly decides the next state, or none.
    pub driver: u8,
}

/// So small that strategies can be tried outright.
pub fn tiny(rng: &mut Rng) -> Vec<u8> {
    let sizes = Sizes {
        agents: rng.within(1..=2),
        resources: rng.within(1..=2),
        states: rng.within(1..=4),
        propositions: 2,
        rows: rng.within(5..=7),
    };
    let bound = rng.within(0..=if sizes.resources == 1 { 3 } else { 1 }) as u8;
    let shape = Shape {
        sizes,
        actions: 2,
        cost: 2,
        bound,
        fixed: false,
        driver: driver(rng, sizes.agents),
    };
    block(rng, shape)
}

/// Two or three agents in few states.
fn few_sizes(rng: &mut Rng) -> Sizes {
    Sizes {
        agents: rng.within(2..=MAX_AGENTS),
        resources: rng.within(1..=2),
        states: rng.within(2..=6),
        propositions: 2,
        rows: rng.within(6..=8),
    }
}

/// Few positions, and opponents in most rows who have to act.
pub fn contest(rng: &mut Rng) -> Vec<u8> {
    let sizes = few_sizes(rng);
    let bound = rng.within(0..=if sizes.resources == 1 { 5 } else { 2 }) as u8;
    let shape = Shape {
        sizes,
        actions: rng.within(2..=MAX_ACTIONS),
        cost: 2,
        bound,
        fixed: false,
        driver: rng.within(1..=(1 << sizes.agents) - 2) as u8,
    };
    let mut block = block(rng, shape);
    punish_idling(rng, &mut block, shape.driver);
    block
}

/// Opponents of the driver who idle often let it reach the rare proposition.
fn punish_idling(rng: &mut Rng, block: &mut [u8], driver: u8) {
    let states = Sizes::of(block).states;
    let goal = rng.below(states);
    block[mask(goal)] |= 1;
    for state in 0..states {
        let joints: Vec<usize> = joint_actions(block, state).collect();
        for joint in joints {
            if part(joint, driver) == joint && rng.one_in(2) {
                block[next(state, joint)] = goal as u8;
            }
        }
    }
}

/// Few positions and as many rows as there can be: a row needs few of those
/// below it, and some of these through others.
pub fn crowd(rng: &mut Rng) -> Vec<u8> {
    let sizes = pair(rng, 2..=5, MAX_ROWS);
    let shape = small_shape(sizes, 2, driver(rng, sizes.agents));
    let mut block = block(rng, shape);
    some_charges(rng, &mut block);
    block
}

/// Two agents and few states.
fn pair(rng: &mut Rng, states: RangeInclusive<usize>, rows: usize) -> Sizes {
    Sizes {
        agents: 2,
        resources: rng.within(1..=2),
        states: rng.within(states),
        propositions: 2,
        rows,
    }
}

/// Two actions each, which cost little.
fn small_shape(sizes: Sizes, bound: u8, driver: u8) -> Shape {
    Shape {
        sizes,
        actions: 2,
        cost: 2,
        bound,
        fixed: false,
        driver,
    }
}

/// The strategic rows that need a row only through others and leave one out.
pub fn choosy_rows(block: &[u8]) -> Vec<u8> {
    let choosy = |&i: &usize| {
        let (named, needed) = (named(block, i), needed(block, i));
        is_strategic(block[row(i, KIND)]) && needed & !named != 0 && needed != (1 << i) - 1
    };
    let rows = (0..Sizes::of(block).rows).filter(choosy);
    rows.map(|i| i as u8).collect()
}

/// The rows that row i names, as a word.
fn named(block: &[u8], i: usize) -> u32 {
    let kind = block[row(i, KIND)];
    let left = u32::from(kind != PROP) << block[row(i, LEFT)];
    left | u32::from(uses_right(kind)) << block[row(i, RIGHT)]
}

/// The rows that row i names, directly or through others, as a word.
fn needed(block: &[u8], i: usize) -> u32 {
    let named = named(block, i);
    let rows = (0..i).filter(|j| named >> j & 1 == 1);
    rows.fold(named, |word, j| word | needed(block, j))
}

/// Few positions, so that all can be tried: a contest, teamwork or a cradle, or one of
/// the first two with charges.
pub fn few(rng: &mut Rng) -> Vec<u8> {
    match rng.below(9) {
        0 => teamwork(rng),
        1..=2 => contest(rng),
        3 => charged(rng, teamwork),
        4..=5 => charged(rng, contest),
        _ => cradle(rng),
    }
}

/// A job with charges.
pub fn charged(rng: &mut Rng, make: impl Fn(&mut Rng) -> Vec<u8>) -> Vec<u8> {
    let mut block = make(rng);
    fill_charges(rng, &mut block);
    block
}

/// A job with something to play for, or any.
pub fn mixed(rng: &mut Rng) -> Vec<u8> {
    match rng.below(5) {
        0 => any_block(rng),
        1..=2 => few(rng),
        _ => small(rng),
    }
}

pub fn small(rng: &mut Rng) -> Vec<u8> {
    let sizes = Sizes {
        agents: rng.within(1..=MAX_AGENTS),
        resources: rng.within(1..=MAX_RESOURCES),
        states: rng.within(1..=6),
        propositions: rng.within(2..=3),
        rows: rng.within(5..=9),
    };
    let shape = Shape {
        sizes,
        actions: rng.within(2..=MAX_ACTIONS),
        cost: rng.pick(&[1, 2, 3, 5, MAX_COST]),
        bound: rng.pick(&[1, 3, 6, MAX_BOUND]),
        fixed: false,
        driver: driver(rng, sizes.agents),
    };
    let mut block = block(rng, shape);
    some_charges(rng, &mut block);
    block
}

/// As many positions as there can be: 24 states and bounds 15 and 15, three
/// agents with four actions everywhere.
pub fn full(rng: &mut Rng) -> Vec<u8> {
    let rows = rng.within(7..=9);
    let shape = Shape {
        sizes: Sizes {
            rows,
            ..Sizes::FULL
        },
        actions: MAX_ACTIONS,
        cost: rng.pick(&[1, 2, 4, MAX_COST]),
        bound: MAX_BOUND,
        fixed: true,
        driver: driver(rng, MAX_AGENTS),
    };
    let mut block = block(rng, shape);
    some_charges(rng, &mut block);
    block
}

/// None in one job of three.
fn driver(rng: &mut Rng, agents: usize) -> u8 {
    match rng.one_in(3) {
        true => 0,
        false => rng.within(1..=(1 << agents) - 1) as u8,
    }
}

/// Rows 0 to 3 are a rare proposition, a common one, not the rare one, and
/// true.
fn block(rng: &mut Rng, shape: Shape) -> Vec<u8> {
    let mut block = vec![0; BLOCK_BYTES];
    shape.sizes.store(&mut block);
    let reach = rng.within(0..=3);
    for state in 0..shape.sizes.states {
        fill_actions(rng, &mut block, shape, state);
        fill_next(rng, &mut block, shape, state, reach);
        block[mask(state)] = propositions(rng, shape.sizes.propositions);
    }
    if shape.driver.count_ones() > 1 && rng.one_in(2) {
        side_by_side(rng, &mut block, shape);
    }
    block[row(1, LEFT)] = 1;
    block[row(2, KIND)] = NOT;
    block[row(3, KIND)] = OR;
    block[row(3, RIGHT)] = 2;
    for i in 4..shape.sizes.rows {
        fill_row(rng, &mut block, shape, i);
    }
    fill_kinds(rng, &mut block);
    block
}

/// Proposition 0 is rare, the others common.
fn propositions(rng: &mut Rng, count: usize) -> u8 {
    let rare = u8::from(rng.one_in(5));
    (1..count).fold(rare, |mask, k| mask | u8::from(!rng.one_in(4)) << k)
}

fn fill_actions(rng: &mut Rng, block: &mut [u8], shape: Shape, state: usize) {
    for agent in 0..shape.sizes.agents {
        let actions = match shape.fixed {
            true => shape.actions,
            false => rng.within(1..=shape.actions),
        };
        block[count(state, agent)] = actions as u8;
        for action in 1..actions {
            for resource in 0..shape.sizes.resources {
                let free = rng.one_in(3);
                let spent = if free {
                    0
                } else {
                    rng.within(0..=shape.cost.into())
                };
                block[cost(state, agent, action, resource)] = spent as u8;
            }
        }
    }
}

/// Mostly at most `reach` states on, so that plays are long; with reach 0 any.
/// Where a coalition drives, its move mostly leads where the idle reply does.
fn fill_next(rng: &mut Rng, block: &mut [u8], shape: Shape, state: usize, reach: usize) {
    let states = shape.sizes.states;
    let joints: Vec<usize> = joint_actions(block, state).collect();
    for joint in joints {
        let number = part(joint, shape.driver);
        let target = match reach {
            _ if shape.driver != 0 && number != joint && !rng.one_in(32) => {
                block[next(state, number)].into()
            }
            0 => rng.below(states),
            _ if rng.one_in(16) => rng.below(states),
            _ => (state + rng.within(0..=reach)) % states,
        };
        block[next(state, joint)] = target as u8;
    }
}

/// The coalition's part of a joint action.
fn part(joint: usize, coalition: u8) -> usize {
    let agents = (0..MAX_AGENTS).filter(|agent| coalition >> agent & 1 == 1);
    agents.map(|a| actions(joint)[a] << (2 * a)).sum()
}

fn fill_row(rng: &mut Rng, block: &mut [u8], shape: Shape, i: usize) {
    let kind = rng.pick(&[
        PROP, NOT, OR, NEXT, NEXT, ALWAYS, ALWAYS, ALWAYS, UNTIL, UNTIL, UNTIL, UNTIL,
    ]);
    block[row(i, KIND)] = kind;
    block[row(i, LEFT)] = match kind {
        PROP => rng.below(shape.sizes.propositions),
        UNTIL if rng.one_in(2) => rng.pick(&[1, 3]),
        ALWAYS if rng.one_in(2) => rng.pick(&[1, 2]),
        _ => operand(rng, i),
    } as u8;
    if uses_right(kind) {
        block[row(i, RIGHT)] = operand(rng, i) as u8;
    }
    if is_strategic(kind) {
        let coalitions = (1 << shape.sizes.agents) - 1;
        block[row(i, COALITION)] = match shape.driver {
            driver if driver != 0 && rng.one_in(2) => driver,
            _ => rng.within(1..=coalitions) as u8,
        };
        for resource in 0..shape.sizes.resources {
            block[row(i, BOUND + resource)] = match shape.fixed {
                true => shape.bound,
                false if rng.one_in(5) => UNLIMITED,
                false => rng.within(0..=shape.bound.into()) as u8,
            };
        }
    }
}

/// A lower row, most often the rare proposition, and true not at all.
fn operand(rng: &mut Rng, i: usize) -> usize {
    match rng.within(0..=i) {
        3 => 0,
        row if row == i => 0,
        row => row,
    }
}
