//! The job of full size, jobs/full.job.

use crate::layout::*;
use crate::random::Rng;
use crate::text::{self, Edition};

const SEED: u64 = 24;

/// Rows of every kind, over bounds that are unlimited, 0, 15 and between.
const ROWS_TEXT: &str = "\
prop,0
prop,1
prop,7
not,0
or,0,3
or,1,2
next,7,15,15,5
next,1,0,0,3
next,6,inf,inf,0
next,4,3,inf,1
always,3,15,15,3
always,7,inf,inf,4
always,2,0,0,5
always,5,inf,0,3
always,6,15,inf,5
until,7,15,15,4,0
until,3,15,15,4,0
until,1,inf,inf,4,0
until,2,0,0,3,1
until,5,15,0,4,2
until,6,inf,15,3,1
until,3,7,12,5,0
not,15
or,16,22
next,3,15,0,23
always,7,15,15,23
until,7,8,8,25,2
until,5,inf,15,4,13
always,3,4,inf,21
not,27
or,28,29
until,7,15,15,30,0
";

/// The text of jobs/full.job.
pub fn text() -> Vec<u8> {
    let mut rng = Rng::new(SEED);
    let mut block = vec![0; BLOCK_BYTES];
    Sizes::FULL.store(&mut block);
    for state in 0..MAX_STATES {
        fill_state(&mut rng, &mut block, state);
    }
    let mut text = text::write_structure(Edition::One, &block);
    text.extend(ROWS_TEXT.as_bytes());
    text
}

/// Four actions everywhere. Proposition 0 holds in two stretches of states.
fn fill_state(rng: &mut Rng, block: &mut [u8], state: usize) {
    block[mask(state)] = rng.byte() & !1 | u8::from(state % 12 < 3);
    for agent in 0..MAX_AGENTS {
        block[count(state, agent)] = MAX_ACTIONS as u8;
        for action in 1..MAX_ACTIONS {
            for resource in 0..MAX_RESOURCES {
                let spent = rng.pick(&[0, 1, 1, 2, 3, MAX_COST]);
                block[cost(state, agent, action, resource)] = spent;
            }
        }
    }
    for joint in 0..JOINTS {
        let target = (state + step(rng, joint)) % MAX_STATES;
        block[next(state, joint)] = target as u8;
    }
}

/// Actions 1 and 2 push to the next states and action 3 holds back, with a few
/// exceptions: plays are long, and coalitions of every size win some rows.
fn step(rng: &mut Rng, joint: usize) -> usize {
    let count = |wanted: fn(usize) -> bool| {
        actions(joint)
            .iter()
            .filter(|&&action| wanted(action))
            .count()
    };
    let pushing = count(|action| action == 1 || action == 2);
    let holding = count(|action| action == 3);
    match rng.one_in(12) {
        true => rng.below(MAX_AGENTS),
        false => pushing.saturating_sub(holding),
    }
}
