//! Blocks that differ from a job in some bytes, or in their length.

use crate::block::used_places;
use crate::jobs;
use crate::layout::*;
use crate::random::Rng;
use crate::text::TEXT_BYTES;

/// Values at both sides of every border in documents 01 and 02.
#[rustfmt::skip]
pub const BORDERS: [u8; 28] = [
    0, 1, 2, 3, 4, 5, 6, 7, 8, 9, 14, 15, 16, 17, 23, 24, 25, 31, 32, 33, 127, 128, 239, 240, 241,
    253, 254, 255,
];

/// Lengths near the only right one, and far from it.
const LENGTHS: [usize; 9] = [
    0,
    1,
    mask(0),
    row(0, 0),
    resource_kind(0),
    BLOCK_BYTES - 1,
    BLOCK_BYTES + 1,
    2 * BLOCK_BYTES,
    TEXT_BYTES,
];

/// A number of the block, and the changes that give it.
type Damage = (u8, &'static [(usize, u8)]);

/// Damage for each number of the block, in Catch.
const DAMAGES: [Damage; 9] = [
    (2, &[(STATES, 25)]),
    (2, &[(resource_kind(0), 2)]),
    (3, &[(count(0, 0), 5)]),
    (3, &[(cost(0, 0, 1, 0), 240)]),
    (13, &[(resource_kind(0), MAX), (cost(0, 0, 1, 0), 241)]),
    (4, &[(next(0, 0), 3)]),
    (5, &[(row(5, KIND), 6)]),
    (6, &[(mask(23), 1)]),
    (6, &[(resource_kind(1), MAX)]),
];

/// Chooses a place of one sort in a job.
type Target = fn(&mut Rng, &[u8]) -> usize;

const TARGETS: [(&str, Target); 10] = [
    ("any place", any_place),
    ("size", size_place),
    ("kind of a resource", resource_kind_place),
    ("mask", mask_place),
    ("count", count_place),
    ("cost", cost_place),
    ("next state", next_place),
    ("row field", row_place),
    ("row kind, operand, coalition or bound", used_row_place),
    ("unused place", unused_place),
];

/// Catch, and Catch with each number of the block.
pub fn whole_and_damaged() -> Vec<(Vec<u8>, u8)> {
    let mut blocks = vec![(jobs::catch(), 0)];
    for (number, changes) in DAMAGES {
        let mut block = jobs::catch();
        for &(place, value) in changes {
            block[place] = value;
        }
        blocks.push((block, number));
    }
    blocks
}

/// Damages a job, or leaves it whole, and says how.
pub fn damage(rng: &mut Rng, block: &mut Vec<u8>) -> &'static str {
    match rng.below(17) {
        0 => "whole",
        1 => {
            change_length(rng, block);
            "length"
        }
        2 => {
            fill_with_noise(rng, block);
            "noise"
        }
        3..=5 => {
            let places = (0..rng.within(2..=8)).map(|_| any_place(rng, block));
            let places: Vec<usize> = places.collect();
            set(rng, block, &places);
            "several places"
        }
        6..=7 => {
            let places = (0..rng.within(2..=3)).map(|_| rng.pick(&TARGETS).1(rng, block));
            let places: Vec<usize> = places.collect();
            set(rng, block, &places);
            "several targets"
        }
        8 => {
            let place = cost_place(rng, block);
            block[place] = cost_byte(-(rng.within(1..=MAX_COST.into()) as i32));
            "charge"
        }
        _ => {
            let (name, target) = rng.pick(&TARGETS);
            let place = target(rng, block);
            set(rng, block, &[place]);
            name
        }
    }
}

/// Sets the places to values that often lie at a border.
fn set(rng: &mut Rng, block: &mut [u8], places: &[usize]) {
    for &place in places {
        let old = block[place];
        block[place] = match rng.below(5) {
            0 => rng.byte(),
            1 => old.wrapping_add(1),
            2 => old.wrapping_sub(1),
            3 => old ^ (1 << rng.below(8)),
            _ => rng.pick(&BORDERS),
        };
    }
}

fn any_place(rng: &mut Rng, _: &[u8]) -> usize {
    rng.below(BLOCK_BYTES)
}

fn size_place(rng: &mut Rng, _: &[u8]) -> usize {
    rng.within(AGENTS..=ROWS)
}

/// Also that of a resource that does not exist.
fn resource_kind_place(rng: &mut Rng, _: &[u8]) -> usize {
    resource_kind(rng.below(MAX_RESOURCES))
}

fn mask_place(rng: &mut Rng, block: &[u8]) -> usize {
    mask(rng.below(Sizes::of(block).states))
}

fn count_place(rng: &mut Rng, block: &[u8]) -> usize {
    let sizes = Sizes::of(block);
    count(rng.below(sizes.states), rng.below(sizes.agents))
}

fn cost_place(rng: &mut Rng, block: &[u8]) -> usize {
    let sizes = Sizes::of(block);
    let (state, agent) = (rng.below(sizes.states), rng.below(sizes.agents));
    let action = rng.below(block[count(state, agent)].into());
    cost(state, agent, action, rng.below(sizes.resources))
}

fn next_place(rng: &mut Rng, block: &[u8]) -> usize {
    let state = rng.below(Sizes::of(block).states);
    let joints: Vec<usize> = joint_actions(block, state).collect();
    next(state, rng.pick(&joints))
}

fn used_row_place(rng: &mut Rng, block: &[u8]) -> usize {
    let used = used_places(block);
    let rows = row(0, 0)..row(Sizes::of(block).rows, 0);
    let places: Vec<usize> = rows.filter(|&place| used[place]).collect();
    rng.pick(&places)
}

/// Also the fields that the row's kind does not use.
fn row_place(rng: &mut Rng, block: &[u8]) -> usize {
    let i = rng.below(Sizes::of(block).rows);
    row(i, rng.below(ROW_BYTES))
}

/// Every job has unused places: the padding of its rows.
fn unused_place(rng: &mut Rng, block: &[u8]) -> usize {
    let used = used_places(block);
    let unused: Vec<usize> = (0..BLOCK_BYTES).filter(|&place| !used[place]).collect();
    rng.pick(&unused)
}

fn change_length(rng: &mut Rng, block: &mut Vec<u8>) {
    let length = match rng.below(2) {
        0 => rng.pick(&LENGTHS),
        _ => rng.below(2 * BLOCK_BYTES),
    };
    block.resize(length, rng.byte());
}

/// Random bytes, half the time behind sizes that pass.
fn fill_with_noise(rng: &mut Rng, block: &mut [u8]) {
    let first = if rng.one_in(2) { AGENTS } else { ROWS + 1 };
    let largest = rng.pick(&[1, 2, 4, 6, 16, 255]);
    for byte in &mut block[first..] {
        *byte = rng.within(0..=largest) as u8;
    }
}
