//! Random jobs from a fixed seed.

use crate::layout::*;
use crate::text::{self, Edition};
use std::ops::RangeInclusive;

/// splitmix64: the same numbers on every machine.
pub struct Rng(u64);

impl Rng {
    pub fn new(seed: u64) -> Rng {
        Rng(seed)
    }

    /// A generator of its own for each case, so that one case can be run alone.
    pub fn for_case(seed: u64, case: u64) -> Rng {
        let mut rng = Rng(seed ^ case.wrapping_mul(0xD6E8_FEB8_6659_FD93));
        rng.number();
        rng
    }

    pub fn number(&mut self) -> u64 {
        self.0 = self.0.wrapping_add(0x9E37_79B9_7F4A_7C15);
        let mut z = self.0;
        z = (z ^ (z >> 30)).wrapping_mul(0xBF58_476D_1CE4_E5B9);
        z = (z ^ (z >> 27)).wrapping_mul(0x94D0_49BB_1331_11EB);
        z ^ (z >> 31)
    }

    pub fn below(&mut self, limit: usize) -> usize {
        (self.number() % limit as u64) as usize
    }

    pub fn within(&mut self, range: RangeInclusive<usize>) -> usize {
        range.start() + self.below(range.end() - range.start() + 1)
    }

    pub fn byte(&mut self) -> u8 {
        self.number() as u8
    }

    /// True once in `times`.
    pub fn one_in(&mut self, times: usize) -> bool {
        self.below(times) == 0
    }

    pub fn pick<T: Copy>(&mut self, from: &[T]) -> T {
        from[self.below(from.len())]
    }
}

/// The number of random cases: `least`, or more if TIHOKEWA_CASES says so.
pub fn cases(least: u64) -> u64 {
    match std::env::var("TIHOKEWA_CASES") {
        Ok(wanted) => least.max(wanted.parse().expect("TIHOKEWA_CASES is a number")),
        Err(_) => least,
    }
}

/// Sizes that a brute force can still search.
pub fn small_sizes(rng: &mut Rng) -> Sizes {
    Sizes {
        agents: rng.within(1..=2),
        resources: rng.within(1..=2),
        states: rng.within(1..=4),
        propositions: rng.within(1..=2),
        rows: rng.within(1..=8),
    }
}

pub fn any_sizes(rng: &mut Rng) -> Sizes {
    Sizes {
        agents: rng.within(1..=MAX_AGENTS),
        resources: rng.within(1..=MAX_RESOURCES),
        states: rng.within(1..=MAX_STATES),
        propositions: rng.within(1..=MAX_PROPOSITIONS),
        rows: rng.within(1..=MAX_ROWS),
    }
}

/// A job of small, any or full size.
pub fn any_block(rng: &mut Rng) -> Vec<u8> {
    let sizes = match rng.below(4) {
        0 => small_sizes(rng),
        1 => Sizes::FULL,
        _ => any_sizes(rng),
    };
    block(rng, sizes)
}

/// A job of the given sizes that the check lets pass.
pub fn block(rng: &mut Rng, sizes: Sizes) -> Vec<u8> {
    let mut block = vec![0; BLOCK_BYTES];
    sizes.store(&mut block);
    for state in 0..sizes.states {
        fill_state(rng, &mut block, state);
    }
    for i in 0..sizes.rows {
        fill_row(rng, &mut block, i);
    }
    fill_kinds(rng, &mut block);
    some_charges(rng, &mut block);
    block
}

/// Each resource of either kind.
pub fn fill_kinds(rng: &mut Rng, block: &mut [u8]) {
    for resource in 0..Sizes::of(block).resources {
        block[resource_kind(resource)] = rng.pick(&[SUM, MAX]);
    }
}

/// Charges in one job of three.
pub fn some_charges(rng: &mut Rng, block: &mut [u8]) {
    if rng.one_in(3) {
        fill_charges(rng, block);
    }
}

/// Some of the costs become charges, none above a size that is drawn for the job. A
/// resource of kind max has none; where there is no other, one becomes of kind sum.
pub fn fill_charges(rng: &mut Rng, block: &mut [u8]) {
    let charged = rng.below(Sizes::of(block).resources);
    if !has_sum(block) {
        block[resource_kind(charged)] = SUM;
    }
    let (most, often) = (rng.pick(&[1, 2, 5, MAX_COST]), rng.pick(&[2, 3, 6]));
    let places: Vec<(usize, usize)> = cost_places(block).collect();
    for (place, resource) in places {
        if block[resource_kind(resource)] == SUM && rng.one_in(often) {
            block[place] = cost_byte(-(rng.within(1..=most.into()) as i32));
        }
    }
}

fn has_sum(block: &[u8]) -> bool {
    let mut resources = 0..Sizes::of(block).resources;
    resources.any(|resource| block[resource_kind(resource)] == SUM)
}

/// Each charge becomes a cost of the same amount.
pub fn take_charges(block: &mut [u8]) {
    let places: Vec<(usize, usize)> = cost_places(block).collect();
    for (place, _) in places {
        block[place] = cost_byte(cost_of(block[place]).abs());
    }
}

/// The text of a job in either edition. In edition 1 every resource is of kind
/// sum and none is charged, and the job becomes such a one.
pub fn any_text(rng: &mut Rng, block: &mut [u8]) -> Vec<u8> {
    if rng.one_in(2) {
        return text::write(block);
    }
    block[resource_kind(0)..BLOCK_BYTES].fill(SUM);
    take_charges(block);
    text::write_as(Edition::One, block)
}

/// Mask, actions and next states of one state.
fn fill_state(rng: &mut Rng, block: &mut [u8], state: usize) {
    let sizes = Sizes::of(block);
    let most = rng.within(1..=MAX_ACTIONS);
    block[mask(state)] = rng.below(1 << sizes.propositions) as u8;
    for agent in 0..sizes.agents {
        let actions = rng.within(1..=most);
        block[count(state, agent)] = actions as u8;
        for action in 1..actions {
            for resource in 0..sizes.resources {
                block[cost(state, agent, action, resource)] = random_cost(rng);
            }
        }
    }
    let joints: Vec<usize> = joint_actions(block, state).collect();
    for joint in joints {
        block[next(state, joint)] = rng.below(sizes.states) as u8;
    }
}

/// Mostly small, so that a bound pays for several moves.
fn random_cost(rng: &mut Rng) -> u8 {
    let most = rng.pick(&[0, 1, 2, 4, MAX_COST]);
    rng.within(0..=most.into()) as u8
}

fn fill_row(rng: &mut Rng, block: &mut [u8], i: usize) {
    let sizes = Sizes::of(block);
    let kind = if i == 0 {
        PROP
    } else {
        rng.within(0..=UNTIL.into()) as u8
    };
    block[row(i, KIND)] = kind;
    let operands = if kind == PROP { sizes.propositions } else { i };
    block[row(i, LEFT)] = rng.below(operands) as u8;
    if uses_right(kind) {
        block[row(i, RIGHT)] = rng.below(i) as u8;
    }
    if is_strategic(kind) {
        block[row(i, COALITION)] = rng.within(1..=(1 << sizes.agents) - 1) as u8;
        for resource in 0..sizes.resources {
            block[row(i, BOUND + resource)] = random_bound(rng);
        }
    }
}

/// The borders 0 and 15 and unlimited more often than the rest.
fn random_bound(rng: &mut Rng) -> u8 {
    match rng.below(6) {
        0 => UNLIMITED,
        1 => 0,
        2 => MAX_BOUND,
        _ => rng.within(0..=MAX_BOUND.into()) as u8,
    }
}
