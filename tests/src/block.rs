//! The block check, made from documents 01 and 02 alone: the refusal number, or 0.

use crate::layout::*;
use crate::refusal;

/// Numbers 2, 3, 13, 4, 5 and 6 are each tried over the whole block, in this order. A
/// later one may rely on the earlier ones: sizes and counts are then in range.
pub fn check(block: &[u8]) -> u8 {
    if block.len() != BLOCK_BYTES {
        refusal::LENGTH
    } else if bad_sizes(block) {
        refusal::SIZES
    } else if bad_states(block) {
        refusal::STATE
    } else if bad_charges(block) {
        refusal::CHARGE
    } else if bad_next(block) {
        refusal::NEXT
    } else if bad_rows(block) {
        refusal::ROW
    } else if bad_unused(block) {
        refusal::UNUSED
    } else {
        0
    }
}

fn bad_sizes(block: &[u8]) -> bool {
    let sizes = Sizes::of(block);
    !(1..=MAX_AGENTS).contains(&sizes.agents)
        || !(1..=MAX_RESOURCES).contains(&sizes.resources)
        || !(1..=MAX_STATES).contains(&sizes.states)
        || !(1..=MAX_PROPOSITIONS).contains(&sizes.propositions)
        || !(1..=MAX_ROWS).contains(&sizes.rows)
        || (0..sizes.resources).any(|resource| block[resource_kind(resource)] > MAX)
}

fn bad_states(block: &[u8]) -> bool {
    let sizes = Sizes::of(block);
    (0..sizes.states).any(|state| {
        bad_mask(block[mask(state)], sizes.propositions)
            || (0..sizes.agents).any(|agent| bad_actions(block, state, agent))
    })
}

pub fn bad_mask(mask: u8, propositions: usize) -> bool {
    usize::from(mask) >= 1 << propositions
}

fn bad_actions(block: &[u8], state: usize, agent: usize) -> bool {
    let actions = block[count(state, agent)];
    bad_count(actions)
        || (0..actions.into()).any(|action| {
            (0..Sizes::of(block).resources).any(|resource| {
                bad_cost(action, cost_of(block[cost(state, agent, action, resource)]))
            })
        })
}

pub fn bad_count(actions: u8) -> bool {
    !(1..=MAX_ACTIONS).contains(&actions.into())
}

/// Action 0 is idle and costs nothing.
pub fn bad_cost(action: usize, cost: i32) -> bool {
    let most = if action == 0 { 0 } else { MAX_COST };
    cost.unsigned_abs() > most.into()
}

/// A resource of kind max is not charged.
pub fn bad_charge(kind: u8, cost: i32) -> bool {
    kind == MAX && cost < 0
}

fn bad_charges(block: &[u8]) -> bool {
    cost_places(block).any(|(place, j)| bad_charge(block[resource_kind(j)], cost_of(block[place])))
}

fn bad_next(block: &[u8]) -> bool {
    let states = Sizes::of(block).states;
    (0..states).any(|state| {
        joint_actions(block, state).any(|joint| usize::from(block[next(state, joint)]) >= states)
    })
}

fn bad_rows(block: &[u8]) -> bool {
    (0..Sizes::of(block).rows).any(|i| bad_row(block, i))
}

fn bad_row(block: &[u8], i: usize) -> bool {
    let sizes = Sizes::of(block);
    let field = |field| block[row(i, field)];
    let kind = field(KIND);
    if kind > UNTIL {
        return true;
    }
    if kind == PROP {
        return usize::from(field(LEFT)) >= sizes.propositions;
    }
    bad_operand(field(LEFT), i)
        || uses_right(kind) && bad_operand(field(RIGHT), i)
        || is_strategic(kind) && bad_coalition(field(COALITION), sizes.agents)
        || is_strategic(kind) && (0..sizes.resources).any(|j| bad_bound(field(BOUND + j)))
}

/// Left and right name lower rows.
pub fn bad_operand(operand: u8, row: usize) -> bool {
    usize::from(operand) >= row
}

pub fn bad_coalition(coalition: u8, agents: usize) -> bool {
    coalition == 0 || usize::from(coalition) >= 1 << agents
}

fn bad_bound(bound: u8) -> bool {
    bound > MAX_BOUND && bound != UNLIMITED
}

fn bad_unused(block: &[u8]) -> bool {
    let used = used_places(block);
    (0..BLOCK_BYTES).any(|place| !used[place] && block[place] != 0)
}

/// The places in use, of a block that numbers 2 to 5 let pass.
pub fn used_places(block: &[u8]) -> Vec<bool> {
    let sizes = Sizes::of(block);
    let mut used = vec![false; BLOCK_BYTES];
    used[AGENTS..=ROWS].fill(true);
    used[resource_kind(0)..resource_kind(sizes.resources)].fill(true);
    for state in 0..sizes.states {
        use_state(block, state, &mut used);
    }
    for i in 0..sizes.rows {
        use_row(block, i, &mut used);
    }
    used
}

fn use_state(block: &[u8], state: usize, used: &mut [bool]) {
    let sizes = Sizes::of(block);
    used[mask(state)] = true;
    for agent in 0..sizes.agents {
        used[count(state, agent)] = true;
        for action in 0..block[count(state, agent)].into() {
            for resource in 0..sizes.resources {
                used[cost(state, agent, action, resource)] = true;
            }
        }
    }
    for joint in joint_actions(block, state) {
        used[next(state, joint)] = true;
    }
}

fn use_row(block: &[u8], i: usize, used: &mut [bool]) {
    let kind = block[row(i, KIND)];
    used[row(i, KIND)] = true;
    used[row(i, LEFT)] = true;
    used[row(i, RIGHT)] = uses_right(kind);
    used[row(i, COALITION)] = is_strategic(kind);
    for resource in 0..Sizes::of(block).resources {
        used[row(i, BOUND + resource)] = is_strategic(kind);
    }
}
