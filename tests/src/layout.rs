//! Where each byte of a block stands (document 01, "The job"; document 02, R-3 and
//!
//! No other file writes an offset, but tests/jobs.rs: those of Catch, read off the
//! documents.

pub const BLOCK_BYTES: usize = 2471;
/// Its length before there were kinds of resources, now a wrong one.
pub const OLD_BLOCK_BYTES: usize = 2469;

pub const MAX_AGENTS: usize = 3;
pub const MAX_RESOURCES: usize = 2;
pub const MAX_STATES: usize = 24;
pub const MAX_PROPOSITIONS: usize = 8;
pub const MAX_ROWS: usize = 32;
pub const MAX_ACTIONS: usize = 4;
pub const MAX_COST: u8 = 15;
pub const MAX_BOUND: u8 = 15;
pub const UNLIMITED: u8 = 255;
/// Numbers of joint actions, used or not.
pub const JOINTS: usize = 64;

/// Places of N, R, M, P and F.
pub const AGENTS: usize = 0;
pub const RESOURCES: usize = 1;
pub const STATES: usize = 2;
pub const PROPOSITIONS: usize = 3;
pub const ROWS: usize = 4;

/// Kinds of a resource: what a move of several agents costs of it.
pub const SUM: u8 = 0;
pub const MAX: u8 = 1;

/// Kinds of a row.
pub const PROP: u8 = 0;
pub const NOT: u8 = 1;
pub const OR: u8 = 2;
pub const NEXT: u8 = 3;
pub const ALWAYS: u8 = 4;
pub const UNTIL: u8 = 5;

/// Fields of a row; resource j's bound is field `BOUND + j`, and two bytes of
/// padding follow.
pub const KIND: usize = 0;
pub const LEFT: usize = 1;
pub const RIGHT: usize = 2;
pub const COALITION: usize = 3;
pub const BOUND: usize = 4;
pub const PADDING: usize = 6;
pub const ROW_BYTES: usize = 8;

pub const fn mask(state: usize) -> usize {
    5 + state
}

pub const fn count(state: usize, agent: usize) -> usize {
    29 + 3 * state + agent
}

pub const fn cost(state: usize, agent: usize, action: usize, resource: usize) -> usize {
    101 + 24 * state + 8 * agent + 2 * action + resource
}

pub const fn next(state: usize, joint: usize) -> usize {
    677 + 64 * state + joint
}

pub const fn row(row: usize, field: usize) -> usize {
    2213 + 8 * row + field
}

/// The kind of a resource; the two are the block's last bytes.
pub const fn resource_kind(resource: usize) -> usize {
    2469 + resource
}

/// N, R, M, P and F.
#[derive(Clone, Copy, Debug, PartialEq, Eq)]
pub struct Sizes {
    pub agents: usize,
    pub resources: usize,
    pub states: usize,
    pub propositions: usize,
    pub rows: usize,
}

impl Sizes {
    pub const FULL: Sizes = Sizes {
        agents: MAX_AGENTS,
        resources: MAX_RESOURCES,
        states: MAX_STATES,
        propositions: MAX_PROPOSITIONS,
        rows: MAX_ROWS,
    };

    /// The five sizes as the block has them, in range or not.
    pub fn of(block: &[u8]) -> Sizes {
        Sizes {
            agents: block[AGENTS].into(),
            resources: block[RESOURCES].into(),
            states: block[STATES].into(),
            propositions: block[PROPOSITIONS].into(),
            rows: block[ROWS].into(),
        }
    }

    pub fn store(&self, block: &mut [u8]) {
        block[AGENTS] = self.agents as u8;
        block[RESOURCES] = self.resources as u8;
        block[STATES] = self.states as u8;
        block[PROPOSITIONS] = self.propositions as u8;
        block[ROWS] = self.rows as u8;
    }
}

/// The cost that a byte holds: from 128 on a charge, which counts below 0 and is held
/// as 256 minus it.
pub fn cost_of(byte: u8) -> i32 {
    match i32::from(byte) {
        charge @ 128.. => charge - 256,
        cost => cost,
    }
}

/// The byte that holds a cost or a charge.
pub fn cost_byte(cost: i32) -> u8 {
    u8::try_from(cost.rem_euclid(256)).expect("a byte")
}

/// Whether an action that exists charges a resource.
pub fn has_charges(block: &[u8]) -> bool {
    cost_places(block).any(|(place, _)| cost_of(block[place]) < 0)
}

/// The places in use that hold a cost, each with its resource, but those of idling.
pub fn cost_places(block: &[u8]) -> impl Iterator<Item = (usize, usize)> + '_ {
    let sizes = Sizes::of(block);
    let agents = (0..sizes.states).flat_map(move |s| (0..sizes.agents).map(move |a| (s, a)));
    let actions = agents.flat_map(|(s, a)| (1..block[count(s, a)].into()).map(move |k| (s, a, k)));
    actions.flat_map(move |(s, a, k)| (0..sizes.resources).map(move |j| (cost(s, a, k, j), j)))
}

/// The action of each agent in a joint action: a0 + 4·a1 + 16·a2.
pub fn actions(joint: usize) -> [usize; MAX_AGENTS] {
    [joint % 4, joint / 4 % 4, joint / 16]
}

/// The joint actions of a state in rising number: each agent's action below
/// its count, 0 for an agent that does not exist.
pub fn joint_actions(block: &[u8], state: usize) -> impl Iterator<Item = usize> + '_ {
    let agents = Sizes::of(block).agents;
    let limit = |agent| match agent < agents {
        true => block[count(state, agent)].into(),
        false => 1,
    };
    let limits: [usize; MAX_AGENTS] = [limit(0), limit(1), limit(2)];
    (0..JOINTS).filter(move |&joint| {
        let actions = actions(joint);
        (0..MAX_AGENTS).all(|agent| actions[agent] < limits[agent])
    })
}

/// Whether a kind uses right. Every kind uses left.
pub fn uses_right(kind: u8) -> bool {
    kind == OR || kind == UNTIL
}

/// Whether a kind uses the coalition and its bounds.
pub fn is_strategic(kind: u8) -> bool {
    kind == NEXT || kind == ALWAYS || kind == UNTIL
}
