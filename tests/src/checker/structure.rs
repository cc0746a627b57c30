//! Document 003, sections 2.1 and 2.2: a block that passes, decoded into a
//! structure (definition 1), a coalition's moves (definition 2) and formulas. Of
//! a resource of kind max a move takes the largest of its agents' costs, and not
//! their sum (document 02, R-3); a charge is a cost below 0.

use crate::layout::{self, Sizes, MAX_RESOURCES};
use std::collections::BTreeMap;

/// A set of states, bit s for state s.
pub type Set = u32;

/// What a move takes of each resource, below 0 where it charges; of an absent one
/// nothing.
pub type Cost = [i32; MAX_RESOURCES];

/// A bound or a stock, in which a resource may be unlimited.
pub type Amounts = [u32; MAX_RESOURCES];

/// ∞ of a bound; no sum of costs comes near it.
pub const INFINITE: u32 = u32::MAX;

pub struct Structure {
    pub states: usize,
    pub formulas: Vec<Formula>,
    /// Whether an action charges a resource.
    pub charges: bool,
    propositions: Vec<u8>,
    kinds: [u8; MAX_RESOURCES],
    transitions: Vec<Vec<Transition>>,
}

/// One joint action of a state: each agent's action and its cost, and where
/// they lead.
struct Transition {
    actions: [usize; layout::MAX_AGENTS],
    costs: [Cost; layout::MAX_AGENTS],
    target: usize,
}

/// A formula over lower rows.
#[derive(Clone, Copy, Debug)]
pub enum Formula {
    Prop(usize),
    Not(usize),
    Or(usize, usize),
    Next(Ability, usize),
    Always(Ability, usize),
    Until(Ability, usize, usize),
}

/// The coalition A and the bound b of ⟪A^b⟫.
#[derive(Clone, Copy, Debug)]
pub struct Ability {
    pub coalition: u8,
    pub bound: Amounts,
}

/// A coalition's move in a state, and the replies to it in rising number.
pub struct Move {
    pub number: u8,
    pub cost: Cost,
    pub replies: Vec<Reply>,
}

pub struct Reply {
    pub number: u8,
    pub target: usize,
}

impl Structure {
    /// Of a block that the check lets pass.
    pub fn of(block: &[u8]) -> Structure {
        let sizes = Sizes::of(block);
        let states = 0..sizes.states;
        Structure {
            states: sizes.states,
            formulas: (0..sizes.rows).map(|row| formula(block, row)).collect(),
            charges: layout::has_charges(block),
            propositions: states.clone().map(|s| block[layout::mask(s)]).collect(),
            kinds: std::array::from_fn(|j| block[layout::resource_kind(j)]),
            transitions: states.map(|s| transitions(block, s)).collect(),
        }
    }

    /// The states in which the proposition holds.
    pub fn holds(&self, proposition: usize) -> Set {
        self.set(|state| self.propositions[state] >> proposition & 1 == 1)
    }

    /// All states.
    pub fn all(&self) -> Set {
        self.set(|_| true)
    }

    pub fn set(&self, contains: impl Fn(usize) -> bool) -> Set {
        let bits = (0..self.states).map(|state| Set::from(contains(state)) << state);
        bits.sum()
    }

    /// D_A(q) for each state q: the coalition's moves in rising number.
    pub fn moves(&self, coalition: u8) -> Vec<Vec<Move>> {
        let states = self.transitions.iter();
        states
            .map(|all| moves(all, coalition, self.kinds))
            .collect()
    }
}

fn transitions(block: &[u8], state: usize) -> Vec<Transition> {
    let sizes = Sizes::of(block);
    let transition = |joint| {
        let actions = layout::actions(joint);
        let mut costs = [[0; MAX_RESOURCES]; layout::MAX_AGENTS];
        for (agent, cost) in costs.iter_mut().enumerate().take(sizes.agents) {
            for (resource, amount) in cost.iter_mut().enumerate().take(sizes.resources) {
                let byte = block[layout::cost(state, agent, actions[agent], resource)];
                *amount = layout::cost_of(byte);
            }
        }
        let target = block[layout::next(state, joint)].into();
        Transition {
            actions,
            costs,
            target,
        }
    };
    layout::joint_actions(block, state)
        .map(transition)
        .collect()
}

/// Joint actions come in rising number, and so do the replies to one move.
fn moves(transitions: &[Transition], coalition: u8, kinds: [u8; MAX_RESOURCES]) -> Vec<Move> {
    let mut moves: BTreeMap<u8, Move> = BTreeMap::new();
    for transition in transitions {
        let (mut number, mut reply, mut cost) = (0, 0, [0; MAX_RESOURCES]);
        for (agent, &action) in transition.actions.iter().enumerate() {
            let digit = (action << (2 * agent)) as u8;
            if coalition >> agent & 1 == 1 {
                number += digit;
                cost = together(kinds, cost, transition.costs[agent]);
            } else {
                reply += digit;
            }
        }
        let replies = Vec::new();
        let entry = moves.entry(number).or_insert(Move {
            number,
            cost,
            replies,
        });
        entry.replies.push(Reply {
            number: reply,
            target: transition.target,
        });
    }
    moves.into_values().collect()
}

fn formula(block: &[u8], row: usize) -> Formula {
    let field = |field| block[layout::row(row, field)];
    let (left, right) = (field(layout::LEFT).into(), field(layout::RIGHT).into());
    let mut bound = [INFINITE; MAX_RESOURCES];
    for (resource, limit) in bound.iter_mut().enumerate() {
        let byte = field(layout::BOUND + resource);
        if resource < Sizes::of(block).resources && byte != layout::UNLIMITED {
            *limit = byte.into();
        }
    }
    let coalition = field(layout::COALITION);
    let ability = Ability { coalition, bound };
    match field(layout::KIND) {
        layout::PROP => Formula::Prop(left),
        layout::NOT => Formula::Not(left),
        layout::OR => Formula::Or(left, right),
        layout::NEXT => Formula::Next(ability, left),
        layout::ALWAYS => Formula::Always(ability, left),
        layout::UNTIL => Formula::Until(ability, left, right),
        kind => panic!("row {row} has kind {kind}"),
    }
}

pub fn contains(set: Set, state: usize) -> bool {
    set >> state & 1 == 1
}

/// What two agents' actions cost in one move, by the kinds of the resources.
fn together(kinds: [u8; MAX_RESOURCES], a: Cost, b: Cost) -> Cost {
    std::array::from_fn(|resource| match kinds[resource] {
        layout::MAX => a[resource].max(b[resource]),
        _ => a[resource] + b[resource],
    })
}
