//! Plays of a row (document 01, "When a row is true"): states and stock are
//! followed move by move, and the row is judged by the states alone.

use crate::checker::aim::{aim, Aim};
use crate::checker::search;
use crate::checker::structure::*;
use crate::layout::MAX_RESOURCES;
use crate::model::At;

/// A strategic row, and what can be played in each state.
pub struct Game {
    moves: Vec<Vec<Move>>,
    bound: Amounts,
    aim: Aim,
}

/// The states from the first on, and the position that the last move left.
pub struct Play {
    pub states: Vec<usize>,
    pub at: At,
}

impl Play {
    pub fn from(at: At) -> Play {
        let states = vec![at.state.into()];
        Play { states, at }
    }
}

impl Game {
    /// Of a strategic row of a block that the check lets pass.
    pub fn of(block: &[u8], row: u8) -> Game {
        let structure = Structure::of(block);
        let sets = search::label(&structure);
        Game::over(&structure, row.into(), &sets)
    }

    /// Over the sets of the lower rows.
    pub fn over(structure: &Structure, row: usize, sets: &[Set]) -> Game {
        let (ability, aim) = aim(structure.formulas[row], sets);
        Game {
            moves: structure.moves(ability.coalition),
            bound: ability.bound,
            aim,
        }
    }

    pub fn aim(&self) -> Aim {
        self.aim
    }

    /// The moves that the stock of the position can pay.
    pub fn affordable(&self, at: At) -> Vec<&Move> {
        let moves = self.moves[usize::from(at.state)].iter();
        moves
            .filter(|mv| self.left_over(at, mv.cost).is_some())
            .collect()
    }

    /// The position after a move of the state and a reply to it.
    pub fn outcome(&self, at: At, mv: &Move, reply: &Reply) -> At {
        let stock = self.left_over(at, mv.cost);
        At {
            state: reply.target as u8,
            stock: stock.unwrap_or_else(|| panic!("move {} at {at:?} costs more", mv.number)),
            ..at
        }
    }

    /// The move of the number, which must be one of the state's.
    pub fn find(&self, at: At, number: u8) -> &Move {
        let mut moves = self.moves[usize::from(at.state)].iter();
        let found = moves.find(|mv| mv.number == number);
        found.unwrap_or_else(|| panic!("no move {number} at {at:?}"))
    }

    pub fn go(&self, play: &mut Play, mv: u8, reply: u8) {
        let went = self.try_go(play, mv, reply);
        assert!(went, "no reply {reply} at {:?}", play.at);
    }

    /// Whether the reply is available; the play goes on only then.
    pub fn try_go(&self, play: &mut Play, mv: u8, reply: u8) -> bool {
        let mv = self.find(play.at, mv);
        let found = mv.replies.iter().find(|found| found.number == reply);
        if let Some(found) = found {
            play.at = self.outcome(play.at, mv, found);
            play.states.push(found.target);
        }
        found.is_some()
    }

    /// Whether a rehearsal ends with these states, whatever is left of its script
    /// (document 02, R-6).
    pub fn ends(&self, states: &[usize]) -> bool {
        match self.aim {
            Aim::Next { .. } => states.len() > 1,
            Aim::Always { .. } => false,
            Aim::Until { right, .. } => states.iter().any(|&state| contains(right, state)),
        }
    }

    /// Whether the states so far make the row true or false; none if they do
    /// not settle it.
    pub fn settled(&self, states: &[usize]) -> Option<bool> {
        match self.aim {
            Aim::Next { left } => states.get(1).map(|&state| contains(left, state)),
            Aim::Always { left } => {
                let fails = states.iter().any(|&state| !contains(left, state));
                fails.then_some(false)
            }
            Aim::Until { left, right } => {
                let open = |&&state: &&usize| contains(left & !right, state);
                let last = states.iter().find(|state| !open(state));
                last.map(|&state| contains(right, state))
            }
        }
    }

    /// What a cost leaves; none if the stock does not pay it.
    fn left_over(&self, at: At, cost: Cost) -> Option<[u8; MAX_RESOURCES]> {
        let mut stock = at.stock;
        for (resource, left) in stock.iter_mut().enumerate() {
            if self.bound[resource] != INFINITE {
                let rest = u32::from(*left).checked_add_signed(-cost[resource])?;
                *left = rest.min(self.bound[resource]) as u8;
            }
        }
        Some(stock)
    }
}
