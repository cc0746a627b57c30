//! What trials of all strategies say of the rows of a tiny job: sets, ranks,
//! moves and replies, and whether a rule for the replies wins.

use super::aim::{aim, Aim};
use super::brute::{Rule, Trial};
use super::structure::*;
use super::{NEVER, NO_MOVE};
use crate::layout::MAX_RESOURCES;

/// What the trials say of a row: its set and, if it is strategic, its table.
pub struct Verdict {
    pub set: Set,
    pub ranks: Vec<u16>,
    pub moves: Vec<u8>,
    /// Where the coalition does not win, each affordable move and its reply.
    pub replies: Vec<Vec<(u8, u8)>>,
}

/// All rows; none if some trial has more than `limit` strategies.
pub fn solve(structure: &Structure, limit: usize) -> Option<Vec<Verdict>> {
    let mut sets: Vec<Set> = Vec::new();
    let mut verdicts = Vec::new();
    for &formula in &structure.formulas {
        let verdict = match formula {
            Formula::Prop(proposition) => plain(structure.holds(proposition)),
            Formula::Not(left) => plain(structure.all() & !sets[left]),
            Formula::Or(left, right) => plain(sets[left] | sets[right]),
            Formula::Next(..) | Formula::Always(..) | Formula::Until(..) => {
                strategic(structure, formula, &sets, limit)?
            }
        };
        sets.push(verdict.set);
        verdicts.push(verdict);
    }
    Some(verdicts)
}

/// Whether the rule makes the row false against every strategy from each
/// position that the coalition does not win, and always so within its rank;
/// none if there are too many strategies.
pub fn rule_wins(
    structure: &Structure,
    row: usize,
    verdicts: &[Verdict],
    rule: Rule,
    limit: usize,
) -> Option<bool> {
    let sets: Vec<Set> = verdicts.iter().map(|verdict| verdict.set).collect();
    let (ability, aim) = aim(structure.formulas[row], &sets);
    let moves = &structure.moves(ability.coalition);
    let Verdict {
        ranks,
        moves: table,
        ..
    } = &verdicts[row];
    for (position, (start, stock)) in positions(structure, ability).into_iter().enumerate() {
        let n = match aim {
            Aim::Always { .. } => ranks[position].into(),
            Aim::Next { .. } | Aim::Until { .. } => ranks.len(),
        };
        let trial = Trial {
            moves,
            aim,
            start,
            stock,
            bound: ability.bound,
            limit,
            rule: Some(rule),
        };
        if table[position] == NO_MOVE && trial.any(n)? {
            return Some(false);
        }
    }
    Some(true)
}

fn plain(set: Set) -> Verdict {
    Verdict {
        set,
        ranks: Vec::new(),
        moves: Vec::new(),
        replies: Vec::new(),
    }
}

fn strategic(
    structure: &Structure,
    formula: Formula,
    sets: &[Set],
    limit: usize,
) -> Option<Verdict> {
    let (ability, aim) = aim(formula, sets);
    let moves = &structure.moves(ability.coalition);
    let positions = positions(structure, ability);
    let mut verdict = plain(0);
    for &(start, stock) in &positions {
        let trial = Trial {
            moves,
            aim,
            start,
            stock,
            bound: ability.bound,
            limit,
            rule: None,
        };
        let (rank, mv) = trial.rank_and_move(positions.len())?;
        verdict.ranks.push(rank);
        verdict.moves.push(mv);
        if stock == ability.bound && mv != NO_MOVE {
            verdict.set |= 1 << start;
        }
        verdict.replies.push(match mv {
            NO_MOVE => trial.replies(rank.into(), positions.len())?,
            _ => Vec::new(),
        });
    }
    Some(verdict)
}

/// The state and the stock of each position, in order.
fn positions(structure: &Structure, ability: Ability) -> Vec<(usize, Amounts)> {
    let stocks = stocks(ability.bound);
    let of = |state| stocks.iter().map(move |&stock| (state, stock));
    (0..structure.states).flat_map(of).collect()
}

/// The stocks of a state's positions, in order; an unlimited resource stays so.
fn stocks(bound: Amounts) -> Vec<Amounts> {
    let mut stocks = vec![bound];
    for resource in 0..MAX_RESOURCES {
        if bound[resource] != INFINITE {
            let with = |stock: &Amounts, amount| {
                let mut stock = *stock;
                stock[resource] = amount;
                stock
            };
            let amounts = |stock| (0..=bound[resource]).map(move |amount| with(stock, amount));
            stocks = stocks.iter().flat_map(amounts).collect();
        }
    }
    stocks
}

impl Trial<'_> {
    /// A play of as many moves as there are positions comes to one twice, so
    /// what can be enforced at all can be within fewer.
    fn rank_and_move(&self, positions: usize) -> Option<(u16, u8)> {
        let all = 0..positions;
        match self.aim {
            Aim::Next { .. } => match self.any(1)? {
                true => Some((1, self.smallest(1)?)),
                false => Some((NEVER, NO_MOVE)),
            },
            Aim::Always { .. } => match first(all, |n| self.any(n).map(|kept| !kept))? {
                Some(n) => Some((n as u16, NO_MOVE)),
                None => Some((NEVER, self.smallest(positions)?)),
            },
            Aim::Until { .. } => match first(all, |n| self.any(n))? {
                Some(0) => Some((0, 0)),
                Some(n) => Some((n as u16, self.smallest(n)?)),
                None => Some((NEVER, NO_MOVE)),
            },
        }
    }

    /// The smallest move with which a strategy can begin that meets the aim in
    /// n moves.
    fn smallest(&self, n: usize) -> Option<u8> {
        let moves = &self.moves[self.start];
        let choice = first(0..moves.len(), |choice| self.any_starting_with(choice, n))?;
        Some(moves[choice.expect("a strategy was found")].number)
    }
}

impl Trial<'_> {
    /// Each affordable move and the smallest reply that keeps the row false: no
    /// strategy goes on from the outcome to meet until or next; none goes on to
    /// keep always for as long as one could from here.
    fn replies(&self, rank: usize, positions: usize) -> Option<Vec<(u8, u8)>> {
        let mut replies = Vec::new();
        for mv in &self.moves[self.start] {
            if !self.is_within(&[mv.cost]) {
                continue;
            }
            let spoils = |place: usize| self.spoils(mv, &mv.replies[place], rank, positions);
            let reply = match self.decided(&[self.start], positions) {
                Some(false) => 0,
                _ => {
                    let place = first(0..mv.replies.len(), spoils)?;
                    mv.replies[place.expect("a reply to a losing move")].number
                }
            };
            replies.push((mv.number, reply));
        }
        Some(replies)
    }

    fn spoils(&self, mv: &Move, reply: &Reply, rank: usize, positions: usize) -> Option<bool> {
        let mut trial = Trial {
            start: reply.target,
            ..*self
        };
        trial.stock = self.left_over(&[mv.cost]);
        match self.aim {
            Aim::Next { left } => Some(!contains(left, reply.target)),
            Aim::Always { .. } => trial.any(rank - 1).map(|kept| !kept),
            Aim::Until { .. } => trial.any(positions).map(|met| !met),
        }
    }
}

/// The first number for which the trial says yes; none if it cannot say.
fn first(
    mut numbers: std::ops::Range<usize>,
    trial: impl Fn(usize) -> Option<bool>,
) -> Option<Option<usize>> {
    loop {
        match numbers.next() {
            None => return Some(None),
            Some(n) if trial(n)? => return Some(Some(n)),
            Some(_) => {}
        }
    }
}
