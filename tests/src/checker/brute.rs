//! Document 003, sections 2.2 and 2.3, taken at their word on tiny jobs: all
//! strategies over histories, all computations of each, costs summed along the
//! computation. Only strategies up to a number of moves are tried, after which
//! they idle and spend nothing. With charges (document 02, R-7) no stock is followed
//! either: that each move is affordable from the stock then left, which is never above
//! the row's bound, means that a beginning costs at most the first stock, and every
//! stretch at most the bound.

use super::aim::Aim;
use super::structure::*;
use std::collections::HashMap;

/// A finite computation from a state.
type History = Vec<usize>;

/// Moves, as places in the list of the last state's moves, by history. Those
/// not asked for yet are the first.
#[derive(Default)]
struct Strategy {
    moves: HashMap<History, usize>,
    /// The histories in the order in which they were first asked for.
    asked: Vec<(History, usize)>,
    /// How many of them may not change.
    fixed: usize,
}

impl Strategy {
    fn starting_with(history: &[usize], choice: usize) -> Strategy {
        Strategy {
            moves: HashMap::from([(history.to_vec(), choice)]),
            asked: vec![(history.to_vec(), 1)],
            fixed: 1,
        }
    }

    /// The choice out of so many for a history.
    fn choice(&mut self, history: &[usize], choices: usize) -> usize {
        if let Some(&choice) = self.moves.get(history) {
            return choice;
        }
        self.moves.insert(history.to_vec(), 0);
        self.asked.push((history.to_vec(), choices));
        0
    }

    /// The next strategy that does otherwise along the computation that failed,
    /// since all that do the same there fail too; none after the last.
    fn advance(&mut self, failed: &[usize]) -> bool {
        while self.asked.len() > self.fixed {
            let (history, choices) = self.asked.last().expect("a history");
            let choice = self.moves.get_mut(history).expect("its choice");
            if failed.starts_with(history) && *choice + 1 < *choices {
                *choice += 1;
                return true;
            }
            self.moves.remove(history);
            self.asked.pop();
        }
        false
    }
}

/// The strategies of a coalition from a state within a stock.
pub struct Trial<'a> {
    pub moves: &'a [Vec<Move>],
    pub aim: Aim,
    pub start: usize,
    pub stock: Amounts,
    /// The row's bound.
    pub bound: Amounts,
    /// No more strategies than these are tried.
    pub limit: usize,
    /// The opponents' rule, if they keep to one.
    pub rule: Option<Rule<'a>>,
}

/// Picks the reply from the state, the stock and the coalition's present move.
pub type Rule<'a> = &'a dyn Fn(usize, Amounts, u8) -> u8;

impl Trial<'_> {
    /// Whether some strategy within the stock meets the aim in n moves on every
    /// computation; none if there are too many to try.
    pub fn any(&self, n: usize) -> Option<bool> {
        self.search(Strategy::default(), n)
    }

    /// The same for strategies that begin with the choice.
    pub fn any_starting_with(&self, choice: usize, n: usize) -> Option<bool> {
        self.search(Strategy::starting_with(&[self.start], choice), n)
    }

    fn search(&self, mut strategy: Strategy, n: usize) -> Option<bool> {
        for _ in 0..self.limit {
            let mut history = vec![self.start];
            if self.every_computation(&mut strategy, &mut history, &mut Vec::new(), n) {
                return Some(true);
            }
            if !strategy.advance(&history) {
                return Some(false);
            }
        }
        None
    }

    /// Whether all computations that go on from the history, whose moves had these
    /// costs, are within the stock and meet the aim. If not, the history is left at the
    /// one that fails.
    fn every_computation(
        &self,
        strategy: &mut Strategy,
        history: &mut History,
        costs: &mut Vec<Cost>,
        n: usize,
    ) -> bool {
        if let Some(met) = self.decided(history, n) {
            return met;
        }
        let state = history[history.len() - 1];
        let moves = &self.moves[state];
        let mv = &moves[strategy.choice(history, moves.len())];
        let stock = self.left_over(costs);
        costs.push(mv.cost);
        if !self.is_within(costs) {
            return false;
        }
        let ruled = self.rule.map(|rule| rule(state, stock, mv.number));
        let possible = |reply: &&Reply| ruled.is_none_or(|number| reply.number == number);
        let met = mv.replies.iter().filter(possible).all(|reply| {
            history.push(reply.target);
            let met = self.every_computation(strategy, history, costs, n);
            if met {
                history.pop();
            }
            met
        });
        costs.pop();
        met
    }

    /// Whether the last of these costs is within the stock, if the others are.
    pub(super) fn is_within(&self, costs: &[Cost]) -> bool {
        let mut later = 1..costs.len();
        at_most(sum(costs), self.stock)
            && later.all(|first| at_most(sum(&costs[first..]), self.bound))
    }

    /// What costs that are within the stock leave: the least that is left of the first
    /// stock, or would be of a full one at some later moment.
    pub(super) fn left_over(&self, costs: &[Cost]) -> Amounts {
        let later = (1..=costs.len()).map(|first| less(self.bound, sum(&costs[first..])));
        later.fold(less(self.stock, sum(costs)), least)
    }

    /// Whether the aim is met, as soon as the states so far decide it; of always
    /// and until, in the first n + 1 states.
    pub(super) fn decided(&self, history: &[usize], n: usize) -> Option<bool> {
        let state = history[history.len() - 1];
        let made = history.len() - 1;
        match self.aim {
            Aim::Next { left } => (made == 1).then_some(contains(left, state)),
            Aim::Always { left } if !contains(left, state) => Some(false),
            Aim::Always { .. } => (made == n).then_some(true),
            Aim::Until { right, .. } if contains(right, state) => Some(true),
            Aim::Until { left, .. } if !contains(left, state) => Some(false),
            Aim::Until { .. } => (made == n).then_some(false),
        }
    }
}

/// What successive moves cost.
fn sum(costs: &[Cost]) -> Cost {
    std::array::from_fn(|resource| costs.iter().map(|cost| cost[resource]).sum())
}

/// Whether no resource costs more than its limit; an unlimited one may cost anything.
fn at_most(cost: Cost, limits: Amounts) -> bool {
    let mut pairs = cost.into_iter().zip(limits);
    pairs.all(|(cost, limit)| limit == INFINITE || i64::from(cost) <= i64::from(limit))
}

/// What a cost leaves of an amount, without a ceiling.
fn less(amounts: Amounts, cost: Cost) -> Amounts {
    std::array::from_fn(|resource| match amounts[resource] {
        INFINITE => INFINITE,
        amount => amount.checked_add_signed(-cost[resource]).expect("enough"),
    })
}

fn least(a: Amounts, b: Amounts) -> Amounts {
    std::array::from_fn(|resource| a[resource].min(b[resource]))
}
