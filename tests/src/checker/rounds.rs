//! Ranks round by round, from their definition alone: after n rounds stand the
//! positions from which the coalition can make until true within n moves, or those
//! from which it cannot keep left true for n. A round looks at every position, and no
//! order of the stocks is used.

use super::aim::{aim, Aim};
use super::structure::*;
use super::NEVER;
use crate::layout::MAX_RESOURCES;

/// A stock of each resource, 0 of an unlimited one.
type Stock = [u32; MAX_RESOURCES];

/// The positions of a row.
struct Ground {
    moves: Vec<Vec<Move>>,
    bound: Amounts,
    positions: Vec<(usize, Stock)>,
}

/// The set of each row.
pub fn label(structure: &Structure) -> Vec<Set> {
    let mut sets: Vec<Set> = Vec::new();
    for row in 0..structure.formulas.len() {
        let set = match structure.formulas[row] {
            Formula::Prop(proposition) => structure.holds(proposition),
            Formula::Not(left) => structure.all() & !sets[left],
            Formula::Or(left, right) => sets[left] | sets[right],
            Formula::Always(..) => at_full_stock(structure, row, &sets, |rank| rank == NEVER),
            Formula::Next(..) | Formula::Until(..) => {
                at_full_stock(structure, row, &sets, |rank| rank != NEVER)
            }
        };
        sets.push(set);
    }
    sets
}

fn at_full_stock(
    structure: &Structure,
    row: usize,
    sets: &[Set],
    won: impl Fn(u16) -> bool,
) -> Set {
    let ranks = ranks(structure, row, sets);
    let stocks = ranks.len() / structure.states;
    structure.set(|state| won(ranks[(state + 1) * stocks - 1]))
}

/// The rank of each position of a strategic row, over the sets of the lower rows.
pub fn ranks(structure: &Structure, row: usize, sets: &[Set]) -> Vec<u16> {
    let (ability, aim) = aim(structure.formulas[row], sets);
    let ground = Ground::of(structure, ability);
    let all = |test: &dyn Fn(usize) -> bool| -> Vec<bool> {
        let states = ground.positions.iter().map(|&(state, _)| state);
        states.map(test).collect()
    };
    match aim {
        Aim::Next { left } => {
            let left = all(&|state| contains(left, state));
            first_rounds(vec![false; left.len()], |_| ground.able(&left))
        }
        Aim::Until { left, right } => {
            let [left, right] = [left, right].map(|set| all(&|state| contains(set, state)));
            first_rounds(right.clone(), |met| {
                let able = ground.able(met);
                let meets = |place: usize| right[place] || left[place] && able[place];
                (0..able.len()).map(meets).collect()
            })
        }
        Aim::Always { left } => {
            let fails = all(&|state| !contains(left, state));
            first_rounds(fails.clone(), |lost| {
                let able = ground.able(&lost.iter().map(|lost| !lost).collect::<Vec<bool>>());
                (0..able.len()).map(|p| fails[p] || !able[p]).collect()
            })
        }
    }
}

/// The first round in which each position stands, round 0 being the first of all.
fn first_rounds(mut stand: Vec<bool>, round: impl Fn(&[bool]) -> Vec<bool>) -> Vec<u16> {
    let mut ranks = vec![NEVER; stand.len()];
    for number in 0.. {
        let new = ranks.iter_mut().zip(&stand);
        let new = new.filter(|(rank, &stands)| stands && **rank == NEVER);
        if new.map(|(rank, _)| *rank = number).count() == 0 && number > 0 {
            break;
        }
        stand = round(&stand);
    }
    ranks
}

impl Ground {
    fn of(structure: &Structure, ability: Ability) -> Ground {
        let stocks = stocks(ability.bound);
        let of = |state| stocks.iter().map(move |&stock| (state, stock));
        Ground {
            moves: structure.moves(ability.coalition),
            bound: ability.bound,
            positions: (0..structure.states).flat_map(of).collect(),
        }
    }

    /// From which positions an affordable move has every outcome among these.
    fn able(&self, among: &[bool]) -> Vec<bool> {
        let able = |&(state, stock): &(usize, Stock)| {
            self.moves[state].iter().any(|mv| {
                let left = self.left_over(stock, mv.cost);
                left.is_some_and(|stock| {
                    let mut replies = mv.replies.iter();
                    replies.all(|reply| among[self.number(reply.target, stock)])
                })
            })
        };
        self.positions.iter().map(able).collect()
    }

    fn number(&self, state: usize, stock: Stock) -> usize {
        let pairs = stock.into_iter().zip(self.bound);
        pairs.fold(state, |number, (stock, bound)| {
            number * places(bound) as usize + stock as usize
        })
    }

    fn left_over(&self, stock: Stock, cost: Cost) -> Option<Stock> {
        let mut left = stock;
        for (resource, left) in left.iter_mut().enumerate() {
            if self.bound[resource] != INFINITE {
                let rest = left.checked_add_signed(-cost[resource])?;
                *left = rest.min(self.bound[resource]);
            }
        }
        Some(left)
    }
}

fn places(bound: u32) -> u32 {
    match bound {
        INFINITE => 1,
        _ => bound + 1,
    }
}

fn stocks(bound: Amounts) -> Vec<Stock> {
    let [first, second] = bound.map(places);
    let with = |x| (0..second).map(move |y| [x, y]);
    (0..first).flat_map(with).collect()
}
