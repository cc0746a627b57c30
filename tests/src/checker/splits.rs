//! Document 003, section 4: labelling over splits of the bound, smaller bounds
//! first, of jobs in which nothing is charged. The two fixed points are those of its
//! lemma 1 (section 3.1), since section 4's own loops fall short of the truth
//! definition for a bound that is not of 0 and ∞ alone: always, taken there as the
//! least fixed point, misses states whose opponents can put off for ever what must be
//! paid, and until misses those where right holds and left does not.

use super::structure::*;
use crate::layout::MAX_RESOURCES;

/// [φ] for each row.
pub fn label(structure: &Structure) -> Vec<Set> {
    assert!(!structure.charges, "a split takes from a bound alone");
    let mut sets: Vec<Set> = Vec::new();
    for &formula in &structure.formulas {
        let set = match formula {
            Formula::Prop(proposition) => structure.holds(proposition),
            Formula::Not(left) => structure.all() & !sets[left],
            Formula::Or(left, right) => sets[left] | sets[right],
            Formula::Next(ability, left) => {
                Game::of(structure, ability.coalition).pre(sets[left], ability.bound)
            }
            Formula::Always(ability, left) => {
                let game = Game::of(structure, ability.coalition);
                game.by_splits(ability.bound, |paid, zero| {
                    game.largest(sets[left], paid, zero)
                })
            }
            Formula::Until(ability, left, right) => {
                let game = Game::of(structure, ability.coalition);
                game.by_splits(ability.bound, |paid, zero| {
                    game.smallest(sets[left], sets[right], paid, zero)
                })
            }
        };
        sets.push(set);
    }
    sets
}

/// [⟪A^d⟫ ○ φ] of a next row for each bound d that is nowhere above its own.
pub fn next_by_bounds(structure: &Structure, row: usize) -> Vec<Set> {
    let Formula::Next(ability, left) = structure.formulas[row] else {
        panic!("row {row} is no next row");
    };
    let set = label(structure)[left];
    let game = Game::of(structure, ability.coalition);
    let grid = Grid { top: ability.bound };
    let bounds = (0..grid.places()).map(|place| grid.bound(place));
    bounds.map(|bound| game.pre(set, bound)).collect()
}

/// The moves of a coalition in each state: cost(q, σ) and out(q, σ).
struct Game {
    moves: Vec<Vec<(Amounts, Set)>>,
}

impl Game {
    fn of(structure: &Structure, coalition: u8) -> Game {
        let outcomes = |mv: &Move| mv.replies.iter().fold(0, |set, r| set | 1 << r.target);
        let cost = |mv: &Move| mv.cost.map(|cost| u32::try_from(cost).expect("no charge"));
        let state = |moves: &Vec<Move>| moves.iter().map(|mv| (cost(mv), outcomes(mv))).collect();
        let moves = structure.moves(coalition);
        Game {
            moves: moves.iter().map(state).collect(),
        }
    }

    /// Pre(A, ρ, b).
    fn pre(&self, set: Set, bound: Amounts) -> Set {
        let able = |moves: &[(Amounts, Set)]| {
            let mut moves = moves.iter();
            moves.any(|&(cost, outcomes)| outcomes & !set == 0 && at_most(cost, bound))
        };
        let states = self.moves.iter().enumerate();
        states.fold(0, |found, (q, moves)| found | Set::from(able(moves)) << q)
    }

    /// νX. [φ] ∩ (paid ∪ Pre(A, X, 0)).
    fn largest(&self, left: Set, paid: Set, zero: Amounts) -> Set {
        let (mut rho, mut tau) = (Set::MAX, left);
        while rho & !tau != 0 {
            rho = tau;
            tau = (paid | self.pre(rho, zero)) & left;
        }
        rho
    }

    /// μX. [ψ] ∪ ([φ] ∩ (paid ∪ Pre(A, X, 0))).
    fn smallest(&self, left: Set, right: Set, paid: Set, zero: Amounts) -> Set {
        let (mut rho, mut tau) = (0, right | paid & left);
        while tau & !rho != 0 {
            rho |= tau;
            tau = self.pre(rho, zero) & left;
        }
        rho
    }

    /// [⟪A^b⟫ ..], after those of all smaller bounds. `fixed_point` takes the
    /// states where a split (d, d') of the bound pays a move at cost d into
    /// [⟪A^d'⟫ ..], and the bound that is 0 wherever b is limited.
    fn by_splits(&self, bound: Amounts, fixed_point: impl Fn(Set, Amounts) -> Set) -> Set {
        let grid = Grid { top: bound };
        let mut sets: Vec<Set> = Vec::new();
        for place in 0..grid.places() {
            let splits = (0..place).filter_map(|smaller| {
                let spent = difference(grid.bound(place), grid.bound(smaller))?;
                Some(self.pre(sets[smaller], spent))
            });
            let paid = splits.fold(0, |paid, set| paid | set);
            sets.push(fixed_point(paid, grid.bound(0)));
        }
        sets[grid.places() - 1]
    }
}

/// The bounds that are nowhere above `top`, ∞ exactly where it is, in an order
/// in which a bound comes after all that are nowhere above it.
struct Grid {
    top: Amounts,
}

impl Grid {
    fn size(limit: u32) -> usize {
        if limit == INFINITE {
            1
        } else {
            limit as usize + 1
        }
    }

    fn places(&self) -> usize {
        self.top.iter().map(|&limit| Grid::size(limit)).product()
    }

    fn bound(&self, mut place: usize) -> Amounts {
        let mut bound = [INFINITE; MAX_RESOURCES];
        for (&limit, amount) in self.top.iter().zip(&mut bound).rev() {
            if limit != INFINITE {
                *amount = (place % Grid::size(limit)) as u32;
            }
            place /= Grid::size(limit);
        }
        bound
    }
}

/// The d with d + d' = b, ∞ where b is; none if d' is somewhere above b.
fn difference(b: Amounts, smaller: Amounts) -> Option<Amounts> {
    let part = |resource: usize| match b[resource] {
        INFINITE => INFINITE,
        limit => limit - smaller[resource],
    };
    at_most(smaller, b).then(|| std::array::from_fn(part))
}

fn at_most(amounts: Amounts, bound: Amounts) -> bool {
    let mut pairs = amounts.iter().zip(bound);
    pairs.all(|(&amount, limit)| amount <= limit)
}
