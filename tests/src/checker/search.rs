//! Positions, ranks, moves and replies (document 01, "When a row is true"), by
//! layers: from the settled positions outwards, counting for each move the
//! replies, and for each position the moves, that are still open.

use super::structure::*;
use super::{NEVER, NO_MOVE};

/// The table of a strategic row.
pub struct Table {
    pub ranks: Vec<u16>,
    pub moves: Vec<u8>,
    row: Row,
    arena: Arena,
}

/// A strategic row over the sets of its operands.
#[derive(Clone, Copy)]
enum Row {
    Next { left: Set },
    Always { left: Set },
    Until { left: Set, right: Set },
}

/// The positions of a row, and what the coalition can afford in each.
struct Arena {
    /// The moves of each state.
    moves: Vec<Vec<Move>>,
    /// Stock places of each resource, and of all together.
    sizes: Vec<usize>,
    stocks: usize,
    /// The state of each position.
    states: Vec<usize>,
    choices: Vec<Choice>,
    /// The choices of each position, in rising number.
    of: Vec<Vec<usize>>,
    /// The choices that have the position as an outcome, once for each reply.
    into: Vec<Vec<usize>>,
}

/// An affordable move at a position: its place among the state's moves, and the
/// stock place that it leaves.
struct Choice {
    position: usize,
    place: usize,
    left_over: usize,
}

/// The set of each row.
pub fn label(structure: &Structure) -> Vec<Set> {
    let mut sets: Vec<Set> = Vec::new();
    for row in 0..structure.formulas.len() {
        let set = match structure.formulas[row] {
            Formula::Prop(proposition) => structure.holds(proposition),
            Formula::Not(left) => structure.all() & !sets[left],
            Formula::Or(left, right) => sets[left] | sets[right],
            _ => strategic_set(structure, row, &sets),
        };
        sets.push(set);
    }
    sets
}

/// The set of a strategic row over the sets of the lower rows.
pub fn strategic_set(structure: &Structure, row: usize, sets: &[Set]) -> Set {
    let table = table(structure, row, sets).expect("a strategic row");
    structure.set(|state| table.moves[table.full_stock(state)] != NO_MOVE)
}

/// The table of a row over the sets of the lower rows; none if the row is not
/// strategic.
pub fn table(structure: &Structure, row: usize, sets: &[Set]) -> Option<Table> {
    let (ability, row) = match structure.formulas[row] {
        Formula::Next(ability, left) => (ability, Row::Next { left: sets[left] }),
        Formula::Always(ability, left) => (ability, Row::Always { left: sets[left] }),
        Formula::Until(ability, left, right) => {
            let (left, right) = (sets[left], sets[right]);
            (ability, Row::Until { left, right })
        }
        Formula::Prop(_) | Formula::Not(_) | Formula::Or(_, _) => return None,
    };
    let arena = Arena::of(structure, ability);
    let ranks = match row {
        Row::Next { left } => arena.next_ranks(left),
        Row::Always { left } => arena.always_ranks(left),
        Row::Until { left, right } => arena.until_ranks(left, right),
    };
    let moves = Vec::new();
    let mut table = Table {
        ranks,
        moves,
        row,
        arena,
    };
    let positions = 0..table.ranks.len();
    table.moves = positions.map(|position| table.smallest(position)).collect();
    Some(table)
}

impl Table {
    /// The position of a state with its whole bound in stock.
    pub fn full_stock(&self, state: usize) -> usize {
        state * self.arena.stocks + self.arena.stocks - 1
    }

    /// The position of a state and a stock for each resource.
    pub fn position(&self, state: usize, stock: &[usize]) -> usize {
        let pairs = self.arena.sizes.iter().zip(stock);
        pairs.fold(state, |number, (&size, &stock)| number * size + stock)
    }

    pub fn wins(&self, position: usize) -> bool {
        match self.row {
            Row::Always { .. } => self.ranks[position] == NEVER,
            Row::Next { .. } | Row::Until { .. } => self.ranks[position] != NEVER,
        }
    }

    /// The numbers of the affordable moves.
    pub fn affordable(&self, position: usize) -> Vec<u8> {
        let choices = self.arena.of[position].iter();
        choices.map(|&c| self.arena.move_of(c).number).collect()
    }

    fn smallest(&self, position: usize) -> u8 {
        if !self.wins(position) {
            return NO_MOVE;
        }
        let rank = self.ranks[position];
        if matches!(self.row, Row::Until { .. }) && rank == 0 {
            return 0;
        }
        let good = |outcome: usize| match self.row {
            Row::Next { left } => contains(left, self.arena.states[outcome]),
            Row::Always { .. } => self.ranks[outcome] == NEVER,
            Row::Until { .. } => self.ranks[outcome] < rank,
        };
        let mut choices = self.arena.of[position].iter();
        let choice = choices.find(|&&c| self.arena.outcomes(c).all(good));
        self.arena.move_of(*choice.expect("a winning move")).number
    }

    /// The reply to an affordable move where the coalition does not win.
    pub fn reply(&self, position: usize, number: u8) -> u8 {
        assert!(!self.wins(position), "the coalition wins at {position}");
        if self.is_settled(position) {
            return 0;
        }
        let rank = self.ranks[position];
        let good = |outcome: usize| match self.row {
            Row::Next { left } => !contains(left, self.arena.states[outcome]),
            Row::Always { .. } => self.ranks[outcome] < rank,
            Row::Until { .. } => !self.wins(outcome),
        };
        let mut choices = self.arena.of[position].iter();
        let choice = choices.find(|&&c| self.arena.move_of(c).number == number);
        let choice = *choice.expect("an affordable move");
        let place = self.arena.outcomes(choice).position(good);
        let place = place.expect("a reply that spoils the move");
        self.arena.move_of(choice).replies[place].number
    }

    /// Whether the state alone makes the row false.
    fn is_settled(&self, position: usize) -> bool {
        let state = self.arena.states[position];
        match self.row {
            Row::Next { .. } => false,
            Row::Always { left } => !contains(left, state),
            Row::Until { left, right } => !contains(left | right, state),
        }
    }
}

impl Arena {
    fn of(structure: &Structure, ability: Ability) -> Arena {
        let limits = ability.bound.iter();
        let sizes = limits.map(|&b| if b == INFINITE { 1 } else { b as usize + 1 });
        let sizes: Vec<usize> = sizes.collect();
        let stocks: usize = sizes.iter().product();
        let positions = structure.states * stocks;
        let mut arena = Arena {
            moves: structure.moves(ability.coalition),
            sizes,
            stocks,
            states: (0..positions).map(|position| position / stocks).collect(),
            choices: Vec::new(),
            of: vec![Vec::new(); positions],
            into: vec![Vec::new(); positions],
        };
        for position in 0..positions {
            arena.add_choices(ability.bound, position);
        }
        arena
    }

    /// Adds the moves at the position that the stock can pay.
    fn add_choices(&mut self, bound: Amounts, position: usize) {
        for place in 0..self.moves[self.states[position]].len() {
            let cost = self.moves[self.states[position]][place].cost;
            let Some(left_over) = self.left_over(bound, position, cost) else {
                continue;
            };
            let choice = self.choices.len();
            self.choices.push(Choice {
                position,
                place,
                left_over,
            });
            self.of[position].push(choice);
            for reply in &self.moves[self.states[position]][place].replies {
                self.into[reply.target * self.stocks + left_over].push(choice);
            }
        }
    }

    fn move_of(&self, choice: usize) -> &Move {
        let choice = &self.choices[choice];
        &self.moves[self.states[choice.position]][choice.place]
    }

    /// The outcome of each reply.
    fn outcomes(&self, choice: usize) -> impl Iterator<Item = usize> + '_ {
        let left_over = self.choices[choice].left_over;
        let replies = self.move_of(choice).replies.iter();
        replies.map(move |reply| reply.target * self.stocks + left_over)
    }

    /// The stock place after a cost; a full stock takes no more, and an unlimited
    /// resource pays anything.
    fn left_over(&self, bound: Amounts, position: usize, cost: Cost) -> Option<usize> {
        let (mut place, mut rest, mut scale) = (0, position, 1);
        for (resource, &size) in self.sizes.iter().enumerate().rev() {
            let stock = rest % size;
            rest /= size;
            if bound[resource] != INFINITE {
                let left = usize::try_from(stock as i32 - cost[resource]).ok()?;
                place += scale * left.min(size - 1);
            }
            scale *= size;
        }
        Some(place)
    }

    fn next_ranks(&self, left: Set) -> Vec<u16> {
        let good = |outcome: usize| contains(left, self.states[outcome]);
        let able = |&choice: &usize| self.outcomes(choice).all(good);
        let positions = self.of.iter();
        let ranks = positions.map(|choices| if choices.iter().any(able) { 1 } else { NEVER });
        ranks.collect()
    }

    /// A move is done when its last reply is; the first move that is done
    /// gives its position the next layer, if left holds there.
    fn until_ranks(&self, left: Set, right: Set) -> Vec<u16> {
        let choices = 0..self.choices.len();
        let mut open: Vec<usize> = choices.map(|c| self.move_of(c).replies.len()).collect();
        self.layers(right, |choice| {
            open[choice] -= 1;
            let state = self.states[self.choices[choice].position];
            open[choice] == 0 && contains(left, state)
        })
    }

    /// A move is spoiled by its first outcome; the last move that is spoiled
    /// gives its position the next layer.
    fn always_ranks(&self, left: Set) -> Vec<u16> {
        let mut open: Vec<usize> = self.of.iter().map(|choices| choices.len()).collect();
        let mut spoiled = vec![false; self.choices.len()];
        self.layers(!left, |choice| {
            let position = self.choices[choice].position;
            if !spoiled[choice] {
                spoiled[choice] = true;
                open[position] -= 1;
            }
            open[position] == 0
        })
    }

    /// The number of each position's layer. Layer 0 is the positions of the
    /// settled states. `joins` is told of each move into a layer and says
    /// whether its position is in the next one, unless it is in an earlier one.
    fn layers(&self, settled: Set, mut joins: impl FnMut(usize) -> bool) -> Vec<u16> {
        let mut ranks = vec![NEVER; self.states.len()];
        let positions = 0..self.states.len();
        let mut layer: Vec<usize> = positions
            .filter(|&p| contains(settled, self.states[p]))
            .collect();
        let mut number = 0;
        while !layer.is_empty() {
            layer.iter().for_each(|&position| ranks[position] = number);
            number += 1;
            let into = layer.iter().flat_map(|&position| &self.into[position]);
            let joining = into.filter(|&&choice| joins(choice));
            let positions = joining.map(|&choice| self.choices[choice].position);
            let mut following: Vec<usize> = positions.filter(|&p| ranks[p] == NEVER).collect();
            following.sort();
            following.dedup();
            layer = following;
        }
        ranks
    }
}
