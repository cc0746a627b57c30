//! The method before stages in plain Rust: one stock place after another, the
//! least stock first, each by sweeps over the states to and fro until nothing
//! changes; a position by the coalition's moves, as far as they matter to its
//! rank. Where a move charges, places are settled again for as long as one is pending.
//! Then one pass for the moves, which leaves a state where every position has its own.
//! The moves of each state and their replies are worked out first, those left out that
//! a full stock does not pay. Beside them plain sweeps, which go over all positions in
//! one order until nothing changes.

mod moves;
mod pending;

use moves::{moves, Move};
use rbatl_tests::layout::*;

const NEVER: u16 = u16::MAX;
const NO_MOVE: u8 = u8::MAX;

/// In which order positions are settled.
#[derive(Clone, Copy)]
pub enum Order {
    /// As the library does.
    Places,
    Plain,
}

/// The strategic row of a job of full size, over two rows of propositions.
pub struct Sweeper {
    kind: u8,
    left: Vec<bool>,
    right: Vec<bool>,
    /// Stock places of each resource, and of both.
    sizes: [usize; 2],
    stocks: usize,
    moves: Vec<Vec<Move>>,
    /// Whether a move charges.
    gives: bool,
}

impl Sweeper {
    pub fn of(block: &[u8]) -> Sweeper {
        let field = |field| block[row(crate::cases::ROW, field)];
        let holds = |operand: u8| {
            let proposition = block[row(operand.into(), LEFT)];
            let states = 0..MAX_STATES;
            states
                .map(|s| block[mask(s)] >> proposition & 1 == 1)
                .collect()
        };
        let sizes = [0, 1].map(|resource| usize::from(field(BOUND + resource)) + 1);
        let states = 0..MAX_STATES;
        let moves = states.map(|s| moves(block, s, field(COALITION), sizes));
        let moves: Vec<Vec<Move>> = moves.collect();
        Sweeper {
            kind: field(KIND),
            left: holds(field(LEFT)),
            right: holds(field(RIGHT)),
            sizes,
            stocks: sizes[0] * sizes[1],
            gives: moves.iter().flatten().any(|mv| mv.given != [0, 0]),
            moves,
        }
    }

    /// The set of states that win at full stock.
    pub fn set(&self, order: Order) -> u32 {
        let ranks = self.ranks(order);
        let wins = |state| self.wins(ranks[state * self.stocks + self.stocks - 1]);
        (0..MAX_STATES)
            .map(|state| u32::from(wins(state)) << state)
            .sum()
    }

    pub fn table(&self, order: Order) -> (Vec<u16>, Vec<u8>) {
        let ranks = self.ranks(order);
        let mut moves = vec![NO_MOVE; ranks.len()];
        for state in 0..MAX_STATES {
            self.fill_moves(state, &ranks, &mut moves);
        }
        (ranks, moves)
    }

    fn wins(&self, rank: u16) -> bool {
        (rank == NEVER) == (self.kind == ALWAYS)
    }

    fn ranks(&self, order: Order) -> Vec<u16> {
        let mut ranks = vec![NEVER; MAX_STATES * self.stocks];
        for state in 0..MAX_STATES {
            let settled = match self.kind {
                UNTIL => self.right[state],
                ALWAYS => !self.left[state],
                _ => false,
            };
            if settled {
                ranks[state * self.stocks..][..self.stocks].fill(0);
            }
        }
        match (self.kind, order) {
            (NEXT, _) => (0..MAX_STATES).for_each(|state| self.mark(state, &mut ranks)),
            (_, Order::Places) if self.gives => self.settle_pending(&mut ranks),
            (_, Order::Places) => self.settle_places(&mut ranks),
            (_, Order::Plain) => self.settle_plainly(&mut ranks),
        }
        ranks
    }

    fn settle_places(&self, ranks: &mut [u16]) {
        for place in 0..self.stocks {
            self.settle::<false>(place, ranks);
        }
    }

    fn stocks_of(&self, place: usize) -> [usize; 2] {
        [place / self.sizes[1], place % self.sizes[1]]
    }

    /// Whether a rank fell at the stock place. `GIVES` says whether a move charges.
    fn settle<const GIVES: bool>(&self, place: usize, ranks: &mut [u16]) -> bool {
        let stocks = self.stocks_of(place);
        let (mut back, mut changed, mut fell) = (false, true, false);
        while changed {
            changed = false;
            for k in 0..MAX_STATES {
                let state = if back { MAX_STATES - 1 - k } else { k };
                changed |= self.settle_at::<GIVES>(state, place, stocks, ranks);
            }
            fell |= changed;
            back = !back;
        }
        fell
    }

    fn settle_at<const GIVES: bool>(
        &self,
        state: usize,
        place: usize,
        stocks: [usize; 2],
        ranks: &mut [u16],
    ) -> bool {
        let rank = ranks[state * self.stocks + place];
        let safe = self.kind == ALWAYS || self.left[state];
        if !safe || rank <= 1 {
            return false;
        }
        let value = match self.kind {
            ALWAYS => self.always_value::<GIVES>(state, place, stocks, ranks, rank),
            _ => self.until_value::<GIVES>(state, place, stocks, ranks, rank),
        };
        let falls = value < rank - 1;
        if falls {
            ranks[state * self.stocks + place] = value + 1;
        }
        falls
    }

    /// The moves that the stocks can pay, each with the place left.
    fn affordable<const GIVES: bool>(
        &self,
        state: usize,
        place: usize,
        stocks: [usize; 2],
    ) -> impl Iterator<Item = (&Move, usize)> {
        let moves = self.moves[state].iter();
        let paid = moves.filter(move |mv| mv.is_paid(stocks));
        paid.map(move |mv| match GIVES {
            true => (mv, mv.landing(self.sizes, stocks)),
            false => (mv, place - usize::from(mv.spent)),
        })
    }

    /// The smallest over the moves of the largest rank over the replies, or one
    /// less than the rank that stands.
    fn until_value<const GIVES: bool>(
        &self,
        state: usize,
        place: usize,
        stocks: [usize; 2],
        ranks: &[u16],
        rank: u16,
    ) -> u16 {
        let mut value = rank - 1;
        for (mv, rest) in self.affordable::<GIVES>(state, place, stocks) {
            let mut worst = 0;
            for &target in &mv.targets {
                worst = worst.max(ranks[target * self.stocks + rest]);
                if worst >= value {
                    break;
                }
            }
            value = value.min(worst);
            if value == 0 {
                break;
            }
        }
        value
    }

    /// The largest over the moves of the smallest rank over the replies, as soon
    /// as the rank that stands cannot fall.
    fn always_value<const GIVES: bool>(
        &self,
        state: usize,
        place: usize,
        stocks: [usize; 2],
        ranks: &[u16],
        rank: u16,
    ) -> u16 {
        let mut value = 0;
        for (mv, rest) in self.affordable::<GIVES>(state, place, stocks) {
            let mut worst = NEVER;
            for &target in &mv.targets {
                worst = worst.min(ranks[target * self.stocks + rest]);
                if worst <= value {
                    break;
                }
            }
            value = value.max(worst);
            if value >= rank - 1 {
                break;
            }
        }
        value
    }

    fn settle_plainly(&self, ranks: &mut [u16]) {
        let step = match self.kind {
            ALWAYS => Sweeper::always_step,
            _ => Sweeper::until_step,
        };
        let mut changed = true;
        while changed {
            changed = false;
            for state in 0..MAX_STATES {
                changed |= step(self, state, ranks);
            }
        }
    }

    /// The stock places that can pay the move, each with the place left.
    fn payable<'a>(&'a self, mv: &'a Move) -> impl Iterator<Item = (usize, usize)> + 'a {
        let (sizes, taken) = (self.sizes, mv.taken.map(usize::from));
        (taken[0]..sizes[0]).flat_map(move |stock| {
            let places = stock * sizes[1] + taken[1]..(stock + 1) * sizes[1];
            places.map(move |place| match self.gives {
                true => (place, mv.landing(sizes, self.stocks_of(place))),
                false => (place, place - usize::from(mv.spent)),
            })
        })
    }

    fn until_step(&self, state: usize, ranks: &mut [u16]) -> bool {
        let mut changed = false;
        if !self.left[state] || self.right[state] {
            return false;
        }
        for mv in &self.moves[state] {
            for (place, rest) in self.payable(mv) {
                let outcomes = mv.targets.iter().map(|&t| ranks[t * self.stocks + rest]);
                let worst = outcomes.max().unwrap_or(NEVER);
                let rank = &mut ranks[state * self.stocks + place];
                if worst < NEVER && worst + 1 < *rank {
                    *rank = worst + 1;
                    changed = true;
                }
            }
        }
        changed
    }

    fn always_step(&self, state: usize, ranks: &mut [u16]) -> bool {
        if !self.left[state] {
            return false;
        }
        let mut best = vec![0; self.stocks];
        for mv in &self.moves[state] {
            for (place, rest) in self.payable(mv) {
                let outcomes = mv.targets.iter().map(|&t| ranks[t * self.stocks + rest]);
                best[place] = outcomes.min().unwrap_or(0).max(best[place]);
            }
        }
        let mut changed = false;
        for (place, best) in best.into_iter().enumerate() {
            let rank = &mut ranks[state * self.stocks + place];
            if best < NEVER && best + 1 < *rank {
                *rank = best + 1;
                changed = true;
            }
        }
        changed
    }

    fn mark(&self, state: usize, ranks: &mut [u16]) {
        for mv in &self.moves[state] {
            if !mv.targets.iter().all(|&target| self.left[target]) {
                continue;
            }
            for (place, _) in self.payable(mv) {
                ranks[state * self.stocks + place] = 1;
            }
            if mv.taken == [0, 0] {
                return;
            }
        }
    }

    fn fill_moves(&self, state: usize, ranks: &[u16], moves: &mut [u8]) {
        let first = state * self.stocks;
        for mv in &self.moves[state] {
            for (place, rest) in self.payable(mv) {
                let rank = ranks[first + place];
                let good = |&target: &usize| match self.kind {
                    UNTIL => ranks[target * self.stocks + rest] < rank,
                    ALWAYS => ranks[target * self.stocks + rest] == NEVER,
                    _ => self.left[target],
                };
                let open = self.is_open(first + place, ranks, moves);
                let settled = self.kind == UNTIL && rank == 0;
                if open && (settled || mv.targets.iter().all(good)) {
                    moves[first + place] = mv.number;
                }
            }
            let mut places = first..first + self.stocks;
            if mv.taken == [0, 0] && !places.any(|place| self.is_open(place, ranks, moves)) {
                return;
            }
        }
    }

    /// The coalition wins there and has no move yet.
    fn is_open(&self, position: usize, ranks: &[u16], moves: &[u8]) -> bool {
        moves[position] == NO_MOVE && self.wins(ranks[position])
    }
}
