//! Stock places where a move charges: none is settled for good before all are, so that
//! each is settled again when one has changed that a move leads to from there.

use super::moves::Move;
use super::Sweeper;
use std::ops::Range;

impl Sweeper {
    /// Rounds over the places, the least stock first, until one finds none pending.
    pub(super) fn settle_pending(&self, ranks: &mut [u16]) {
        let mut pending = vec![true; self.stocks];
        let mut found = true;
        while found {
            found = false;
            for place in 0..self.stocks {
                if std::mem::replace(&mut pending[place], false) {
                    found = true;
                    if self.settle::<true>(place, ranks) {
                        self.mark_origins(place, &mut pending);
                    }
                }
            }
        }
    }

    /// The other places from which some move of some state leads to this one.
    fn mark_origins(&self, place: usize, pending: &mut [bool]) {
        let stocks = self.stocks_of(place);
        for mv in self.moves.iter().flatten() {
            for first in self.origins(mv, 0, stocks[0]) {
                for second in self.origins(mv, 1, stocks[1]) {
                    let origin = first * self.sizes[1] + second;
                    pending[origin] |= origin != place;
                }
            }
        }
    }

    /// The stocks of which the move leaves this one.
    fn origins(&self, mv: &Move, resource: usize, left: usize) -> Range<usize> {
        let [taken, given] = [mv.taken, mv.given].map(|amounts| usize::from(amounts[resource]));
        let size = self.sizes[resource];
        match (left + taken).checked_sub(given) {
            Some(least) if left + 1 == size => least.min(size)..size,
            Some(only) if only < size => only..only + 1,
            _ => 0..0,
        }
    }
}
