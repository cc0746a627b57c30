//! The smallest allowances of a row (document 02, R-4), by their definition: each
//! pair of bounds is tried in the place of the row's own, and none of those that are
//! enough is left out but for another that is nowhere larger.

use super::search;
use super::structure::*;
use crate::layout::{self, Sizes, MAX_BOUND, MAX_RESOURCES, UNLIMITED};

/// A bound for each resource, as a row of the block has them.
pub type Pair = [u8; MAX_RESOURCES];

/// Each pair that is tried, and the states that satisfy the row with it.
pub struct Trials(pub Vec<(Pair, Set)>);

impl Trials {
    /// Of a strategic row of a block that the check lets pass, over the sets of the
    /// lower rows.
    pub fn of(block: &[u8], row: usize, sets: &[Set]) -> Trials {
        let try_pair = |pair: Pair| {
            let mut block = block.to_vec();
            let bounds = layout::row(row, layout::BOUND)..layout::row(row, layout::PADDING);
            block[bounds].copy_from_slice(&pair);
            let set = search::strategic_set(&Structure::of(&block), row, sets);
            (pair, set)
        };
        let seconds = bounds(block, row, 1);
        let with = |first: u8| seconds.iter().map(move |&second| [first, second]);
        let pairs = bounds(block, row, 0).into_iter().flat_map(with);
        Trials(pairs.map(try_pair).collect())
    }

    /// The smallest that are enough in the state, in rising first number.
    pub fn smallest(&self, state: usize) -> Vec<Pair> {
        let enough = self.0.iter().filter(|(_, set)| contains(*set, state));
        let enough: Vec<Pair> = enough.map(|&(pair, _)| pair).collect();
        let needless = |pair: &Pair| {
            let mut others = enough.iter().filter(|&other| other != pair);
            others.any(|other| other.iter().zip(pair).all(|(a, b)| a <= b))
        };
        let smallest = enough.iter().filter(|pair| !needless(pair));
        smallest.copied().collect()
    }
}

/// The bounds of a resource that are tried: those in range, or the one that an
/// unlimited or absent resource has.
fn bounds(block: &[u8], row: usize, resource: usize) -> Vec<u8> {
    match block[layout::row(row, layout::BOUND + resource)] {
        _ if resource >= Sizes::of(block).resources => vec![0],
        UNLIMITED => vec![UNLIMITED],
        _ => (0..=MAX_BOUND).collect(),
    }
}
