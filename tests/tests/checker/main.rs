//! The checker's ways to judge a row agree among themselves, and with what document
//! 01 says of Catch.

mod catch;
mod listing;
mod outright;
mod random;

use rbatl_tests::checker::search::{self, Table};
use rbatl_tests::checker::structure::{Set, Structure};

/// A job decoded, its sets by the search on positions.
struct Solved {
    structure: Structure,
    sets: Vec<Set>,
}

impl Solved {
    fn of(block: &[u8]) -> Solved {
        let structure = Structure::of(block);
        let sets = search::label(&structure);
        Solved { structure, sets }
    }

    /// The table of a row; none if the row is not strategic.
    fn table(&self, row: usize) -> Option<Table> {
        search::table(&self.structure, row, &self.sets)
    }

    /// The strategic rows and their tables.
    fn tables(&self) -> impl Iterator<Item = (usize, Table)> + '_ {
        (0..self.sets.len()).filter_map(|row| Some((row, self.table(row)?)))
    }
}
