//! Kinds of resources (document 02, R-3): what a move costs by them, and which
//! sets and tables they change. The library and the checker are asked alike.

mod agree_where;
mod costs;
mod minutes;

use rbatl_tests::agree;
use rbatl_tests::layout::*;
use rbatl_tests::model::*;

/// A block, and what the calls make of it.
struct Asked {
    block: Vec<u8>,
    model: Model,
}

impl Asked {
    fn of(block: &[u8]) -> Asked {
        let (block, model) = (block.to_vec(), Model::of(block));
        Asked { block, model }
    }

    /// The sets of all rows, as the library and the model agree.
    fn sets(&self) -> Vec<u32> {
        let lent = [SETS_BYTES, ROOM_BYTES].map(agree::pattern);
        let what = || "a job of either kind".to_string();
        let outcome = agree::label(&self.block, &self.model, [&lent[0], &lent[1]], what);
        assert_eq!(outcome.answer, 0);
        let words = outcome.buffer[..SETS_BYTES].chunks(4);
        words
            .map(|word| u32::from_le_bytes(word.try_into().expect("four bytes")))
            .collect()
    }

    /// The ranks and moves of a row, as the library and the model agree.
    fn table(&self, row: u8) -> Vec<u8> {
        let lent = [RANKS_BYTES, MOVES_BYTES].map(agree::pattern);
        let what = || "a job of either kind".to_string();
        let outcome = agree::table(&self.block, &self.model, row, [&lent[0], &lent[1]], what);
        assert_eq!(outcome.answer, 0);
        outcome.buffer
    }

    fn tables(&self) -> Vec<Vec<u8>> {
        let rows = self.model.rows().into_iter();
        rows.map(|row| self.table(row)).collect()
    }
}

/// The job with a resource of the other kind.
fn swapped(block: &[u8], resource: usize) -> Vec<u8> {
    let mut block = block.to_vec();
    block[resource_kind(resource)] ^= SUM ^ MAX;
    block
}

/// The job with these fields in each strategic row.
fn with_fields(block: &[u8], fields: impl Fn(u8) -> Vec<(usize, u8)>) -> Vec<u8> {
    let mut changed = block.to_vec();
    for i in 0..Sizes::of(block).rows {
        let kind = block[row(i, KIND)];
        if is_strategic(kind) {
            for (field, value) in fields(kind) {
                changed[row(i, field)] = value;
            }
        }
    }
    changed
}
