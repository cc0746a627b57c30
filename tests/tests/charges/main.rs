//! Charges (document 02, R-7): what a move leaves of a stock, where a cradle has to be
//! passed again and again, and where a charge makes no difference or can only help. The
//! library and the checker are asked alike.

mod agree_where;
mod costs;
mod cradles;
mod one_way;
mod two_stocks;

use rbatl_tests::agree;
use rbatl_tests::layout::*;
use rbatl_tests::model::*;
use rbatl_tests::{block, jobs};

const NEVER: u16 = u16::MAX;

/// A block, and what the calls make of it.
struct Asked {
    block: Vec<u8>,
    model: Model,
}

/// The ranks and the moves of a row, position by position.
#[derive(PartialEq, Eq, Debug)]
struct Filled {
    ranks: Vec<u16>,
    moves: Vec<u8>,
}

impl Asked {
    fn of(block: &[u8]) -> Asked {
        assert_eq!(block::check(block), 0);
        let (block, model) = (block.to_vec(), Model::of(block));
        Asked { block, model }
    }

    /// The sets of the rows, as the library and the model agree.
    fn sets(&self) -> Vec<u32> {
        let lent = [SETS_BYTES, ROOM_BYTES].map(agree::pattern);
        let outcome = agree::label(&self.block, &self.model, [&lent[0], &lent[1]], what);
        assert_eq!(outcome.answer, 0);
        let words = outcome.buffer[..SETS_BYTES].chunks(4);
        let words = words.take(Sizes::of(&self.block).rows);
        words
            .map(|word| u32::from_le_bytes(word.try_into().expect("four bytes")))
            .collect()
    }

    /// The table of a row, up to its last position, as they agree.
    fn table(&self, row: u8) -> Filled {
        let lent = [RANKS_BYTES, MOVES_BYTES].map(agree::pattern);
        let outcome = agree::table(&self.block, &self.model, row, [&lent[0], &lent[1]], what);
        assert_eq!(outcome.answer, 0);
        let (ranks, moves) = outcome.buffer.split_at(RANKS_BYTES);
        let count = self.model.positions(row).len();
        let words = ranks
            .chunks(2)
            .map(|word| u16::from_le_bytes([word[0], word[1]]));
        Filled {
            ranks: words.take(count).collect(),
            moves: moves[..count].to_vec(),
        }
    }

    fn tables(&self) -> Vec<Filled> {
        let rows = self.model.rows().into_iter();
        rows.map(|row| self.table(row)).collect()
    }

    /// The smallest allowances for a state, as they agree.
    fn allowances(&self, row: u8, state: u8) -> Vec<[u8; 2]> {
        let lent = [ALLOWANCES_BYTES, ROOM_BYTES].map(agree::pattern);
        let buffers = [&lent[0][..], &lent[1]];
        let outcome = agree::allowances(&self.block, &self.model, row, state, buffers, what);
        let count = usize::try_from(outcome.answer).expect("a count");
        let pairs = outcome.buffer.chunks(2).take(count);
        pairs.map(|pair| [pair[0], pair[1]]).collect()
    }

    /// The answer to a rehearsal, and its report.
    fn rehearse(&self, row: u8, state: u8, script: &[u8]) -> (i32, [u8; REPORT_BYTES]) {
        let lent = [REPORT_BYTES, ROOM_BYTES].map(agree::pattern);
        let buffers = [&lent[0][..], &lent[1]];
        let outcome = agree::rehearse(&self.block, &self.model, row, state, script, buffers, what);
        let report = outcome.buffer[..REPORT_BYTES].try_into();
        (outcome.answer, report.expect("four bytes"))
    }

    /// The reply to a move, or minus the refusal's number.
    fn reply(&self, at: At, mv: u8) -> i32 {
        let room = agree::pattern(ROOM_BYTES);
        agree::reply(&self.block, &self.model, at, mv, &room, what).answer
    }
}

fn what() -> String {
    "a job with charges".to_string()
}

/// What a cost leaves of a stock under a bound; none if the stock does not pay it.
fn left_over(stock: u8, cost: i32, bound: u8) -> Option<u8> {
    let left = u8::try_from(i32::from(stock) - cost).ok()?;
    Some(left.min(bound))
}

/// Sets what an action takes of the resources.
fn set_cost(job: &mut [u8], state: usize, agent: usize, action: usize, costs: &[i32]) {
    for (resource, &spent) in costs.iter().enumerate() {
        job[cost(state, agent, action, resource)] = cost_byte(spent);
    }
}

/// The job with these fields in each strategic row.
fn with_fields(block: &[u8], fields: impl Fn(u8) -> Vec<(usize, u8)>) -> Vec<u8> {
    let mut changed = block.to_vec();
    for i in 0..Sizes::of(block).rows {
        let kind = block[row(i, KIND)];
        if is_strategic(kind) {
            for (field, value) in fields(kind) {
                changed[row(i, field)] = value;
            }
        }
    }
    changed
}
