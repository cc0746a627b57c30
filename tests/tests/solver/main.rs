//! `rbatl_label`, `rbatl_table`, `rbatl_states` and `rbatl_states_refusal` beside
//! the checker made from document 003: the same answers and the same lent buffers
//! afterwards, on many jobs.

mod borders;
mod catch;
mod limits;
mod random;
mod states;

use rbatl_tests::agree::{self, Outcome};
use rbatl_tests::answers::{assert_each_came, assert_none_came, number, Counts};
use rbatl_tests::model::*;

/// What the lent buffers hold before a call.
struct Lent {
    sets: Vec<u8>,
    room: Vec<u8>,
    ranks: Vec<u8>,
    moves: Vec<u8>,
    list: Vec<u8>,
}

impl Lent {
    /// Buffers that have the right lengths and bytes of no meaning.
    fn patterned() -> Lent {
        Lent::with(agree::pattern)
    }

    fn filled(byte: u8) -> Lent {
        Lent::with(|length| vec![byte; length])
    }

    fn with(buffer: impl Fn(usize) -> Vec<u8>) -> Lent {
        Lent {
            sets: buffer(SETS_BYTES),
            room: buffer(ROOM_BYTES),
            ranks: buffer(RANKS_BYTES),
            moves: buffer(MOVES_BYTES),
            list: buffer(STATES_BYTES),
        }
    }

    /// After a refusal the room holds zeros; after a wrong length it is as it was.
    fn expect_room(&self, room: &[u8], number: u8, what: &str) {
        match number {
            1 => assert!(room == self.room, "{what}: the room"),
            _ => assert!(room.iter().all(|&byte| byte == 0), "{what}: the room"),
        }
    }

    /// Labelling the block, as the library and the model agree.
    fn label(&self, block: &[u8], model: &Model, what: &str) -> Outcome {
        let lent = [&self.sets[..], &self.room[..]];
        agree::label(block, model, lent, || what.to_string())
    }

    /// The table of the row, as the library and the model agree.
    fn table(&self, block: &[u8], model: &Model, row: u8, what: &str) -> Outcome {
        let lent = [&self.ranks[..], &self.moves[..]];
        agree::table(block, model, row, lent, || what.to_string())
    }

    /// The states of the row, as the library and the model agree. The second call
    /// gives the same refusal, keeps the list and leaves the room in the same way.
    fn states(&self, block: &[u8], model: &Model, row: u8, what: &str) -> Outcome {
        let lent = [&self.list[..], &self.room[..]];
        let listed = agree::states(block, model, row, lent, || what.to_string());
        let second = agree::states_refusal(block, model, row, lent, || what.to_string());
        assert_eq!(second.answer, listed.answer.min(0), "{what}");
        let (list, room) = second.buffer.split_at(self.list.len());
        assert!(list == self.list, "{what}: the list");
        assert!(
            room == &listed.buffer[self.list.len()..],
            "{what}: the room"
        );
        listed
    }
}
