//! The calls that are lent two buffers. In an outcome the second one follows the
//! first.

use super::{compare, lend_two, Outcome};
use crate::ffi;
use crate::model::Model;

/// What labelling the block gives in the lent sets and room; `what` names the
/// block if the library and the model differ.
pub fn label(block: &[u8], model: &Model, lent: [&[u8]; 2], what: impl Fn() -> String) -> Outcome {
    let expected = lend_two(lent, |sets, room| model.label(sets, room));
    let found = lend_two(lent, |sets, room| ffi::label(block, sets, room));
    compare("rbatl_label", expected, found, what)
}

/// What the table of the row gives in the lent ranks and moves.
pub fn table(
    block: &[u8],
    model: &Model,
    row: u8,
    lent: [&[u8]; 2],
    what: impl Fn() -> String,
) -> Outcome {
    let what = || format!("row {row} of {}", what());
    let expected = lend_two(lent, |ranks, moves| model.table(row, ranks, moves));
    let found = lend_two(lent, |ranks, moves| ffi::table(block, row, ranks, moves));
    compare("rbatl_table", expected, found, what)
}

/// What listing the states of the row gives in the lent list and room.
pub fn states(
    block: &[u8],
    model: &Model,
    row: u8,
    lent: [&[u8]; 2],
    what: impl Fn() -> String,
) -> Outcome {
    let what = || format!("row {row} of {}", what());
    let expected = lend_two(lent, |list, room| model.states(row, list, room));
    let found = lend_two(lent, |list, room| ffi::states(block, row, list, room));
    compare("rbatl_states", expected, found, what)
}

/// What the lister's second call gives with the lent list, which it must leave as
/// it was, and room.
pub fn states_refusal(
    block: &[u8],
    model: &Model,
    row: u8,
    lent: [&[u8]; 2],
    what: impl Fn() -> String,
) -> Outcome {
    let what = || format!("row {row} of {}", what());
    let expected = lend_two(lent, |list, room| model.states_refusal(row, list, room));
    let found = lend_two(lent, |list, room| {
        ffi::states_refusal(block, row, list, room)
    });
    compare("rbatl_states_refusal", expected, found, what)
}
