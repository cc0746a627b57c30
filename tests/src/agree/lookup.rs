//! The calls at one position, which are lent a room alone, and the worksheet, the
//! allowances and the rehearsal, in whose outcomes the room follows the words, the list
//! or the report.

use super::{compare, lend, lend_two, Outcome};
use crate::ffi;
use crate::model::{At, Model};

/// The coalition's move with the lent room; `what` names the block if the
/// library and the model differ.
pub fn coalition_move(
    block: &[u8],
    model: &Model,
    at: At,
    room: &[u8],
    what: impl Fn() -> String,
) -> Outcome {
    let expected = lend(room, |room| model.coalition_move(at, room));
    let found = lend(room, |room| ffi::coalition_move(block, at, room));
    compare("rbatl_move", expected, found, || {
        format!("{at:?} of {}", what())
    })
}

/// The reply to the move with the lent room.
pub fn reply(
    block: &[u8],
    model: &Model,
    at: At,
    mv: u8,
    room: &[u8],
    what: impl Fn() -> String,
) -> Outcome {
    let expected = lend(room, |room| model.reply(at, mv, room));
    let found = lend(room, |room| ffi::reply(block, at, mv, room));
    compare("rbatl_reply", expected, found, || {
        format!("move {mv} at {at:?} of {}", what())
    })
}

/// What the worksheet of the row gives in the lent words and room.
pub fn worksheet(
    block: &[u8],
    model: &Model,
    row: u8,
    list: &[u8],
    lent: [&[u8]; 2],
    what: impl Fn() -> String,
) -> Outcome {
    let what = || format!("{list:?} of row {row} of {}", what());
    let expected = lend_two(lent, |words, room| model.worksheet(row, list, words, room));
    let found = lend_two(lent, |words, room| {
        ffi::worksheet(block, row, list, words, room)
    });
    compare("rbatl_worksheet", expected, found, what)
}

/// What the smallest allowances of the row for the state give in the lent list and
/// room.
pub fn allowances(
    block: &[u8],
    model: &Model,
    row: u8,
    state: u8,
    lent: [&[u8]; 2],
    what: impl Fn() -> String,
) -> Outcome {
    let what = || format!("state {state} for row {row} of {}", what());
    let expected = lend_two(lent, |list, room| model.allowances(row, state, list, room));
    let found = lend_two(lent, |list, room| {
        ffi::allowances(block, row, state, list, room)
    });
    compare("rbatl_allowances", expected, found, what)
}

/// What the rehearsal of the row from the state gives in the lent report and room.
pub fn rehearse(
    block: &[u8],
    model: &Model,
    row: u8,
    state: u8,
    script: &[u8],
    lent: [&[u8]; 2],
    what: impl Fn() -> String,
) -> Outcome {
    let what = || format!("{script:?} from state {state} for row {row} of {}", what());
    let expected = lend_two(lent, |report, room| {
        model.rehearse(row, state, script, report, room)
    });
    let found = lend_two(lent, |report, room| {
        ffi::rehearse(block, row, state, script, report, room)
    });
    compare("rbatl_rehearse", expected, found, what)
}
