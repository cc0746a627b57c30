//! The listing call, which is lent three buffers. In an outcome they follow each
//! other.

use super::{compare, lend, lend_two, Outcome};
use crate::{ffi, listing};

/// What listing the text gives in the lent listing, ranks and moves; `what` names
/// the text if the library and the model differ.
pub fn list(text: &[u8], lent: [&[u8]; 3], what: impl Fn() -> String) -> Outcome {
    let expected = lend_three(lent, |out, ranks, moves| {
        listing::list_call(text, out, ranks, moves)
    });
    let found = lend_three(lent, |out, ranks, moves| ffi::list(text, out, ranks, moves));
    compare("rbatl_list", expected, found, what)
}

fn lend_three(
    lent: [&[u8]; 3],
    call: impl FnOnce(&mut [u8], &mut [u8], &mut [u8]) -> i32,
) -> Outcome {
    let mut rooms = Vec::new();
    let mut outcome = lend(lent[0], |first| {
        let outcome = lend_two([lent[1], lent[2]], |second, third| {
            call(first, second, third)
        });
        rooms = outcome.buffer;
        outcome.answer
    });
    outcome.buffer.extend(rooms);
    outcome
}
