//! The calls of the library beside those made from document 01: on the same
//! input both must give the same answer and leave the same bytes in the whole
//! lent buffer.

mod listing;
mod lookup;
mod solver;

use crate::random::Rng;
use crate::{ffi, text};
pub use listing::list;
pub use lookup::{allowances, coalition_move, rehearse, reply, worksheet};
pub use solver::{label, states, states_refusal, table};

/// Bytes on both sides of a lent buffer, which no call may touch.
const MARGIN: usize = 64;
const MARGIN_BYTE: u8 = 0xA5;

/// A buffer of bytes that are rarely what a call would write: that it was
/// written to, in whole or in part, is seen.
pub fn pattern(length: usize) -> Vec<u8> {
    let mut rng = Rng::new(length as u64);
    (0..length).map(|_| rng.byte() | 0x80).collect()
}

/// The answer of a call and the buffer that it was lent, afterwards.
#[derive(Clone, PartialEq, Eq)]
pub struct Outcome {
    pub answer: i32,
    pub buffer: Vec<u8>,
}

/// What reading the text into the lent block gives; `what` names the text if
/// the two readers differ.
pub fn read(text: &[u8], block: &[u8], what: impl Fn() -> String) -> Outcome {
    let expected = lend(block, |block| text::read_call(text, block));
    let found = lend(block, |block| ffi::read(text, block));
    compare("rbatl_read", expected, found, what)
}

/// What writing the block into the lent text gives; `what` names the block if
/// the two writers differ.
pub fn write(block: &[u8], text: &[u8], what: impl Fn() -> String) -> Outcome {
    let expected = lend(text, |text| text::write_call(block, text));
    let found = lend(text, |text| ffi::write(block, text));
    compare("rbatl_write", expected, found, what)
}

/// Lends a copy of the buffer between two margins.
fn lend(buffer: &[u8], call: impl FnOnce(&mut [u8]) -> i32) -> Outcome {
    let mut bytes = vec![MARGIN_BYTE; buffer.len() + 2 * MARGIN];
    let lent = MARGIN..MARGIN + buffer.len();
    bytes[lent.clone()].copy_from_slice(buffer);
    let answer = call(&mut bytes[lent.clone()]);
    let kept = |margin: &[u8]| margin.iter().all(|&byte| byte == MARGIN_BYTE);
    assert!(kept(&bytes[..lent.start]), "written before the buffer");
    assert!(kept(&bytes[lent.end..]), "written after the buffer");
    bytes.truncate(lent.end);
    bytes.drain(..lent.start);
    Outcome {
        answer,
        buffer: bytes,
    }
}

/// The same for two buffers. In the outcome the second one follows the first.
fn lend_two(lent: [&[u8]; 2], call: impl FnOnce(&mut [u8], &mut [u8]) -> i32) -> Outcome {
    let mut second = Vec::new();
    let mut outcome = lend(lent[0], |first| {
        let outcome = lend(lent[1], |second| call(first, second));
        second = outcome.buffer;
        outcome.answer
    });
    outcome.buffer.extend(second);
    outcome
}

fn compare(call: &str, expected: Outcome, found: Outcome, what: impl Fn() -> String) -> Outcome {
    assert_eq!(
        found.answer,
        expected.answer,
        "{call} gives another answer on {}",
        what()
    );
    if found.buffer != expected.buffer {
        let pairs = found.buffer.iter().zip(&expected.buffer);
        let same = pairs.take_while(|(a, b)| a == b).count();
        panic!("{call} leaves another byte {same} on {}", what());
    }
    expected
}
