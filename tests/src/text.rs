//! The calls on a job's text, made from documents 01 and 02 alone: two editions
//! of one text, both of which are read, and the second written.

mod read;
mod write;

use crate::block::check;
use crate::layout::BLOCK_BYTES;
use crate::refusal;
pub use read::read;
pub use write::{has_first_edition, write, write_as, write_structure};

pub const TEXT_BYTES: usize = 32768;

/// The editions differ in the first line, in the next states of a state, and in that
/// a cost may be a charge in the second alone.
#[derive(Clone, Copy, Debug, PartialEq, Eq)]
pub enum Edition {
    One,
    Two,
}

pub const EDITIONS: [Edition; 2] = [Edition::One, Edition::Two];

impl Edition {
    /// The text's first word.
    pub fn word(self) -> &'static str {
        match self {
            Edition::One => "job",
            Edition::Two => "job2",
        }
    }

    /// The edition that a text's first word says; none if it says neither.
    pub fn of(text: &[u8]) -> Option<Edition> {
        let word = text.split(|&byte| byte == COMMA).next()?;
        let opens = |edition: &Edition| edition.word().as_bytes() == word;
        EDITIONS.into_iter().find(opens)
    }
}

/// The words of the rows; a word's place is its kind.
const ROW_WORDS: [&str; 6] = ["prop", "not", "or", "next", "always", "until"];

/// The words of the resources, by their kind.
pub const KIND_WORDS: [&str; 2] = ["sum", "max"];

const COMMA: u8 = b',';
/// What stands before a charge.
const MINUS: u8 = b'-';
const LINE_END: u8 = b'\n';

/// The byte after a field that is the last of its line, or not.
fn end_of(last: bool) -> u8 {
    if last {
        LINE_END
    } else {
        COMMA
    }
}

/// The reading call: 0 or minus the refusal number. A refusal leaves the lent
/// block as it was.
pub fn read_call(text: &[u8], block: &mut [u8]) -> i32 {
    if block.len() != BLOCK_BYTES {
        return -i32::from(refusal::LENGTH);
    }
    match read(text) {
        Ok(job) => {
            block.copy_from_slice(&job);
            0
        }
        Err(number) => -i32::from(number),
    }
}

/// The writing call: the length of the text, zeros after it, or minus the
/// refusal number. A refusal leaves the lent text as it was.
pub fn write_call(block: &[u8], text: &mut [u8]) -> i32 {
    if text.len() != TEXT_BYTES {
        return -i32::from(refusal::LENGTH);
    }
    let number = check(block);
    if number != 0 {
        return -i32::from(number);
    }
    let written = write(block);
    let (front, rest) = text.split_at_mut(written.len());
    front.copy_from_slice(&written);
    rest.fill(0);
    written.len() as i32
}

/// The call that tells where reading stops: the place of the field that is
/// refused, the length of a text that is accepted, or minus 1.
pub fn read_at_call(text: &[u8]) -> i32 {
    match text.len() > TEXT_BYTES {
        true => -i32::from(refusal::LENGTH),
        false => read::stop(text) as i32,
    }
}
