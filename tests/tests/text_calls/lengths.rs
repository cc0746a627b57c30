//! Number 1: buffers of other lengths, and texts above 32,768 bytes.

use super::*;
use rbatl_tests::text::{self, TEXT_BYTES};
use rbatl_tests::{agree, jobs};

const BLOCK_LENGTHS: [usize; 10] = [
    0,
    1,
    mask(0),
    BLOCK_BYTES / 2,
    OLD_BLOCK_BYTES,
    BLOCK_BYTES - 1,
    BLOCK_BYTES + 1,
    BLOCK_BYTES + ROW_BYTES,
    2 * BLOCK_BYTES,
    TEXT_BYTES,
];
const TEXT_LENGTHS: [usize; 9] = [
    0,
    1,
    267,
    BLOCK_BYTES,
    24_570,
    TEXT_BYTES - 1,
    TEXT_BYTES + 1,
    TEXT_BYTES + 8,
    2 * TEXT_BYTES,
];

/// A job's text, and bytes after it up to the length.
fn padded(name: &str, byte: u8, length: usize) -> Vec<u8> {
    let mut text = jobs::text(name);
    text.resize(length, byte);
    text
}

fn read(text: &[u8], block_length: usize) -> i32 {
    let lent = agree::pattern(block_length);
    let what = || format!("{} bytes into {block_length}", text.len());
    let outcome = agree::read(text, &lent, what);
    assert!(outcome.answer == 0 || outcome.buffer == lent);
    outcome.answer
}

fn write(block: &[u8], text_length: usize) -> i32 {
    let lent = agree::pattern(text_length);
    let what = || format!("{} bytes into {text_length}", block.len());
    let outcome = agree::write(block, &lent, what);
    assert!(outcome.answer >= 0 || outcome.buffer == lent);
    outcome.answer
}

/// Up to 32,768 bytes a text is looked at; from there on it is not.
#[test]
fn long_texts() {
    for name in jobs::names() {
        for byte in [0, b' ', b'0', b',', b'\n', b'\r', 255] {
            for length in [TEXT_BYTES - 1, TEXT_BYTES] {
                assert_eq!(read(&padded(&name, byte, length), BLOCK_BYTES), -7);
            }
            for length in [TEXT_BYTES + 1, TEXT_BYTES + 2, 2 * TEXT_BYTES, 100_000] {
                assert_eq!(read(&padded(&name, byte, length), BLOCK_BYTES), -1);
            }
        }
    }
    for byte in [0, b'j', b'0', b',', b'\n', 255] {
        assert_eq!(read(&[byte; TEXT_BYTES], BLOCK_BYTES), -7);
        assert_eq!(read(&[byte; TEXT_BYTES + 1], BLOCK_BYTES), -1);
    }
}

/// A long run of digits, of line ends, of rows.
#[test]
fn long_fields_and_lines() {
    let catch = jobs::text("catch.job");
    for part in ["0", "1", "\n", ",", "inf,", "prop,0\n"] {
        for front in [
            "",
            "job,",
            "job,2,1,3,1,6\nstate,0,",
            "job2,",
            "job2,2,1,3,1,6,sum\nstate,0,",
            "job2,1,1,1,1,1,sum\nstate,0,0\nacts,0,0,1,0\ngo,0,",
        ] {
            let mut text = front.as_bytes().to_vec();
            while text.len() + part.len() <= TEXT_BYTES {
                text.extend(part.as_bytes());
            }
            assert_eq!(read(&text, BLOCK_BYTES), -7, "{front:?} {part:?}");
        }
    }
    let mut text = catch.clone();
    while text.len() + catch.len() <= TEXT_BYTES {
        text.extend(&catch);
    }
    assert_eq!(read(&text, BLOCK_BYTES), -7);
}

/// A refused value answers before what follows it, but not before number 1.
#[test]
fn a_refused_value_in_a_long_text() {
    for front in ["job,2,1,25,1,6\n", "job2,2,1,25,1,6,sum\n"] {
        let text = |length| {
            let mut text = front.as_bytes().to_vec();
            text.resize(length, b'\n');
            text
        };
        assert_eq!(read(&text(TEXT_BYTES), BLOCK_BYTES), -2);
        assert_eq!(read(&text(TEXT_BYTES + 1), BLOCK_BYTES), -1);
        assert_eq!(read(&text(TEXT_BYTES), BLOCK_BYTES - 1), -1);
    }
}

#[test]
fn read_into_blocks_of_other_lengths() {
    let catch = jobs::text("catch.job");
    assert_eq!(read(&catch, BLOCK_BYTES), 0);
    for length in BLOCK_LENGTHS {
        assert_eq!(read(&catch, length), -1);
        assert_eq!(read(&[], length), -1);
        assert_eq!(read(b"job,0", length), -1);
        assert_eq!(read(b"job,0,", length), -1);
        assert_eq!(read(b"job2,0,", length), -1);
        assert_eq!(read(&jobs::text("minutes.job"), length), -1);
        assert_eq!(read(&jobs::text("full.job"), length), -1);
        assert_eq!(read(&padded("catch.job", 0, TEXT_BYTES + 1), length), -1);
    }
    for length in 0..2 * BLOCK_BYTES {
        let answer = if length == BLOCK_BYTES { 0 } else { -1 };
        assert_eq!(read(&catch, length), answer);
    }
}

#[test]
fn write_into_texts_of_other_lengths() {
    for name in jobs::names() {
        let job = jobs::load(&name);
        let length = text::write(&job).len();
        assert_eq!(write(&job, TEXT_BYTES), length as i32);
        for other in TEXT_LENGTHS.into_iter().chain([length, length + 1]) {
            assert_eq!(write(&job, other), -1);
        }
    }
}

/// A lent text of another length answers before what is wrong in the block.
#[test]
fn write_blocks_of_other_lengths_and_damaged_ones() {
    let job = jobs::load("catch.job");
    for length in BLOCK_LENGTHS {
        let mut other = job.clone();
        other.resize(length, 0);
        assert_eq!(write(&other, TEXT_BYTES), -1);
        for text_length in TEXT_LENGTHS {
            assert_eq!(write(&other, text_length), -1);
        }
    }
    let damages = [
        (2, STATES, 25),
        (2, resource_kind(0), 2),
        (3, count(0, 0), 5),
        (3, cost(0, 0, 1, 0), 240),
        (4, next(0, 0), 3),
        (5, row(5, BOUND), 16),
        (6, mask(23), 1),
        (6, resource_kind(1), MAX),
    ];
    for (number, place, value) in damages {
        let mut other = job.clone();
        other[place] = value;
        assert_eq!(write(&other, TEXT_BYTES), -number);
        for text_length in TEXT_LENGTHS {
            assert_eq!(write(&other, text_length), -1);
        }
    }
}
