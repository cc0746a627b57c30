//! A text whose rows leave bounds empty: an empty bound is 0, and `inf` alone is
//! unlimited.

use super::listings::{Lent, LENGTHS};
use super::*;
use rbatl_tests::agree::{self, Outcome};
use rbatl_tests::text::TEXT_BYTES;
use rbatl_tests::text_damage::filled_bounds;

/// In state 0 action 1 takes 2 of resource 0, action 2 takes 1 of resource 1, and
/// both lead to state 1. Rows 3 and 7 are false in state 0 by their empty bounds,
/// the other strategic rows true there in spite of theirs.
const EMPTY: &str = "\
job,1,2,2,1,10
state,0,0
acts,0,0,3,0,0,2,0,0,1
go,0,0,0
go,0,1,1
go,0,2,1
state,1,1
acts,1,0,1,0,0
go,1,0,1
prop,0
not,0
or,0,1
until,1,,,2,0
until,1,2,,2,0
until,1,inf,,2,0
until,1,,1,2,0
next,1,,,0
next,1,,,1
always,1,,,1
";

/// What is written of it: in edition 2, with 0 for each empty bound.
const WRITTEN: &str = "\
job2,1,2,2,1,10,sum,sum
state,0,0
acts,0,0,3,0,0,2,0,0,1
go,0,0,1,1
state,1,1
acts,1,0,1,0,0
go,1,1
prop,0
not,0
or,0,1
until,1,0,0,2,0
until,1,2,0,2,0
until,1,inf,0,2,0
until,1,0,1,2,0
next,1,0,0,0
next,1,0,0,1
always,1,0,0,1
";

const ROWS_OF_EMPTY: [[u8; 8]; 10] = [
    [PROP, 0, 0, 0, 0, 0, 0, 0],
    [NOT, 0, 0, 0, 0, 0, 0, 0],
    [OR, 0, 1, 0, 0, 0, 0, 0],
    [UNTIL, 2, 0, 1, 0, 0, 0, 0],
    [UNTIL, 2, 0, 1, 2, 0, 0, 0],
    [UNTIL, 2, 0, 1, UNLIMITED, 0, 0, 0],
    [UNTIL, 2, 0, 1, 0, 1, 0, 0],
    [NEXT, 0, 0, 1, 0, 0, 0, 0],
    [NEXT, 1, 0, 1, 0, 0, 0, 0],
    [ALWAYS, 1, 0, 1, 0, 0, 0, 0],
];

const LISTING_OF_EMPTY: &str = "\
list,10
set,0,1,2
set,1,1,1
set,2,2,3
set,3,1,2
plan,3,1,0,0
set,4,2,3
plan,4,0,1,1
plan,4,1,0,0
set,5,2,3
plan,5,0,1,1
plan,5,1,0,0
set,6,2,3
plan,6,0,1,2
plan,6,1,0,0
set,7,1,2
plan,7,1,1,0
set,8,1,1
plan,8,0,1,0
set,9,1,1
plan,9,0,65535,0
";

/// The text with another spelling in each empty field.
fn filled(spelling: &str) -> String {
    let text = filled_bounds(EMPTY.as_bytes(), spelling.as_bytes());
    String::from_utf8(text).expect("plain text")
}

fn block_of(text: &str) -> Vec<u8> {
    let lent = agree::pattern(BLOCK_BYTES);
    let Outcome { answer, buffer } = agree::read(text.as_bytes(), &lent, || text.to_string());
    assert_eq!(answer, 0, "{text}");
    buffer
}

fn listing_of(text: &str) -> String {
    let Outcome { answer, buffer } = Lent::patterned(LENGTHS).list(text.as_bytes(), text);
    let length = usize::try_from(answer).expect("the text is listed");
    String::from_utf8(buffer[..length].to_vec()).expect("plain text")
}

#[test]
fn the_block_has_0_there() {
    let job = block_of(EMPTY);
    assert_eq!(job[row(0, KIND)..row(10, KIND)], ROWS_OF_EMPTY.concat());
    assert!(job == block_of(&filled("0")));
}

#[test]
fn the_text_comes_back_with_0_there() {
    let lent = agree::pattern(TEXT_BYTES);
    let Outcome { answer, buffer } = agree::write(&block_of(EMPTY), &lent, || EMPTY.to_string());
    let length = usize::try_from(answer).expect("the block is written");
    assert_eq!(buffer[..length], *WRITTEN.as_bytes());
    let second = WRITTEN.replace("until,1,0,0,2,0", "until,1,,,2,0");
    assert!(
        block_of(&second) == block_of(EMPTY),
        "edition 2 has empty bounds too"
    );
}

#[test]
fn the_listing_is_that_of_0() {
    assert_eq!(listing_of(EMPTY), LISTING_OF_EMPTY);
    assert_eq!(listing_of(&filled("0")), LISTING_OF_EMPTY);
}

/// Rows 3 and 7 lose state 0 by what an author may have meant as unlimited; the
/// other rows keep their sets.
#[test]
fn inf_makes_two_rows_true() {
    let sets = |listing: &str| -> Vec<String> {
        let lines = listing.lines().filter(|line| line.starts_with("set,"));
        lines.map(str::to_string).collect()
    };
    let mut expected = sets(LISTING_OF_EMPTY);
    expected[3] = "set,3,2,3".to_string();
    expected[7] = "set,7,2,3".to_string();
    assert_eq!(sets(&listing_of(&filled("inf"))), expected);
}

/// One space, in each of the fields in turn, is no empty field.
#[test]
fn a_space_is_refused() {
    let lent = agree::pattern(BLOCK_BYTES);
    for (place, _) in EMPTY.match_indices(',') {
        let (before, after) = EMPTY.split_at(place + 1);
        if !after.starts_with(',') {
            continue;
        }
        let text = format!("{before} {after}");
        let outcome = agree::read(text.as_bytes(), &lent, || text.clone());
        assert_eq!(outcome.answer, -7, "{text}");
        assert!(outcome.buffer == lent, "{text}");
    }
}
