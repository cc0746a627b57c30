//! Each refusal of label and table, on both sides of its border, in its order; a
//! refusal changes no buffer but the room, and number 1 not even that.

use super::*;
use rbatl_tests::damage::{whole_and_damaged, BORDERS};
use rbatl_tests::jobs::{self, catch};
use rbatl_tests::layout::*;
use rbatl_tests::text::TEXT_BYTES;

/// Lengths beside the right one, and far from it.
pub fn other_lengths(right: usize) -> Vec<usize> {
    let rights = [
        STATES_BYTES,
        SETS_BYTES,
        BLOCK_BYTES,
        MOVES_BYTES,
        ROOM_BYTES,
    ];
    let near = rights.map(|length| [length - 1, length, length + 1]);
    let far = [
        0,
        1,
        2,
        64,
        256,
        OLD_BLOCK_BYTES,
        2 * ROOM_BYTES,
        TEXT_BYTES,
    ];
    let lengths = near.into_iter().flatten().chain(far);
    lengths.filter(|&length| length != right).collect()
}

/// A refusal that leaves the sets; the room holds zeros unless a length is wrong.
fn refused_label(block: &[u8], lent: &Lent, expected: u8, what: &str) {
    let outcome = lent.label(block, &Model::of(block), what);
    assert_eq!(outcome.answer, -i32::from(expected), "{what}");
    let (sets, room) = outcome.buffer.split_at(lent.sets.len());
    assert!(sets == lent.sets, "{what}: the sets");
    lent.expect_room(room, expected, what);
}

/// A refusal that leaves ranks and moves.
fn refused_table(block: &[u8], row: u8, lent: &Lent, expected: u8, what: &str) {
    refused_row(block, &Model::of(block), row, lent, expected, what);
}

fn refused_row(block: &[u8], model: &Model, row: u8, lent: &Lent, expected: u8, what: &str) {
    let outcome = lent.table(block, model, row, what);
    assert_eq!(outcome.answer, -i32::from(expected), "{what}");
    let (ranks, moves) = outcome.buffer.split_at(lent.ranks.len());
    assert!(ranks == lent.ranks, "{what}: the ranks");
    assert!(moves == lent.moves, "{what}: the moves");
}

/// Buffers of which one, at this place among them, has another length.
pub fn misfits(place: usize, right: usize) -> impl Iterator<Item = (Lent, String)> {
    other_lengths(right).into_iter().map(move |length| {
        let mut lent = Lent::patterned();
        let buffers = [
            &mut lent.sets,
            &mut lent.room,
            &mut lent.ranks,
            &mut lent.moves,
            &mut lent.list,
        ];
        *buffers[place] = agree::pattern(length);
        (lent, format!("buffer {place} of {length}"))
    })
}

#[test]
fn lent_lengths() {
    for (block, number) in whole_and_damaged() {
        for (place, right) in [(0, SETS_BYTES), (1, ROOM_BYTES)] {
            for (lent, what) in misfits(place, right) {
                refused_label(&block, &lent, 1, &format!("{what}, damage {number}"));
            }
        }
        for (place, right) in [(2, RANKS_BYTES), (3, MOVES_BYTES)] {
            for (lent, what) in misfits(place, right) {
                for row in [0, 3, 4, 6, 255] {
                    let what = format!("{what}, damage {number}");
                    refused_table(&block, row, &lent, 1, &what);
                }
            }
        }
    }
}

#[test]
fn two_wrong_lengths() {
    let mut lent = Lent::with(|length| agree::pattern(length + 1));
    refused_label(&catch(), &lent, 1, "one byte more");
    refused_table(&catch(), 4, &lent, 1, "one byte more");
    // Each has the length that the other should have.
    lent.ranks = agree::pattern(MOVES_BYTES);
    lent.moves = agree::pattern(RANKS_BYTES);
    lent.sets = agree::pattern(ROOM_BYTES);
    lent.room = agree::pattern(SETS_BYTES);
    refused_label(&catch(), &lent, 1, "exchanged");
    refused_table(&catch(), 4, &lent, 1, "exchanged");
}

#[test]
fn block_lengths() {
    let lent = Lent::patterned();
    for (block, number) in whole_and_damaged() {
        for length in other_lengths(BLOCK_BYTES) {
            let mut block = block.clone();
            block.resize(length, 0);
            let what = format!("a block of {length}, {number}");
            refused_label(&block, &lent, 1, &what);
            for row in [0, 4, 6] {
                refused_table(&block, row, &lent, 1, &what);
            }
        }
    }
}

/// The block's number comes before 8, whatever row is asked for.
#[test]
fn block_numbers() {
    let lent = Lent::patterned();
    for (block, number) in whole_and_damaged() {
        if number != 0 {
            refused_label(&block, &lent, number, &format!("damage {number}"));
            for row in [0, 3, 4, 5, 6, 255] {
                refused_table(&block, row, &lent, number, &format!("damage {number}"));
            }
        }
    }
}

/// Number 8 for every row of every kind, at F - 1, F and beyond.
#[test]
fn row_numbers() {
    let lent = Lent::patterned();
    for name in jobs::names() {
        let block = jobs::load(&name);
        let (model, rows) = (Model::of(&block), Sizes::of(&block).rows);
        for i in 0..=u8::MAX {
            let exists = usize::from(i) < rows;
            if exists && is_strategic(block[row(i.into(), KIND)]) {
                let outcome = lent.table(&block, &model, i, &name);
                assert_eq!(outcome.answer, 0, "{name}, row {i}");
            } else {
                refused_row(&block, &model, i, &lent, 8, &format!("{name}, row {i}"));
            }
        }
    }
}

/// The largest values of a job of full size pass, and those above are refused.
#[test]
fn full_sizes() {
    let lent = Lent::patterned();
    let job = jobs::load("full.job");
    for (place, passes, refused, number) in [
        (AGENTS, 3, 4, 2),
        (RESOURCES, 2, 3, 2),
        (STATES, 24, 25, 2),
        (PROPOSITIONS, 8, 9, 2),
        (ROWS, 32, 33, 2),
        (count(23, 2), 4, 5, 3),
        (cost(23, 2, 3, 1), 15, 16, 3),
        (cost(23, 2, 3, 1), 241, 240, 3),
        (next(23, 63), 23, 24, 4),
        (row(31, BOUND), 15, 16, 5),
        (row(31, BOUND + 1), 255, 254, 5),
    ] {
        let mut block = job.clone();
        block[place] = passes;
        let (model, what) = (Model::of(&block), format!("byte {place} = {passes}"));
        assert_eq!(lent.label(&block, &model, &what).answer, 0, "{what}");
        assert_eq!(lent.table(&block, &model, 31, &what).answer, 0, "{what}");
        block[place] = refused;
        let what = format!("byte {place} = {refused}");
        refused_label(&block, &lent, number, &what);
        refused_table(&block, 31, &lent, number, &what);
    }
}

/// Every place of Catch, with values at the borders; each number of the block comes.
pub fn each_changed_byte(call: impl Fn(&[u8], &str) -> Outcome) {
    let mut seen = Counts::default();
    for place in 0..BLOCK_BYTES {
        for value in BORDERS {
            let mut block = catch();
            block[place] = value;
            let what = format!("Catch with byte {place} = {value}");
            seen[number(call(&block, &what).answer)] += 1;
        }
    }
    assert_each_came(&seen, &[0, 2, 3, 4, 5, 6], 10);
}

#[test]
fn changed_bytes() {
    let lent = Lent::patterned();
    each_changed_byte(|block, what| {
        let model = Model::of(block);
        let outcome = lent.label(block, &model, what);
        assert_eq!(outcome.answer, -i32::from(model.number()), "{what}");
        lent.table(block, &model, 4, what)
    });
}
