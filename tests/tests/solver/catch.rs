//! Catch to the byte, as document 01 has it.

use super::*;
use rbatl_tests::jobs::{self, catch};

const NEVER: u16 = 65535;

/// The words, lowest byte first, and zeros up to the length.
fn words<const BYTES: usize>(words: &[[u8; BYTES]], length: usize) -> Vec<u8> {
    let mut bytes = words.concat();
    bytes.resize(length, 0);
    bytes
}

fn expect_sets(job: &[u8], sets: &[u32]) {
    let lent = Lent::patterned();
    let outcome = lent.label(job, &Model::of(job), "Catch");
    let (found, room) = outcome.buffer.split_at(SETS_BYTES);
    let sets: Vec<[u8; 4]> = sets.iter().map(|set| set.to_le_bytes()).collect();
    assert_eq!(outcome.answer, 0);
    assert_eq!(found, words(&sets, SETS_BYTES));
    assert!(room.iter().all(|&byte| byte == 0));
}

fn expect_table(job: &[u8], row: u8, ranks: &[u16], moves: &[u8]) {
    let lent = Lent::patterned();
    let outcome = lent.table(job, &Model::of(job), row, "Catch");
    let (found_ranks, found_moves) = outcome.buffer.split_at(RANKS_BYTES);
    let ranks: Vec<[u8; 2]> = ranks.iter().map(|rank| rank.to_le_bytes()).collect();
    let moves: Vec<[u8; 1]> = moves.iter().map(|&mv| [mv]).collect();
    assert_eq!(outcome.answer, 0, "row {row}");
    assert_eq!(found_ranks, words(&ranks, RANKS_BYTES), "row {row}");
    assert_eq!(found_moves, words(&moves, MOVES_BYTES), "row {row}");
}

#[test]
fn sets() {
    expect_sets(&catch(), &[4, 3, 7, 6, 7, 6]);
}

/// States 0, 1 and 2, each with stocks 0 to 5, in rows 3 and 4; 0 to 4 in row 5.
#[test]
#[rustfmt::skip]
fn tables() {
    const N: u16 = NEVER;
    expect_table(&catch(), 3,
        &[N, N, N, N, N, N,  N, N, N, 1, 1, 1,  0, 0, 0, 0, 0, 0],
        &[255, 255, 255, 255, 255, 255,  255, 255, 255, 1, 1, 1,  0, 0, 0, 0, 0, 0]);
    expect_table(&catch(), 4,
        &[N, N, N, N, N, 2,  N, N, N, 1, 1, 1,  0, 0, 0, 0, 0, 0],
        &[255, 255, 255, 255, 255, 1,  255, 255, 255, 1, 1, 1,  0, 0, 0, 0, 0, 0]);
    expect_table(&catch(), 5,
        &[N, N, N, N, N,  N, N, N, 1, 1,  0, 0, 0, 0, 0],
        &[255, 255, 255, 255, 255,  255, 255, 255, 1, 1,  0, 0, 0, 0, 0]);
}

/// Rows 0 to 2 have a set and no table; there is no row 6.
#[test]
fn rows_without_a_table() {
    let (job, lent) = (catch(), Lent::patterned());
    for row in [0, 1, 2, 6, 7, 31, 32, 255] {
        let outcome = lent.table(&job, &Model::of(&job), row, "Catch");
        assert_eq!(outcome.answer, -8, "row {row}");
        assert!(outcome.buffer == [&lent.ranks[..], &lent.moves[..]].concat());
    }
}

/// With the seventh row `always,2,0,1`. Agent 1 keeps agent 0 in state 0 by its
/// action 1; from state 1 agent 0 goes on alone.
#[test]
fn seventh_row() {
    let job = jobs::catch_with_always();
    expect_sets(&job, &[4, 3, 7, 6, 7, 6, 1]);
    expect_table(&job, 6, &[NEVER, 1, 0], &[4, 255, 255]);
}
