//! Catch: its starred values, and the sensor network of
//! document 003.

use super::*;
use rbatl_tests::checker::splits;
use rbatl_tests::checker::NEVER;
use rbatl_tests::{block, jobs};

fn catch() -> Solved {
    Solved::of(&jobs::load("catch.job"))
}

#[test]
fn catch_has_its_sets_by_splits() {
    let sets = splits::label(&catch().structure);
    assert_eq!(sets, [4, 3, 7, 6, 7, 6]);
}

#[test]
fn catch_has_its_ranks() {
    let table = catch().table(4).unwrap();
    for (state, stock, rank) in [(0, 5, 2), (0, 4, NEVER), (1, 3, 1), (1, 2, NEVER)] {
        let position = table.position(state, &[stock]);
        assert_eq!(table.ranks[position], rank, "state {state}, stock {stock}");
    }
}

#[test]
fn catch_has_its_replies() {
    let table = catch().table(3).unwrap();
    let position = table.position(0, &[5]);
    assert_eq!(table.affordable(position), [0, 1]);
    assert_eq!(table.ranks[position], NEVER);
    assert_eq!(table.reply(position, 1), 4);
    assert_eq!(table.reply(position, 0), 0);
}

/// Catch and a seventh row, `always,2,0,1`.
#[test]
fn catch_has_its_seventh_row() {
    let job = jobs::catch_with_always();
    assert_eq!(block::check(&job), 0);
    let solved = Solved::of(&job);
    assert_eq!(solved.sets[6], 1);
    assert_eq!(splits::label(&solved.structure)[6], 1);
    let table = solved.table(6).unwrap();
    assert_eq!(table.moves[table.full_stock(0)], 4);
}

/// Section 2.4 of document 003.
#[test]
fn sensor_has_the_truths_of_the_paper() {
    let solved = Solved::of(&jobs::load("sensor.job"));
    assert_eq!(splits::label(&solved.structure), solved.sets);
    for row in [3, 5, 7] {
        assert!(solved.sets[row] & 1 == 1, "row {row} in state 0");
    }
    assert!(solved.sets[4] & 1 == 0, "row 4 in state 0");
}
