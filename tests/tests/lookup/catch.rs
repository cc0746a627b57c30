//! Catch, as document 01 has it.

use super::*;
use rbatl_tests::jobs::{self, catch};
use rbatl_tests::layout::*;

/// Starred cases 11 and 12: agent 1 holds agent 0 back by its action 1, and so
/// the opponents win there.
#[test]
fn replies_of_row_3() {
    let job = catch();
    let asked = Asked::patterned(&job, "Catch");
    assert_eq!(asked.reply(at(3, 0, [5, 0]), 1), 4);
    assert_eq!(asked.reply(at(3, 0, [5, 0]), 0), 0);
    assert_eq!(asked.coalition_move(at(3, 0, [5, 0])), -10);
}

/// Starred case 13, with the seventh row `always,2,0,1`.
#[test]
fn move_of_the_seventh_row() {
    let job = jobs::catch_with_always();
    let asked = Asked::patterned(&job, "Catch with a seventh row");
    assert_eq!(asked.coalition_move(at(6, 0, [0, 0])), 4);
    assert_eq!(asked.reply(at(6, 0, [0, 0]), 4), -10);
    assert_eq!(asked.coalition_move(at(6, 1, [0, 0])), -10);
    assert_eq!(asked.reply(at(6, 1, [0, 0]), 0), 1);
    assert_eq!(asked.reply(at(6, 2, [0, 0]), 0), 0);
}

/// The examples of the table of refusals.
#[test]
fn refusals_of_document_01() {
    let job = catch();
    let asked = Asked::patterned(&job, "Catch");
    assert_eq!(asked.coalition_move(at(1, 0, [0, 0])), -8);
    assert_eq!(asked.reply(at(1, 0, [0, 0]), 0), -8);
    assert_eq!(asked.coalition_move(at(3, 1, [6, 0])), -9);
    assert_eq!(asked.reply(at(3, 1, [6, 0]), 0), -9);
    assert_eq!(asked.coalition_move(at(3, 0, [5, 0])), -10);
    assert_eq!(asked.reply(at(3, 0, [1, 0]), 1), -11);
}

/// Rows 3 to 5 at each state and stock: the move, or 10.
#[test]
fn moves_of_every_position() {
    let job = catch();
    let asked = Asked::patterned(&job, "Catch");
    for (row, bound, from) in [(3, 5, 6), (4, 5, 5), (5, 4, 6)] {
        for stock in 0..=bound {
            let found = |state| asked.coalition_move(at(row, state, [stock, 0]));
            assert_eq!(found(0), if stock >= from { 1 } else { -10 }, "row {row}");
            assert_eq!(found(1), if stock >= 3 { 1 } else { -10 }, "row {row}");
            assert_eq!(found(2), 0, "row {row}");
        }
    }
}

/// Row 3 at state 0 with each number for the move. Agent 1 is outside the
/// coalition, and action 1 of agent 0 costs 2. Only with 3 left does the
/// coalition win from state 1, so that agent 1 must act.
#[test]
fn replies_to_every_number() {
    let job = catch();
    let asked = Asked::patterned(&job, "Catch");
    for stock in 0..=5 {
        for mv in 0..=u8::MAX {
            let expected = match (mv, stock) {
                (0, _) | (1, 2..=4) => 0,
                (1, 5) => 4,
                _ => -11,
            };
            let found = asked.reply(at(3, 0, [stock, 0]), mv);
            assert_eq!(found, expected, "move {mv} with {stock}");
        }
    }
}

/// Row 4, with nobody outside the coalition: every reply is 0.
#[test]
fn replies_of_nobody() {
    let job = catch();
    let asked = Asked::patterned(&job, "Catch");
    for stock in 0..=4 {
        for mv in 0..=u8::MAX {
            let expected = match (mv, stock) {
                (0 | 4, _) | (1 | 5, 2..=4) => 0,
                _ => -11,
            };
            let found = asked.reply(at(4, 0, [stock, 0]), mv);
            assert_eq!(found, expected, "move {mv} with {stock}");
        }
    }
}

/// Positions of rows 3 and 4, one of them twice, and of none: the words, lowest byte
/// first, are the move, 256 + 9 or 256 + 10.
#[test]
fn worksheets() {
    let job = catch();
    let asked = Asked::patterned(&job, "Catch");
    let list = [
        [0, 5, 0],
        [0, 4, 0],
        [1, 3, 0],
        [2, 0, 0],
        [3, 0, 0],
        [1, 6, 0],
        [1, 3, 1],
        [0, 5, 0],
    ];
    let words = |row| asked.worksheet(row, &list.concat(), 16);
    let due = [1, 0, 10, 1, 1, 0, 0, 0, 9, 1, 9, 1, 9, 1, 1, 0];
    assert_eq!(words(4), (0, due.to_vec()));
    let due = [10, 1, 10, 1, 1, 0, 0, 0, 9, 1, 9, 1, 9, 1, 10, 1];
    assert_eq!(words(3), (0, due.to_vec()));
}

/// Agent 1's move in the seventh row is 4.
#[test]
fn worksheet_of_the_seventh_row() {
    let job = jobs::catch_with_always();
    let asked = Asked::patterned(&job, "Catch with a seventh row");
    let list = [1, 0, 0, 0, 0, 0, 2, 0, 0, 0, 1, 0];
    let due = vec![10, 1, 4, 0, 10, 1, 9, 1];
    assert_eq!(asked.worksheet(6, &list, 8), (0, due));
}

/// From state 0 with 5 the two agents pay 2 and then 3. Nobody is outside the
/// coalition, so that 0 is the only reply; what comes after the second is not read.
#[test]
fn rehearsals_of_row_4() {
    let job = catch();
    let asked = Asked::patterned(&job, "Catch");
    let found = |script: &[u8]| asked.rehearse(4, 0, script);
    assert_eq!(found(&[]), Ok([0, 0, 5, 0]));
    assert_eq!(found(&[0]), Ok([0, 1, 9, 0]));
    assert_eq!(found(&[0, 0]), Ok([1, 2, 12, 0]));
    assert_eq!(found(&[0, 0, 255]), Ok([1, 2, 12, 0]));
    assert_eq!(found(&[0; 255]), Ok([1, 2, 12, 0]));
    assert_eq!(found(&[0; 256]), Err(-1));
    for wrong in 1..=u8::MAX {
        assert_eq!(found(&[wrong, 0]), Err(-12), "{wrong}");
        assert_eq!(found(&[0, wrong]), Err(-12), "{wrong}");
    }
}

/// Agent 0 alone does not win from state 0, and from state 1, where agent 1 has one
/// action, it does; in state 2 the row is met before any move.
#[test]
fn rehearsals_of_row_3() {
    let job = catch();
    let asked = Asked::patterned(&job, "Catch");
    assert_eq!(asked.rehearse(3, 0, &[]), Err(-10));
    assert_eq!(asked.rehearse(3, 0, &[255]), Err(-10));
    assert_eq!(asked.rehearse(3, 1, &[]), Ok([0, 0, 11, 0]));
    assert_eq!(asked.rehearse(3, 1, &[0]), Ok([1, 1, 14, 0]));
    assert_eq!(asked.rehearse(3, 1, &[4]), Err(-12));
    assert_eq!(asked.rehearse(3, 2, &[]), Ok([1, 0, 17, 0]));
    assert_eq!(asked.rehearse(3, 2, &[255; 255]), Ok([1, 0, 17, 0]));
}

/// Agent 1 holds agent 0 back for as long as the script goes on, whichever of its two
/// actions agent 0 takes.
#[test]
fn rehearsals_of_the_seventh_row() {
    let job = jobs::catch_with_always();
    let asked = Asked::patterned(&job, "Catch with a seventh row");
    let script: Vec<u8> = (0..=255).map(|k| k % 2).collect();
    for moves in 0..=u8::MAX {
        let found = asked.rehearse(6, 0, &script[..moves.into()]);
        assert_eq!(found, Ok([1, moves, 0, 0]));
    }
    assert_eq!(asked.rehearse(6, 0, &script), Err(-1));
    assert_eq!(asked.rehearse(6, 0, &[1, 0, 2]), Err(-12));
    assert_eq!(asked.rehearse(6, 0, &[1, 0, 4]), Err(-12));
    assert_eq!(asked.rehearse(6, 1, &[]), Err(-10));
}

/// The seventh row as `next,1,4,0`: one move, and what it leaves of the 4.
#[test]
fn rehearsals_of_next() {
    let mut job = jobs::catch_with_always();
    for (field, value) in [(KIND, NEXT), (LEFT, 0), (COALITION, 1), (BOUND, 4)] {
        job[row(6, field)] = value;
    }
    let asked = Asked::patterned(&job, "Catch with a next row");
    assert_eq!(asked.rehearse(6, 1, &[]), Ok([0, 0, 9, 0]));
    assert_eq!(asked.rehearse(6, 1, &[0]), Ok([1, 1, 11, 0]));
    assert_eq!(asked.rehearse(6, 1, &[0, 255]), Ok([1, 1, 11, 0]));
    assert_eq!(asked.rehearse(6, 1, &[4]), Err(-12));
    assert_eq!(asked.rehearse(6, 2, &[0]), Ok([1, 1, 14, 0]));
    assert_eq!(asked.rehearse(6, 0, &[0]), Err(-10));
}
