//! Each refusal of the calls at positions, on both sides of its border, in its
//! order.

use super::*;
use rbatl_tests::damage::whole_and_damaged;
use rbatl_tests::jobs::{self, catch};
use rbatl_tests::layout::*;
use rbatl_tests::model::{MOVES_BYTES, POSITION_BYTES, SETS_BYTES, SHEET_BYTES};
use rbatl_tests::text::TEXT_BYTES;

/// Places in Catch, each with a move: won, not won and not won with a move that
/// is none; then such as break a rule of the position, and of the row as well.
const PLACES: [(At, u8); 7] = [
    (at(3, 1, [3, 0]), 1),
    (at(3, 0, [5, 0]), 0),
    (at(3, 0, [5, 0]), 2),
    (at(3, 3, [5, 0]), 0),
    (at(3, 0, [6, 0]), 2),
    (at(1, 3, [6, 1]), 255),
    (at(255, 255, [255, 255]), 255),
];

/// Lists of a worksheet: empty, of one position, of two of which one is none, and of
/// as many as there can be.
fn lists() -> [Vec<u8>; 4] {
    let most = [[0, 5, 0], [0, 4, 0], [255, 0, 0], [1, 3, 0]].concat();
    [
        Vec::new(),
        vec![0, 5, 0],
        vec![255, 255, 255, 0, 0, 0],
        most.repeat(SHEET_BYTES / most.len()),
    ]
}

/// Worksheets of the row, each with words that match, get this answer.
fn expect_sheets(asked: &Asked, row: u8, expected: i32) {
    for list in lists() {
        let (answer, _) = asked.worksheet(row, &list, 2 * list.len() / POSITION_BYTES);
        let what = format!("{}, row {row}, {} bytes", asked.what, list.len());
        assert_eq!(answer, expected, "{what}");
    }
}

/// The calls refuse with the number at every place.
fn refused_everywhere(asked: &Asked, number: u8) {
    for (at, mv) in PLACES {
        let what = format!("{}, move {mv} at {at:?}", asked.what);
        assert_eq!(asked.coalition_move(at), -i32::from(number), "{what}");
        assert_eq!(asked.reply(at, mv), -i32::from(number), "{what}");
        let (answer, _) = asked.allowances_in(ALLOWANCES_BYTES, at.row, at.state);
        assert_eq!(answer, -i32::from(number), "{what}");
        for script in [&[][..], &[mv]] {
            let found = asked.rehearse(at.row, at.state, script);
            assert_eq!(found, Err(-i32::from(number)), "{what}");
        }
        expect_sheets(asked, at.row, -i32::from(number));
    }
}

/// Number 1 comes before the block's number, and leaves the room.
#[test]
fn room_lengths() {
    for (block, number) in whole_and_damaged() {
        let near = [ROOM_BYTES - 1, ROOM_BYTES + 1, 2 * ROOM_BYTES];
        let far = [0, 1, SETS_BYTES, BLOCK_BYTES, MOVES_BYTES, TEXT_BYTES];
        for length in near.into_iter().chain(far) {
            let what = format!("a room of {length}, damage {number}");
            refused_everywhere(&Asked::new(&block, agree::pattern(length), what), 1);
        }
    }
}

#[test]
fn block_lengths() {
    for (block, number) in whole_and_damaged() {
        let near = [BLOCK_BYTES - 1, BLOCK_BYTES + 1, 2 * BLOCK_BYTES];
        let far = [0, 1, mask(0), row(0, 0), OLD_BLOCK_BYTES, ROOM_BYTES];
        for length in near.into_iter().chain(far) {
            let mut block = block.clone();
            block.resize(length, 0);
            let what = format!("a block of {length}, damage {number}");
            refused_everywhere(&Asked::patterned(&block, &what), 1);
            let room = agree::pattern(ROOM_BYTES + 1);
            refused_everywhere(&Asked::new(&block, room, what), 1);
        }
    }
}

/// The block's number comes before 8 to 12.
#[test]
fn block_numbers() {
    for (block, number) in whole_and_damaged().into_iter().skip(1) {
        let what = format!("damage {number}");
        refused_everywhere(&Asked::patterned(&block, what), number);
    }
}

/// Number 8 for every row of every kind, at F - 1, F and beyond, also at no
/// position of the job and for an empty worksheet; never for a strategic row.
#[test]
fn row_numbers() {
    for name in jobs::names() {
        let block = jobs::load(&name);
        let asked = Asked::patterned(&block, &name);
        for i in 0..=u8::MAX {
            let exists = usize::from(i) < Sizes::of(&block).rows;
            let strategic = exists && is_strategic(block[row(i.into(), KIND)]);
            let beyond = if strategic { -9 } else { -8 };
            assert_eq!(
                asked.coalition_move(at(i, 255, [255; 2])),
                beyond,
                "row {i}"
            );
            assert_eq!(asked.reply(at(i, 255, [255; 2]), 255), beyond, "row {i}");
            let (answer, _) = asked.allowances_in(ALLOWANCES_BYTES, i, 255);
            assert_eq!(answer, beyond, "row {i}");
            assert_eq!(asked.rehearse(i, 255, &[255]), Err(beyond), "row {i}");
            let first = at(i, 0, [0, 0]);
            assert_eq!(asked.coalition_move(first) == -8, !strategic, "row {i}");
            assert_eq!(asked.reply(first, 0) == -8, !strategic, "row {i}");
            expect_sheets(&asked, i, if strategic { 0 } else { -8 });
        }
    }
}

/// Number 9 exactly where the state or a stock is out of range; it comes before
/// 10 and 11.
fn expect_positions(asked: &Asked, row: u8, states: u8, largest: [u8; 2]) {
    for state in [0, states - 1, states, 255] {
        for first in [0, largest[0], largest[0] + 1, 15, 16, 255] {
            for second in [0, largest[1], largest[1] + 1, 15, 16, 255] {
                let at = at(row, state, [first, second]);
                let outside = state >= states || first > largest[0] || second > largest[1];
                let what = format!("{}, {at:?}", asked.what);
                assert_eq!(asked.coalition_move(at) == -9, outside, "{what}");
                assert_eq!(asked.reply(at, 255) == -9, outside, "{what}");
            }
        }
    }
}

/// Two resources, each with a bound or without, and one resource.
#[test]
fn positions() {
    let largest = |bound| if bound == UNLIMITED { 0 } else { bound };
    for states in [1, 2, 24] {
        let mut job = jobs::smallest(1, 2, states.into(), 1, 2);
        job[row(1, KIND)] = NEXT;
        job[row(1, COALITION)] = 1;
        for bounds in [[15, 15], [0, 0], [7, 14], [255, 3], [3, 255], [255, 255]] {
            job[row(1, BOUND)..row(1, PADDING)].copy_from_slice(&bounds);
            let asked = Asked::patterned(&job, format!("bounds {bounds:?}"));
            expect_positions(&asked, 1, states, bounds.map(largest));
        }
    }
    let mut job = catch();
    for bound in [0, 5, 15, UNLIMITED] {
        job[row(3, BOUND)] = bound;
        let asked = Asked::patterned(&job, format!("Catch with bound {bound}"));
        expect_positions(&asked, 3, 3, [largest(bound), 0]);
    }
}

/// Number 10 on one side of what the coalition can just pay for, and on the
/// other side for the other call; it comes before 11.
#[test]
fn sides() {
    let job = catch();
    let asked = Asked::patterned(&job, "Catch");
    for (row, state, from) in [(3, 1, 3), (4, 1, 3), (4, 0, 5), (5, 1, 3), (3, 2, 0)] {
        for stock in 0..=if row == 5 { 4 } else { 5 } {
            let at = at(row, state, [stock, 0]);
            let wins = stock >= from;
            assert_eq!(asked.coalition_move(at) == -10, !wins, "{at:?}");
            for mv in [0, 1, 2, 64, 255] {
                assert_eq!(asked.reply(at, mv) == -10, wins, "{at:?}, move {mv}");
            }
        }
    }
}

/// Three agents with so many actions in state 0, free but for agent 2's last, and a
/// next row over a proposition that never holds.
fn crowd(coalition: u8, counts: [u8; 3]) -> Vec<u8> {
    let mut job = jobs::smallest(3, 1, 1, 1, 2);
    for (agent, actions) in counts.into_iter().enumerate() {
        job[count(0, agent)] = actions;
    }
    job[cost(0, 2, 3, 0)] = 6;
    for (field, value) in [(KIND, NEXT), (COALITION, coalition), (BOUND, 7)] {
        job[row(1, field)] = value;
    }
    job
}

/// Number 11 for a digit at or above the agent's count, a digit of an agent
/// outside the coalition, a number above 63, and a cost above the stock.
fn expect_moves(coalition: u8, counts: [u8; 3]) {
    let job = crowd(coalition, counts);
    let asked = Asked::patterned(&job, format!("coalition {coalition} of {counts:?}"));
    let limits: [usize; 3] = std::array::from_fn(|agent| match coalition >> agent & 1 {
        1 => counts[agent].into(),
        _ => 1,
    });
    for (stock, mv) in (5..=7).flat_map(|stock| (0..=u8::MAX).map(move |mv| (stock, mv))) {
        let digits = actions(mv.into());
        let available = (0..3).all(|agent| digits[agent] < limits[agent]);
        let pays = digits[2] < 3 || stock >= 6;
        let expected = if available && pays { 0 } else { -11 };
        let found = asked.reply(at(1, 0, [stock, 0]), mv);
        assert_eq!(found, expected, "{}, move {mv}", asked.what);
    }
}

#[test]
fn moves() {
    for coalition in 1..=7 {
        expect_moves(coalition, [2, 3, 4]);
        expect_moves(coalition, [4; 3]);
    }
}
