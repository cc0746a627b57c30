//! The lister of states: the list to the byte, each refusal in its order; a refusal
//! changes nothing but the room, and number 1 not even that.

use super::borders::{each_changed_byte, misfits, other_lengths};
use super::*;
use rbatl_tests::damage::whole_and_damaged;
use rbatl_tests::jobs::{self, catch};
use rbatl_tests::layout::*;

/// These states, zeros after them, and zeros in the room.
fn expect(job: &[u8], row: u8, states: &[u8]) {
    for lent in [Lent::patterned(), Lent::filled(0), Lent::filled(255)] {
        let outcome = lent.states(job, &Model::of(job), row, "a job");
        let (list, room) = outcome.buffer.split_at(STATES_BYTES);
        assert_eq!(outcome.answer, states.len() as i32, "row {row}");
        assert_eq!(&list[..states.len()], states, "row {row}");
        assert!(list[states.len()..].iter().all(|&byte| byte == 0));
        assert!(room.iter().all(|&byte| byte == 0));
    }
}

fn refused(block: &[u8], model: &Model, row: u8, lent: &Lent, expected: u8, what: &str) {
    let outcome = lent.states(block, model, row, what);
    assert_eq!(outcome.answer, -i32::from(expected), "{what}");
    let (list, room) = outcome.buffer.split_at(lent.list.len());
    assert!(list == lent.list, "{what}: the list");
    lent.expect_room(room, expected, what);
}

#[test]
fn catch_states() {
    for (row, states) in [&[2][..], &[0, 1], &[0, 1, 2], &[1, 2], &[0, 1, 2], &[1, 2]]
        .into_iter()
        .enumerate()
    {
        expect(&catch(), row as u8, states);
    }
    expect(&jobs::catch_with_always(), 6, &[0]);
}

/// No state, all 24, and each of them alone.
#[test]
fn none_and_all() {
    let mut job = jobs::smallest(1, 1, MAX_STATES, 1, 4);
    for (i, fields) in [(1, [NOT, 0, 0]), (2, [OR, 0, 1]), (3, [NOT, 2, 0])] {
        job[row(i, 0)..row(i, 3)].copy_from_slice(&fields);
    }
    let all: Vec<u8> = (0..MAX_STATES as u8).collect();
    expect(&job, 0, &[]);
    expect(&job, 1, &all);
    expect(&job, 2, &all);
    expect(&job, 3, &[]);
    for state in all {
        job[mask(state.into())] = 1;
        expect(&job, 0, &[state]);
        job[mask(state.into())] = 0;
    }
}

#[test]
fn lengths() {
    for (block, number) in whole_and_damaged() {
        let model = Model::of(&block);
        for (place, right) in [(1, ROOM_BYTES), (4, STATES_BYTES)] {
            for (lent, what) in misfits(place, right) {
                for row in [0, 4, 6, 255] {
                    let what = format!("{what}, damage {number}");
                    refused(&block, &model, row, &lent, 1, &what);
                }
            }
        }
        for length in other_lengths(BLOCK_BYTES) {
            let mut block = block.clone();
            block.resize(length, 0);
            let what = format!("a block of {length}, {number}");
            refused(&block, &Model::of(&block), 4, &Lent::patterned(), 1, &what);
        }
    }
    let exchanged = Lent {
        list: agree::pattern(ROOM_BYTES),
        room: agree::pattern(STATES_BYTES),
        ..Lent::patterned()
    };
    refused(
        &catch(),
        &Model::of(&catch()),
        4,
        &exchanged,
        1,
        "exchanged",
    );
}

/// The block's number comes before 8, whatever row is asked for.
#[test]
fn block_numbers() {
    for (block, number) in whole_and_damaged() {
        let model = Model::of(&block);
        for row in [0, 3, 5, 6, 255] {
            if number != 0 {
                let what = format!("damage {number}");
                refused(&block, &model, row, &Lent::patterned(), number, &what);
            }
        }
    }
}

/// Every kind of row has states; number 8 from F on.
#[test]
fn row_numbers() {
    let lent = Lent::patterned();
    for name in jobs::names() {
        let block = jobs::load(&name);
        let (model, rows) = (Model::of(&block), Sizes::of(&block).rows);
        for row in 0..=u8::MAX {
            let what = format!("{name}, row {row}");
            if usize::from(row) < rows {
                assert!(lent.states(&block, &model, row, &what).answer >= 0);
            } else {
                refused(&block, &model, row, &lent, 8, &what);
            }
        }
    }
}

#[test]
fn changed_bytes() {
    let lent = Lent::patterned();
    each_changed_byte(|block, what| lent.states(block, &Model::of(block), 4, what));
}
