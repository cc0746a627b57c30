//! The refusals of the smallest allowances on both sides of their borders and in
//! their order; those of all calls at positions are tried with these.

use super::*;
use rbatl_tests::damage::whole_and_damaged;
use rbatl_tests::layout::*;

/// Number 1 comes before the block's number, the row and the state, and leaves list
/// and room.
#[test]
fn list_lengths() {
    for (block, number) in whole_and_damaged() {
        let asked = Asked::patterned(&block, format!("damage {number}"));
        for length in [
            0,
            1,
            2,
            16,
            24,
            31,
            33,
            34,
            64,
            128,
            BLOCK_BYTES,
            ROOM_BYTES,
        ] {
            for (row, state) in [(4, 0), (4, 3), (1, 0), (6, 255)] {
                let (answer, _) = asked.allowances_in(length, row, state);
                assert_eq!(answer, -1, "{length} bytes, {}", asked.what);
            }
        }
        let (answer, _) = asked.allowances_in(ALLOWANCES_BYTES, 4, 0);
        assert_eq!(answer == -i32::from(number), number != 0, "{}", asked.what);
    }
}

/// A list and a room that have each other's length.
#[test]
fn exchanged_lengths() {
    let job = jobs::catch();
    let asked = Asked::new(&job, agree::pattern(ALLOWANCES_BYTES), "exchanged");
    assert_eq!(asked.allowances_in(ROOM_BYTES, 4, 0).0, -1);
}

/// A row of each kind, in a job of this many states.
pub fn each_kind(states: usize) -> Vec<u8> {
    let mut job = jobs::smallest(1, 1, states, 1, 7);
    for kind in PROP..=UNTIL {
        let i = 1 + usize::from(kind);
        job[row(i, KIND)] = kind;
        job[row(i, COALITION)] = u8::from(is_strategic(kind));
    }
    job
}

/// Number 8 for kinds without bounds and for rows from F on, also where the state
/// does not exist; else 9 for states from M on, and no other.
#[test]
fn rows_and_states() {
    for states in [1, 2, 23, 24] {
        let job = each_kind(states);
        let asked = Asked::patterned(&job, format!("{states} states"));
        for i in 0..=u8::MAX {
            let strategic = (4..7).contains(&i);
            for state in [0, states - 1, states, states + 1, 24, 128, 255] {
                let due = match state < states {
                    _ if !strategic => -8,
                    true => 0,
                    false => -9,
                };
                let (answer, _) = asked.allowances_in(ALLOWANCES_BYTES, i, state as u8);
                let what = format!("row {i}, state {state} of {states}");
                assert_eq!(answer.min(0), due, "{what}");
            }
        }
    }
}
