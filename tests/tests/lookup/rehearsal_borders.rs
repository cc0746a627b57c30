//! The refusals of rehearsals on both sides of their borders and in their order; those
//! of all calls at positions are tried with these.

use super::allowance_borders::each_kind;
use super::*;
use rbatl_tests::damage::whole_and_damaged;
use rbatl_tests::layout::*;
use rbatl_tests::model::SCRIPT_BYTES;

/// Rows and states of Catch: won, not won, an absent state, a row without a table and
/// an absent one.
const CHOICES: [(u8, u8); 5] = [(4, 0), (3, 0), (4, 3), (1, 0), (6, 255)];

/// Number 1 comes before the block's number, the row, the state and the replies, and
/// leaves report and room.
#[test]
fn report_lengths() {
    for (block, number) in whole_and_damaged() {
        let asked = Asked::patterned(&block, format!("damage {number}"));
        for length in [0, 1, 2, 3, 5, 6, 8, 24, 255, 256, BLOCK_BYTES, ROOM_BYTES] {
            for (row, state) in CHOICES {
                for script in [&[][..], &[0, 0], &[255]] {
                    let (answer, _) = asked.rehearse_in(length, row, state, script);
                    assert_eq!(answer, -1, "{length} bytes, {}", asked.what);
                }
            }
        }
        let (answer, _) = asked.rehearse_in(REPORT_BYTES, 4, 0, &[]);
        assert_eq!(answer, -i32::from(number), "{}", asked.what);
    }
}

/// A script of 255 bytes is read as far as it is needed, and one of 256 not at all.
#[test]
fn script_lengths() {
    for (block, number) in whole_and_damaged() {
        let asked = Asked::patterned(&block, format!("damage {number}"));
        for byte in [0, 255] {
            for length in [254, SCRIPT_BYTES] {
                let found = asked.rehearse(3, 2, &vec![byte; length]);
                let due = match number {
                    0 => Ok([1, 0, 17, 0]),
                    _ => Err(-i32::from(number)),
                };
                assert_eq!(found, due, "{length} bytes, {}", asked.what);
            }
            for length in [256, 257, 511, 512, BLOCK_BYTES, ROOM_BYTES, 65_536] {
                for (row, state) in CHOICES {
                    let found = asked.rehearse(row, state, &vec![byte; length]);
                    assert_eq!(found, Err(-1), "{length} bytes, {}", asked.what);
                }
            }
        }
    }
}

/// A report, a room and a script that have another's length.
#[test]
fn exchanged_lengths() {
    let job = jobs::catch();
    let asked = Asked::new(&job, agree::pattern(REPORT_BYTES), "exchanged");
    assert_eq!(asked.rehearse_in(ROOM_BYTES, 4, 0, &[]).0, -1);
    let asked = Asked::patterned(&job, "exchanged");
    assert_eq!(asked.rehearse_in(2, 4, 0, &[0; REPORT_BYTES]).0, -1);
}

/// Number 8 for kinds without a table and for rows from F on, also where the state does
/// not exist; else 9 for states from M on; else 10 where left and right hold nowhere,
/// and no other; else 12 for a byte that is no reply, if its turn comes.
#[test]
fn rows_and_states() {
    for (states, won) in [1, 2, 23, 24]
        .map(|states| [(states, true), (states, false)])
        .concat()
    {
        let mut job = each_kind(states);
        let operand = if won { 2 } else { 0 };
        (4..7).for_each(|i| job[row(i, LEFT)] = operand);
        job[row(6, RIGHT)] = operand;
        let asked = Asked::patterned(&job, format!("{states} states"));
        for i in 0..=u8::MAX {
            for state in [0, states - 1, states, states + 1, 24, 128, 255] {
                let refusal = match state < states {
                    _ if !(4..7).contains(&i) => Some(-8),
                    false => Some(-9),
                    true => (!won).then_some(-10),
                };
                let what = format!("row {i}, state {state} of {states}");
                for script in [&[][..], &[0], &[1], &[255, 0]] {
                    let found = asked.rehearse(i, state as u8, script);
                    let wrong = i != 6 && script.first().is_some_and(|&reply| reply != 0);
                    let due = refusal.or(wrong.then_some(-12));
                    assert_eq!(found.err(), due, "{what}");
                }
            }
        }
    }
}

/// On one side of what the coalition can just pay for there is a rehearsal, and on the
/// other 10, script empty or not, right or wrong.
#[test]
fn sides() {
    let mut job = jobs::catch();
    for (i, state, from) in [(3, 1, 3), (4, 1, 3), (4, 0, 5), (5, 1, 3), (3, 2, 0)] {
        for bound in 0..=MAX_BOUND {
            job[row(i, BOUND)] = bound;
            let asked = Asked::patterned(&job, format!("row {i} within {bound}"));
            for script in [&[][..], &[0], &[0, 0], &[255], &[0; 255], &[255; 255]] {
                let found = asked.rehearse(i as u8, state, script);
                assert_eq!(found == Err(-10), bound < from, "{}", asked.what);
            }
        }
    }
}

/// Agents with so many actions in state 0 and in state 1, of which every joint action
/// leads to the other. In row 2 the coalition has to keep up what always holds.
fn swing(coalition: u8, counts: &[[u8; 2]]) -> Vec<u8> {
    let mut job = jobs::smallest(counts.len(), 1, 2, 1, 3);
    for state in 0..2 {
        for (agent, actions) in counts.iter().enumerate() {
            job[count(state, agent)] = actions[state];
        }
        let joints: Vec<usize> = joint_actions(&job, state).collect();
        joints
            .into_iter()
            .for_each(|joint| job[next(state, joint)] = 1 - state as u8);
    }
    job[row(1, KIND)] = NOT;
    for (field, value) in [(KIND, ALWAYS), (LEFT, 1), (COALITION, coalition)] {
        job[row(2, field)] = value;
    }
    job
}

/// Number 12 for a digit at or above the agent's count in the state where its turn
/// comes, a digit of the coalition's or of an absent agent, and a number above 63: as
/// the first byte, the second and the third.
fn expect_replies(coalition: u8, counts: &[[u8; 2]]) {
    let job = swing(coalition, counts);
    let asked = Asked::patterned(&job, format!("coalition {coalition} of {counts:?}"));
    let limit = |agent: usize, state: usize| match counts.get(agent) {
        Some(actions) if coalition >> agent & 1 == 0 => actions[state].into(),
        _ => 1,
    };
    for (before, byte) in (0..3).flat_map(|k| (0..=u8::MAX).map(move |byte| (k, byte))) {
        let digits = actions(byte.into());
        let available = (0..MAX_AGENTS).all(|agent| digits[agent] < limit(agent, before % 2));
        let due = match available {
            true => Ok([1, before as u8 + 1, (before as u8 + 1) % 2, 0]),
            false => Err(-12),
        };
        let mut script = vec![0; before];
        script.push(byte);
        let what = format!("{}, {script:?}", asked.what);
        assert_eq!(asked.rehearse(2, 0, &script), due, "{what}");
    }
}

#[test]
fn replies() {
    let counts = [[2, 4], [3, 1], [4, 2]];
    for agents in 1..=MAX_AGENTS {
        for coalition in 1..1 << agents {
            expect_replies(coalition, &counts[..agents]);
            expect_replies(coalition, &vec![[4, 4]; agents]);
        }
    }
}

/// The first wrong byte refuses, however many follow, and none that comes later saves
/// the script.
#[test]
fn wrong_at_each_place() {
    let job = swing(1, &[[2, 3], [3, 4]]);
    let asked = Asked::patterned(&job, "a swing");
    let right: Vec<u8> = (0..SCRIPT_BYTES).map(|k| [8, 12][k % 2]).collect();
    assert_eq!(asked.rehearse(2, 0, &right), Ok([1, 255, 1, 0]));
    for place in 0..SCRIPT_BYTES {
        let mut wrong = right.clone();
        wrong[place] = [12, 16][place % 2];
        assert_eq!(asked.rehearse(2, 0, &wrong), Err(-12), "byte {place}");
        wrong[place..].fill(255);
        assert_eq!(asked.rehearse(2, 0, &wrong), Err(-12), "from byte {place}");
        let due = Ok([1, place as u8, place as u8 % 2, 0]);
        assert_eq!(asked.rehearse(2, 0, &wrong[..place]), due, "{place} bytes");
    }
}
