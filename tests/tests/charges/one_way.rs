//! Rings of full size whose one way is as long as it can be: ranks in the thousands, up
//! to some positions below all of them.

use super::*;
use rbatl_tests::games;

/// The ring has 23 states, and so has a pass.
const PASS: u16 = MAX_STATES as u16 - 1;

/// The largest finite rank of the row.
fn longest(job: &[u8]) -> u16 {
    let ranks = Asked::of(job).table(2).ranks;
    let finite = ranks.into_iter().filter(|&rank| rank != NEVER);
    finite.max().expect("a finite rank")
}

/// A pass for each unit that is charged or spent, and the last on the way out.
#[test]
fn of_two_stocks() {
    for (coalition, rising) in [(1, true), (6, false)] {
        for swapped in [false, true] {
            let until = games::long_way(UNTIL, coalition, rising, swapped);
            assert_eq!(longest(&until), 15 * (15 + 1) * PASS + PASS);
            let always = games::long_way(ALWAYS, coalition, rising, swapped);
            assert_eq!(longest(&always), (15 + 15 * (1 + 15)) * PASS + PASS);
        }
    }
}

/// A cradle that gives a unit for each pass, or takes one less than it gives.
#[test]
fn of_one_cradle() {
    for (coalition, rising) in [(2, true), (5, false)] {
        for job in [UNTIL, ALWAYS].map(|kind| games::cradle_ring(kind, coalition, rising)) {
            for job in [job.clone(), jobs::with_one_resource(job)] {
                let passes = longest(&job) / PASS;
                assert!((14..=16).contains(&passes), "{passes} passes");
            }
        }
    }
}

/// At full stock the way out is paid at the first pass, which leaves nothing; an always
/// row that is lost after thousands of moves is not rehearsed.
#[test]
fn rehearsed() {
    let asked = Asked::of(&games::cradle_ring(UNTIL, 1, true));
    let end = (MAX_STATES as u16 - 1) * 256;
    let [low, high] = end.to_le_bytes();
    let found = asked.rehearse(2, 0, &[0; SCRIPT_BYTES]);
    assert_eq!(found, (0, [1, PASS as u8, low, high]));
    let lost = Asked::of(&games::long_way(ALWAYS, 1, true, false));
    assert_eq!(lost.rehearse(2, 0, &[0; SCRIPT_BYTES]).0, -10);
}
