//! jobs/minutes.job, whose minutes are of kind max, beside jobs/minutes-sum.job.

use super::*;
use rbatl_tests::jobs;

/// Both people within 5 units of charge and 5 minutes.
const TOGETHER: u8 = 3;
/// The same within 8 minutes, one alone, and without a bound of minutes.
const EIGHT_MINUTES: u8 = 4;
const ALONE: u8 = 5;
const ANY_MINUTES: u8 = 6;

fn both() -> [Asked; 2] {
    ["minutes.job", "minutes-sum.job"].map(|name| Asked::of(&jobs::load(name)))
}

/// The people measure both ends at once, in 3 minutes, and compare in 2; summed,
/// that is 8.
#[test]
fn one_row_differs() {
    let [max, sum] = both();
    let (max, sum) = (max.sets(), sum.sets());
    assert_eq!(max[..7], [16, 15, 31, 25, 25, 24, 25]);
    for (row, (max, sum)) in max.into_iter().zip(sum).enumerate() {
        let due = if row == usize::from(TOGETHER) {
            24
        } else {
            max
        };
        assert_eq!(sum, due, "row {row}");
    }
}

/// Where one agent plays, and where minutes have no bound, a whole table is the
/// same; where minutes have a bound, and both play, it is not.
#[test]
fn tables() {
    let [max, sum] = both();
    for row in [ALONE, ANY_MINUTES] {
        assert!(max.table(row) == sum.table(row), "row {row}");
    }
    for row in [TOGETHER, EIGHT_MINUTES] {
        assert!(max.table(row) != sum.table(row), "row {row}");
    }
}

/// In state 0 at full stock the people have a move, action 1 of both, and with
/// summed minutes none.
#[test]
fn moves() {
    let stock = [5, 5];
    let at = At {
        row: TOGETHER,
        state: 0,
        stock,
    };
    let [max, sum] = both();
    let room = agree::pattern(ROOM_BYTES);
    let played = |asked: &Asked| {
        let what = || "minutes".to_string();
        agree::coalition_move(&asked.block, &asked.model, at, &room, what).answer
    };
    assert_eq!(played(&max), 1 + 4);
    assert_eq!(played(&sum), -10);
    // That move takes 3 minutes, which a stock of 3 pays, and summed 6.
    let reply = |asked: &Asked, minutes| {
        let at = At {
            stock: [5, minutes],
            ..at
        };
        let what = || "minutes".to_string();
        agree::reply(&asked.block, &asked.model, at, 5, &room, what).answer
    };
    assert_eq!((reply(&max, 3), reply(&max, 2)), (0, -11));
    assert_eq!((reply(&sum, 5), reply(&sum, 3)), (-11, -11));
}

/// Alone the electrician does not win in state 0: the plant switches the load.
#[test]
fn one_person_alone() {
    for asked in both() {
        let room = agree::pattern(ROOM_BYTES);
        let at = At {
            row: ALONE,
            state: 1,
            stock: [5, 5],
        };
        let what = || "minutes".to_string();
        let outcome = agree::reply(&asked.block, &asked.model, at, 0, &room, what);
        assert_eq!(outcome.answer, 0);
        let at = At {
            stock: [2, 6],
            ..at
        };
        let outcome = agree::reply(&asked.block, &asked.model, at, 1, &room, what);
        assert_eq!(outcome.answer, -9, "6 minutes are above the bound");
    }
}
