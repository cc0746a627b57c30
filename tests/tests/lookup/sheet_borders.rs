//! The lengths of a worksheet on both sides of their borders, and the refusals that
//! its words have.

use super::*;
use rbatl_tests::jobs::catch;
use rbatl_tests::layout::STATES;
use rbatl_tests::model::POSITION_BYTES;

/// Lists of every length, beside words of lengths that match and that do not; a
/// length that is wrong comes before the block's number and before the row.
#[test]
fn list_and_word_lengths() {
    let (whole, bytes) = (catch(), [0, 5, 0, 7, 1, 3].repeat(34));
    let mut damaged = whole.clone();
    damaged[STATES] = 25;
    let asked = [&whole, &damaged].map(|job| Asked::patterned(job, "Catch"));
    for list in (0..=200).map(|length| &bytes[..length]) {
        let right = 2 * (list.len() / POSITION_BYTES);
        let near = right.saturating_sub(3)..=right + 3;
        for words in near.chain([0, 1, list.len(), 128, 256]) {
            let is_sheet = list.len() <= 192 && list.len() % 3 == 0 && 3 * words == 2 * list.len();
            let what = format!("{} bytes, {words} of words", list.len());
            let found = |i: usize, row| asked[i].worksheet(row, list, words).0;
            assert_eq!(found(0, 4), if is_sheet { 0 } else { -1 }, "{what}");
            assert_eq!(found(0, 1), if is_sheet { -8 } else { -1 }, "{what}");
            assert_eq!(found(1, 255), if is_sheet { -2 } else { -1 }, "{what}");
        }
    }
}

/// 63, 64 and 65 positions, and lists far too long.
#[test]
fn counts_of_positions() {
    let job = catch();
    let asked = Asked::patterned(&job, "Catch");
    for count in [63, 64, 65, 66, 128, 256, 4096] {
        let list = [1, 3, 0].repeat(count);
        let (answer, words) = asked.worksheet(4, &list, 2 * count);
        assert_eq!(answer, if count <= 64 { 0 } else { -1 }, "{count}");
        assert!(answer < 0 || words == [1, 0].repeat(count), "{count}");
    }
}

/// Positions of none and positions that are not won refuse no worksheet: 9 and 10
/// stand in their words, alone, together and beside a move.
#[test]
fn words_that_refuse() {
    let job = catch();
    let asked = Asked::patterned(&job, "Catch");
    let (outside, lost, won) = ([3, 0, 0], [0, 4, 0], [0, 5, 0]);
    let words = |list: &[[u8; 3]]| asked.worksheet(4, &list.concat(), 2 * list.len());
    assert_eq!(words(&[outside]), (0, vec![9, 1]));
    assert_eq!(words(&[lost]), (0, vec![10, 1]));
    assert_eq!(words(&[outside, lost]), (0, vec![9, 1, 10, 1]));
    assert_eq!(words(&[lost, won]), (0, vec![10, 1, 1, 0]));
    assert_eq!(words(&[won, outside]), (0, vec![1, 0, 9, 1]));
    assert_eq!(words(&[outside; 64]), (0, [9, 1].repeat(64)));
    assert_eq!(words(&[lost; 64]), (0, [10, 1].repeat(64)));
}
