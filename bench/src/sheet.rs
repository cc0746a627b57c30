//! A worksheet of 64 positions beside one single move, and one reply.

use crate::cases::{Case, ROW};
use crate::{timing, Buffers};
use rbatl_tests::ffi;
use rbatl_tests::layout::MAX_BOUND;
use rbatl_tests::model::{At, ROOM_BYTES, SHEET_POSITIONS, WORD_REFUSED};

/// A little more than a 64th of all positions, so that both stocks vary.
const STRIDE: usize = 97;

/// Stock places of each resource.
const PLACES: usize = MAX_BOUND as usize + 1;

/// Positions spread over all states and stocks.
pub fn positions() -> [At; SHEET_POSITIONS] {
    std::array::from_fn(|k| {
        let position = STRIDE * k;
        let (place, row) = (position / PLACES, ROW as u8);
        let state = (place / PLACES) as u8;
        let stock = [place % PLACES, position % PLACES].map(|stock| stock as u8);
        At { row, state, stock }
    })
}

/// The list of the worksheet.
pub fn list() -> Vec<u8> {
    let bytes = |at: At| [at.state, at.stock[0], at.stock[1]];
    positions().into_iter().flat_map(bytes).collect()
}

/// The times of a worksheet, of a single move at one of its positions and of a reply.
pub struct Times {
    pub sheet: f64,
    pub single: f64,
    pub reply: f64,
    /// Positions of the worksheet that are won.
    pub won: usize,
}

/// Its words must be the single calls'. The single move that is timed is at a
/// position that is won, if there is one, where there is more to do.
pub fn measure(case: &Case) -> Times {
    let [mut first, mut second, mut third] = [(); 3].map(|()| Buffers::new());
    let list = list();
    first.worksheet(&case.job, &list);
    let due = single_words(&case.job);
    assert!(first.words == due.concat(), "{}: words", case.name);
    let wins = |word: &[u8; 2]| word[1] == 0;
    let at = positions()[due.iter().position(wins).unwrap_or(0)];
    let [sheet, single, reply] = timing::best_of([
        &mut || first.worksheet(&case.job, &list),
        &mut || second.coalition_move(&case.job, at),
        &mut || third.reply(&case.job),
    ]);
    Times {
        sheet,
        single,
        reply,
        won: due.into_iter().filter(wins).count(),
    }
}

/// What single moves give, as words.
fn single_words(job: &[u8]) -> Vec<[u8; 2]> {
    let mut room = vec![0; ROOM_BYTES];
    let words = positions().map(|at| match ffi::coalition_move(job, at, &mut room) {
        refused @ ..0 => WORD_REFUSED + refused.unsigned_abs() as u16,
        mv => mv as u16,
    });
    words.map(u16::to_le_bytes).to_vec()
}
