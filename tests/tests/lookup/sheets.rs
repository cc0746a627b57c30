//! Worksheets of random jobs, whole and damaged, small and of full size: their words
//! are what single calls answer, one after another.

use super::*;
use rbatl_tests::damage::BORDERS;
use rbatl_tests::ffi;
use rbatl_tests::layout::*;
use rbatl_tests::model::{POSITION_BYTES, SHEET_POSITIONS, WORD_REFUSED};
use rbatl_tests::random::{any_block, cases};

const SEED: u64 = 0x73_6865_6574;
const CASES: u64 = 600;
const FULL_CASES: u64 = 12;

/// Answers of the call by number; for each strategic kind words by the number of
/// their refusal, or 0; and positions that stood in the list before.
#[derive(Default, Debug)]
struct Seen {
    answers: Counts,
    words: [Counts; 3],
    repeated: u64,
}

/// A position of the row, or now and then one beside them; any bytes where the row
/// has no table.
fn any_position(rng: &mut Rng, asked: &Asked, row: u8) -> [u8; POSITION_BYTES] {
    let Some(found) = asked.model.row(row) else {
        return [rng.byte(), rng.byte(), rng.byte()];
    };
    let states = Sizes::of(asked.block).states;
    let [first, second] = found.largest.map(|most| rng.within(0..=most.into()) as u8);
    let mut position = [rng.below(states) as u8, first, second];
    if rng.one_in(8) {
        let limits = [states as u8, found.largest[0] + 1, found.largest[1] + 1];
        let place = rng.below(POSITION_BYTES);
        position[place] = match rng.one_in(2) {
            true => limits[place],
            false => rng.pick(&BORDERS),
        };
    }
    position
}

/// Up to 64 positions, often as many as can be, some of which stand twice.
fn any_list(rng: &mut Rng, asked: &Asked, row: u8) -> Vec<[u8; POSITION_BYTES]> {
    let length = match rng.below(4) {
        0 => SHEET_POSITIONS,
        _ => rng.within(0..=SHEET_POSITIONS),
    };
    let mut list: Vec<[u8; POSITION_BYTES]> = Vec::new();
    while list.len() < length {
        let position = match rng.one_in(6) && !list.is_empty() {
            true => rng.pick(&list),
            false => any_position(rng, asked, row),
        };
        list.push(position);
    }
    list
}

impl Seen {
    /// The worksheet, beside a single call of the library for each of its words.
    fn sheet(&mut self, asked: &Asked, row: u8, list: &[[u8; POSITION_BYTES]]) {
        let (answer, words) = asked.worksheet(row, &list.concat(), 2 * list.len());
        self.answers[number(answer)] += 1;
        if answer < 0 {
            return;
        }
        for (k, (word, &[state, first, second])) in words.chunks(2).zip(list).enumerate() {
            let word = u16::from_le_bytes([word[0], word[1]]);
            let mut room = asked.room.clone();
            let at = at(row, state, [first, second]);
            let single = ffi::coalition_move(asked.block, at, &mut room);
            let due = match u16::try_from(single) {
                Ok(mv) => mv,
                Err(_) => WORD_REFUSED + number(single) as u16,
            };
            assert_eq!(word, due, "{}: word {k}, {at:?}", asked.what);
            self.words[kind(asked.block, row)][number(single)] += 1;
            self.repeated += u64::from(list[..k].contains(&list[k]));
        }
    }

    /// Moves, 9 and 10 in rows of each kind, each so often, and positions that stood
    /// twice.
    fn assert_each_word_came(&self, least: u64) {
        for words in &self.words {
            assert_each_came(words, &[0, 9, 10], least);
        }
        assert!(self.repeated >= least, "{self:?}");
    }
}

fn try_any(rng: &mut Rng, asked: &Asked, seen: &mut Seen) {
    let row = any_row(rng, &asked.model);
    let list = any_list(rng, asked, row);
    seen.sheet(asked, row, &list);
}

#[test]
fn whole_jobs() {
    let mut seen = Seen::default();
    let make = |rng: &mut Rng, case: u64| match case % 20 {
        0 => whole(any_block)(rng, case),
        1..=10 => whole(games::few)(rng, case),
        _ => whole(games::small)(rng, case),
    };
    ask_each(SEED, cases(CASES), make, |rng, asked| {
        try_any(rng, asked, &mut seen)
    });
    assert_each_came(&seen.answers, &[0, 8], cases(CASES) / 50);
    seen.assert_each_word_came(cases(CASES) / 4);
}

/// Lists of every count, on all rows of a job.
#[test]
fn every_count() {
    let mut seen = Seen::default();
    let mut counts = 0..=SHEET_POSITIONS;
    let jobs = SHEET_POSITIONS as u64 + 1;
    ask_each(SEED ^ 1, jobs, whole(games::few), |rng, asked| {
        let count = counts.next().expect("one for each job");
        for row in asked.model.rows() {
            let list: Vec<_> = (0..count).map(|_| any_position(rng, asked, row)).collect();
            seen.sheet(asked, row, &list);
        }
    });
    seen.assert_each_word_came(50);
}

#[test]
fn damaged_jobs() {
    let mut seen = Seen::default();
    ask_each(SEED ^ 2, cases(CASES), damaged, |rng, asked| {
        try_any(rng, asked, &mut seen)
    });
    assert_each_came(&seen.answers, &[0, 1, 2, 3, 4, 5, 6, 8], cases(CASES) / 200);
    assert_each_came(&seen.answers, &[13], 1);
    // No call on a block answers 7; 9 and 10 stand in words.
    assert_none_came(&seen.answers, &[7, 9, 10, 11, 12]);
}

#[test]
fn job_files() {
    let mut seen = Seen::default();
    let files = jobs::names().len() as u64;
    ask_each(SEED ^ 3, files, job_file, |rng, asked| {
        (0..5).for_each(|_| try_any(rng, asked, &mut seen))
    });
    assert_each_came(&seen.answers, &[0], 10);
}

/// 6,144 positions in every strategic row.
#[test]
fn full_jobs() {
    let mut seen = Seen::default();
    let jobs = FULL_CASES.max(cases(CASES) / 100);
    ask_each(SEED ^ 4, jobs, whole(games::full), |rng, asked| {
        for row in asked.model.rows() {
            let list = any_list(rng, asked, row);
            seen.sheet(asked, row, &list);
        }
    });
    seen.assert_each_word_came(FULL_CASES / 2);
}
