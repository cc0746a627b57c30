//! Random jobs, whole and damaged, small and of full size.

use super::*;
use rbatl_tests::damage::BORDERS;
use rbatl_tests::layout::*;
use rbatl_tests::random::{any_block, cases, Rng};

const SEED: u64 = 0x6C6F_6F6B_7570;
const CASES: u64 = 2_000;
const FULL_CASES: u64 = 20;
const CROWDED_CASES: u64 = 200;

/// Answers of the two calls, by number.
#[derive(Default)]
struct Seen {
    moves: Counts,
    replies: Counts,
    /// Replies that are not 0: to idle is no answer to the move.
    active: u64,
}

impl Seen {
    fn coalition_move(&mut self, asked: &Asked, at: At) -> i32 {
        let answer = asked.coalition_move(at);
        self.moves[number(answer)] += 1;
        answer
    }

    fn reply(&mut self, asked: &Asked, at: At, mv: u8) {
        let answer = asked.reply(at, mv);
        self.replies[number(answer)] += 1;
        self.active += u64::from(answer > 0);
    }

    /// The move, and replies to affordable moves and to another number.
    fn move_and_replies(&mut self, rng: &mut Rng, asked: &Asked, at: At) {
        self.coalition_move(asked, at);
        for mv in numbers(rng, &asked.model, at) {
            self.reply(asked, at, mv);
        }
    }
}

/// The affordable moves of a position that is not won, and another number.
fn numbers(rng: &mut Rng, model: &Model, at: At) -> Vec<u8> {
    let row = model.row(at.row).expect("a strategic row");
    let position = row.position(at);
    let mut numbers = match row.table.wins(position) {
        true => Vec::new(),
        false => row.table.affordable(position),
    };
    numbers.push(match rng.one_in(4) {
        true => rng.byte(),
        false => rng.below(JOINTS) as u8,
    });
    numbers
}

/// Every position of every strategic row: the move, and the reply to every
/// affordable move and to another number.
#[test]
fn every_position() {
    let mut seen = Seen::default();
    ask_each(SEED, cases(CASES), whole(games::few), |rng, asked| {
        for row in asked.model.rows() {
            for at in asked.model.positions(row) {
                seen.move_and_replies(rng, asked, at);
            }
        }
    });
    println!("{} replies are not 0", seen.active);
    assert_each_came(&seen.moves, &[0, 10], 5 * cases(CASES));
    assert_each_came(&seen.replies, &[0, 10, 11], 5 * cases(CASES));
    assert!(seen.active > cases(CASES) / 2);
}

/// Every number of a byte as the move, at some positions that are not won.
#[test]
fn every_number() {
    let mut seen = Seen::default();
    let jobs = cases(CASES) / 20;
    ask_each(SEED ^ 1, jobs, whole(games::few), |rng, asked| {
        for row in asked.model.rows() {
            let positions = asked.model.positions(row);
            let at = rng.pick(&positions);
            if seen.coalition_move(asked, at) == -10 {
                (0..=u8::MAX).for_each(|mv| seen.reply(asked, at, mv));
            }
        }
    });
    assert_each_came(&seen.replies, &[0, 11], cases(CASES) / 20);
    assert_eq!(seen.replies[1..11], [0; 10], "only 11 is left to refuse");
    assert_none_came(&seen.replies, &[12, 13]);
}

/// Mostly a position of the job, but often beside one.
fn anywhere(rng: &mut Rng, asked: &Asked) -> At {
    let sizes = match asked.block.len() {
        BLOCK_BYTES => Sizes::of(asked.block),
        _ => Sizes::FULL,
    };
    let rows = asked.model.rows();
    let row = match rng.below(12) {
        0 => rng.pick(&BORDERS),
        1 => sizes.rows as u8,
        _ if rows.is_empty() => 0,
        _ => rng.pick(&rows),
    };
    let state = match rng.below(12) {
        0 => rng.pick(&BORDERS),
        1 => sizes.states as u8,
        _ => rng.below(sizes.states.max(1)) as u8,
    };
    let largest = asked.model.row(row).map_or([0; 2], |row| row.largest);
    let stock = largest.map(|largest| match rng.below(16) {
        0 => rng.pick(&BORDERS),
        1 => largest + 1,
        2..=5 => largest,
        _ => rng.within(0..=largest.into()) as u8,
    });
    At { row, state, stock }
}

/// Asks both calls somewhere, so many times; where the position is not won, for
/// a reply to an affordable move and to another number.
fn ask_anywhere(rng: &mut Rng, asked: &Asked, times: usize, seen: &mut Seen) {
    for _ in 0..times {
        let at = anywhere(rng, asked);
        let mut moves = match seen.coalition_move(asked, at) {
            -10 => numbers(rng, &asked.model, at),
            _ => vec![rng.byte() % 64],
        };
        seen.reply(asked, at, moves.pop().expect("a number"));
        if !moves.is_empty() {
            seen.reply(asked, at, rng.pick(&moves));
        }
    }
}

/// Jobs of every size up to that of `small`, and of any size.
#[test]
fn whole_jobs() {
    let mut seen = Seen::default();
    let make = |rng: &mut Rng, case: u64| match case % 20 {
        0 => whole(any_block)(rng, case),
        _ => whole(games::small)(rng, case),
    };
    ask_each(SEED ^ 2, cases(CASES), make, |rng, asked| {
        ask_anywhere(rng, asked, 4, &mut seen)
    });
    assert_each_came(&seen.moves, &[0, 8, 9, 10], cases(CASES) / 4);
    assert_each_came(&seen.replies, &[0, 8, 9, 10, 11], cases(CASES) / 4);
    assert_eq!(seen.moves[1..8], [0; 7], "a whole job is not refused");
    assert_eq!(seen.replies[1..8], [0; 7], "a whole job is not refused");
}

#[test]
fn damaged_jobs() {
    let mut seen = Seen::default();
    ask_each(SEED ^ 3, cases(CASES), damaged, |rng, asked| {
        ask_anywhere(rng, asked, 2, &mut seen)
    });
    let answers = [0, 1, 2, 3, 4, 5, 6, 8, 9, 10];
    assert_each_came(&seen.moves, &answers, cases(CASES) / 50);
    assert_each_came(&seen.replies, &answers, cases(CASES) / 50);
    for seen in [seen.moves, seen.replies] {
        assert_each_came(&seen, &[13], cases(CASES) / 200);
        assert_none_came(&seen, &[7, 12]);
    }
}

#[test]
fn job_files() {
    let mut seen = Seen::default();
    let files = jobs::names().len() as u64;
    ask_each(SEED ^ 5, files, job_file, |rng, asked| {
        ask_anywhere(rng, asked, 30, &mut seen)
    });
    assert_each_came(&seen.moves, &[0, 8, 9, 10], 5);
    assert_each_came(&seen.replies, &[0, 8, 9, 10], 5);
}

/// 6,144 positions in every strategic row.
#[test]
fn full_jobs() {
    let mut seen = Seen::default();
    let jobs = FULL_CASES.max(cases(CASES) / 100);
    ask_each(SEED ^ 4, jobs, whole(games::full), |rng, asked| {
        ask_anywhere(rng, asked, 8, &mut seen)
    });
    assert_each_came(&seen.moves, &[0, 9, 10], FULL_CASES / 2);
    assert_each_came(&seen.replies, &[0, 10, 11], FULL_CASES / 2);
}

/// 32 rows: only those that a row needs are labelled for it.
#[test]
fn crowded_jobs() {
    let mut seen = Seen::default();
    let jobs = CROWDED_CASES.max(cases(CASES) / 10);
    ask_each(SEED ^ 6, jobs, whole(games::crowd), |rng, asked| {
        for row in games::choosy_rows(asked.block) {
            let at = rng.pick(&asked.model.positions(row));
            seen.move_and_replies(rng, asked, at);
        }
    });
    assert_each_came(&seen.moves, &[0, 10], CROWDED_CASES);
    assert_each_came(&seen.replies, &[0, 10, 11], CROWDED_CASES);
}
