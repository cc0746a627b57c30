//! Rehearsals of random jobs, whole and damaged, small and of full size, with scripts
//! that are right, wrong at a byte, right at first, and longer than the play.

use super::allowances::{resources, Resources};
use super::*;
use rbatl_tests::layout::*;
use rbatl_tests::model::{Row, SCRIPT_BYTES};
use rbatl_tests::play::Play;
use rbatl_tests::random::{any_block, cases};
use std::collections::BTreeMap;

const SEED: u64 = 0x7265_6865_6172;
const CASES: u64 = 400;
const FULL_CASES: u64 = 12;

/// Bytes, and the replies that there are when the turn of each comes; of those past
/// the end of the play there are none.
struct Script {
    bytes: Vec<u8>,
    turns: Vec<Vec<u8>>,
}

/// Of this length: random replies for as long as the play goes on, then any bytes.
fn right_script(rng: &mut Rng, row: &Row, start: At, length: usize) -> Script {
    let (mut play, mut bytes, mut turns) = (Play::from(start), Vec::new(), Vec::new());
    while bytes.len() < length && !row.game.ends(&play.states) {
        let mv = row.table.moves[row.position(play.at)];
        let replies = row.game.find(play.at, mv).replies.iter();
        let replies: Vec<u8> = replies.map(|reply| reply.number).collect();
        let reply = rng.pick(&replies);
        row.game.go(&mut play, mv, reply);
        bytes.push(reply);
        turns.push(replies);
    }
    bytes.resize_with(length, || rng.byte());
    Script { bytes, turns }
}

/// A byte that is none of the replies.
fn no_reply(rng: &mut Rng, replies: &[u8]) -> u8 {
    loop {
        let byte = match rng.one_in(4) {
            true => rng.byte(),
            false => rng.below(JOINTS) as u8,
        };
        if !replies.contains(&byte) {
            return byte;
        }
    }
}

/// Mostly shorter than the longest until, and the longest that there is.
fn any_length(rng: &mut Rng) -> usize {
    match rng.below(16) {
        0 => SCRIPT_BYTES,
        1..=3 => rng.below(30),
        _ => rng.below(5),
    }
}

/// What came of rehearsals that are finished or not, or refused with 12 or with 10.
#[derive(Default, Debug)]
struct Seen {
    answers: Counts,
    finished: [u64; 3],
    unfinished: [u64; 3],
    refused: [u64; 3],
    lost: [u64; 3],
    /// Scripts that the play did not use up, and rehearsals of more than one move.
    longer: [u64; 3],
    moving: [u64; 3],
    resources: BTreeMap<Resources, u64>,
}

impl Seen {
    fn rehearse(&mut self, asked: &Asked, at: At, script: &[u8]) -> Result<Report, i32> {
        let found = asked.rehearse(at.row, at.state, script);
        self.answers[number(found.err().unwrap_or(0))] += 1;
        if asked.model.row(at.row).is_none() {
            return found;
        }
        let kind = kind(asked.block, at.row);
        match found {
            Ok([finished, moves, ..]) => {
                self.finished[kind] += u64::from(finished == 1);
                self.unfinished[kind] += u64::from(finished == 0);
                self.longer[kind] += u64::from(script.len() > moves.into());
                self.moving[kind] += u64::from(moves > 1);
                let resources = resources(asked.block, at.row);
                *self.resources.entry(resources).or_default() += 1;
            }
            Err(-10) => self.lost[kind] += 1,
            Err(-12) => self.refused[kind] += 1,
            Err(_) => {}
        }
        found
    }

    /// Scripts from a state at full stock, as the coalition wins there or not.
    fn start(&mut self, rng: &mut Rng, asked: &Asked, row: &Row, start: At) {
        let length = any_length(rng);
        if !row.table.wins(row.position(start)) {
            let script: Vec<u8> = (0..length).map(|_| rng.byte() % 64).collect();
            assert_eq!(self.rehearse(asked, start, &script), Err(-10));
            assert_eq!(self.rehearse(asked, start, &[]), Err(-10));
            return;
        }
        let script = right_script(rng, row, start, length);
        self.right(asked, start, &script);
        self.changed(rng, asked, start, &script);
        self.right_at_first(rng, asked, start, &script);
    }

    /// The report has as many moves as turns came, and is that of the bytes up to the
    /// last of them.
    fn right(&mut self, asked: &Asked, start: At, script: &Script) {
        let read = script.turns.len();
        let found = self.rehearse(asked, start, &script.bytes);
        let moves = found.map(|report| usize::from(report[1]));
        assert_eq!(moves, Ok(read), "{}, {start:?}", asked.what);
        assert_eq!(self.rehearse(asked, start, &script.bytes[..read]), found);
        let none = self.rehearse(asked, start, &[]);
        assert_eq!(none.map(|report| report[1]), Ok(0));
    }

    /// Another byte at each place, or at some of a long script: it is refused where its
    /// turn comes, and makes no difference past the end of the play.
    fn changed(&mut self, rng: &mut Rng, asked: &Asked, start: At, script: &Script) {
        let whole = self.rehearse(asked, start, &script.bytes);
        let length = script.bytes.len();
        let step = 1 + length / 20;
        for place in (rng.below(step)..length).step_by(step) {
            let mut bytes = script.bytes.clone();
            let replies = script.turns.get(place);
            bytes[place] = no_reply(rng, replies.map_or(&[], |replies| replies));
            let due = replies.map_or(whole, |_| Err(-12));
            let found = self.rehearse(asked, start, &bytes);
            assert_eq!(found, due, "{}, {start:?}, byte {place}", asked.what);
        }
    }

    /// From some place on any bytes, below 64 or not.
    fn right_at_first(&mut self, rng: &mut Rng, asked: &Asked, start: At, script: &Script) {
        let mut bytes = script.bytes.clone();
        let (from, below) = (rng.within(0..=bytes.len()), rng.pick(&[2, 6, 64, 256]));
        bytes[from..].fill_with(|| rng.below(below) as u8);
        let _ = self.rehearse(asked, start, &bytes);
    }

    /// Each outcome of each kind, so often; always is never unfinished.
    fn assert_each_came(&self, least: u64) {
        println!("{self:?}");
        assert!(self.finished.iter().all(|&n| n >= least), "{self:?}");
        assert!(self.refused.iter().all(|&n| n >= least), "{self:?}");
        assert!(self.lost.iter().all(|&n| n >= least), "{self:?}");
        let [next, always, until] = self.unfinished;
        assert!(next >= least && until >= least && always == 0, "{self:?}");
        let [next, always, until] = self.longer;
        assert!(next >= least && until >= least && always == 0, "{self:?}");
        let [next, always, until] = self.moving;
        assert!(always >= least && until >= least && next == 0, "{self:?}");
    }
}

/// The states of a row at full stock.
fn starts(asked: &Asked, i: u8, row: &Row) -> Vec<At> {
    let states = 0..Sizes::of(asked.block).states as u8;
    states.map(|state| at(i, state, row.largest)).collect()
}

/// So many states of each strategic row, at random, and the one from which until takes
/// longest.
fn ask_starts(rng: &mut Rng, asked: &Asked, times: usize, seen: &mut Seen) {
    for i in asked.model.rows() {
        let row = asked.model.row(i).expect("a strategic row");
        let starts = starts(asked, i, row);
        for _ in 0..times {
            let start = rng.pick(&starts);
            seen.start(rng, asked, row, start);
        }
        let rank = |at: &&At| row.table.ranks[row.position(**at)].wrapping_add(1);
        let longest = starts.iter().max_by_key(rank).expect("a state");
        seen.start(rng, asked, row, *longest);
    }
}

/// With one resource and two, each limited and not and of both kinds.
#[test]
fn whole_jobs() {
    let mut seen = Seen::default();
    let make = |rng: &mut Rng, case: u64| match case % 20 {
        0 => whole(any_block)(rng, case),
        1..=9 => whole(games::few)(rng, case),
        10..=13 => whole(games::small)(rng, case),
        _ => whole(games::trade)(rng, case),
    };
    ask_each(SEED, cases(CASES), make, |rng, asked| {
        ask_starts(rng, asked, 2, &mut seen)
    });
    seen.assert_each_came(cases(CASES) / 4);
    assert_eq!(seen.resources.len(), 4 + 16, "{seen:?}");
    let fewest = seen.resources.values().min();
    assert!(fewest >= Some(&(cases(CASES) / 100)), "{seen:?}");
}

/// A script of 255 bytes and the same with one more.
#[test]
fn longest_scripts() {
    let (mut seen, mut moves) = (Seen::default(), [0; 3]);
    let jobs = cases(CASES) / 5;
    ask_each(SEED ^ 1, jobs, whole(games::trade), |rng, asked| {
        for i in asked.model.rows() {
            let row = asked.model.row(i).expect("a strategic row");
            let won = |at: &At| row.table.wins(row.position(*at));
            for start in starts(asked, i, row).into_iter().filter(won) {
                let mut script = right_script(rng, row, start, SCRIPT_BYTES);
                seen.right(asked, start, &script);
                let most = &mut moves[kind(asked.block, i)];
                *most = script.turns.len().max(*most);
                script.bytes.push(0);
                assert_eq!(seen.rehearse(asked, start, &script.bytes), Err(-1));
            }
        }
    });
    assert_eq!(moves[0], 1);
    assert_eq!(moves[1], SCRIPT_BYTES);
    assert!((3..24).contains(&moves[2]), "{moves:?}");
}

/// A row, a state, a script or a report that there may not be, on jobs that may not
/// pass.
#[test]
fn damaged_jobs() {
    let mut seen = Seen::default();
    ask_each(SEED ^ 2, 2 * cases(CASES), damaged, |rng, asked| {
        let i = any_row(rng, &asked.model);
        let state = match rng.one_in(8) {
            true => rng.pick(&BORDERS),
            false => rng.below(3) as u8,
        };
        let largest = asked.model.row(i).map_or([0; 2], |row| row.largest);
        let length = any_length(rng) + usize::from(rng.one_in(4));
        let bytes: Vec<u8> = (0..length).map(|_| rng.byte() % 5).collect();
        let _ = seen.rehearse(asked, at(i, state, largest), &bytes);
    });
    let came = [0, 1, 2, 3, 4, 5, 6, 8, 9, 10, 12];
    assert_each_came(&seen.answers, &came, cases(CASES) / 100);
    assert_each_came(&seen.answers, &[13], 1);
    assert_none_came(&seen.answers, &[7, 11]);
}

#[test]
fn job_files() {
    let mut seen = Seen::default();
    let files = jobs::names().len() as u64;
    ask_each(SEED ^ 3, files, job_file, |rng, asked| {
        ask_starts(rng, asked, 3, &mut seen)
    });
    assert_each_came(&seen.answers, &[0, 10, 12], 10);
}

/// 6,144 positions in every strategic row: their numbers take two bytes.
#[test]
fn full_jobs() {
    let mut seen = Seen::default();
    let make = |rng: &mut Rng, case: u64| match case % 4 {
        0 => whole(games::full)(rng, case),
        1 => whole(|rng| games::maze(rng, UNTIL, 3, 1))(rng, case),
        2 => whole(|rng| games::maze(rng, ALWAYS, 6, 2))(rng, case),
        _ => whole(|rng| games::maze(rng, NEXT, 5, 0))(rng, case),
    };
    let jobs = FULL_CASES.max(cases(CASES) / 100);
    ask_each(SEED ^ 4, jobs, make, |rng, asked| {
        ask_starts(rng, asked, 4, &mut seen)
    });
    seen.assert_each_came(FULL_CASES / 4);
}
