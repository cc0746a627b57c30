//! `rbatl_move`, `rbatl_reply`, `rbatl_worksheet`, `rbatl_allowances` and
//! `rbatl_rehearse` beside the checker made from document 003: the same answers and
//! zeros in the room, and plays that they decide.

mod allowance_borders;
mod allowance_charges;
mod allowance_jobs;
mod allowance_texts;
mod allowances;
mod borders;
mod catch;
mod every_play;
mod plays;
mod random;
mod rehearsal_borders;
mod rehearsal_plays;
mod rehearsals;
mod sheet_borders;
mod sheets;

use rbatl_tests::agree::{self, Outcome};
use rbatl_tests::answers::{assert_each_came, assert_none_came, number, Counts};
use rbatl_tests::damage::{damage, BORDERS};
use rbatl_tests::games;
use rbatl_tests::jobs;
use rbatl_tests::layout::{row, KIND, NEXT};
use rbatl_tests::model::{At, Model, ALLOWANCES_BYTES, REPORT_BYTES, ROOM_BYTES};
use rbatl_tests::random::Rng;

/// The room after a call.
const ZEROS: [u8; ROOM_BYTES] = [0; ROOM_BYTES];

/// A block, what the calls should make of it, and the room that they are lent.
struct Asked<'a> {
    block: &'a [u8],
    model: Model,
    room: Vec<u8>,
    what: String,
}

impl Asked<'_> {
    fn new(block: &[u8], room: Vec<u8>, what: impl Into<String>) -> Asked<'_> {
        Asked {
            block,
            model: Model::of(block),
            room,
            what: what.into(),
        }
    }

    /// With a room of bytes that have no meaning.
    fn patterned(block: &[u8], what: impl Into<String>) -> Asked<'_> {
        Asked::new(block, agree::pattern(ROOM_BYTES), what)
    }

    /// The coalition's move, as the library and the model agree.
    fn coalition_move(&self, at: At) -> i32 {
        let what = || self.what.clone();
        self.answer(agree::coalition_move(
            self.block,
            &self.model,
            at,
            &self.room,
            what,
        ))
    }

    /// The reply to the move, as the library and the model agree.
    fn reply(&self, at: At, mv: u8) -> i32 {
        let what = || self.what.clone();
        self.answer(agree::reply(
            self.block,
            &self.model,
            at,
            mv,
            &self.room,
            what,
        ))
    }

    /// The worksheet of the row in words that hold a pattern beforehand, as the
    /// library and the model agree: the answer, and the words afterwards, which a
    /// refusal leaves.
    fn worksheet(&self, row: u8, list: &[u8], length: usize) -> (i32, Vec<u8>) {
        let (what, lent) = (|| self.what.clone(), agree::pattern(length));
        let buffers = [&lent[..], &self.room];
        let outcome = agree::worksheet(self.block, &self.model, row, list, buffers, what);
        self.filled(outcome, &lent)
    }

    /// The smallest allowances of the row for the state, in a list of this length
    /// that holds a pattern beforehand: the answer, and the list afterwards.
    fn allowances_in(&self, length: usize, row: u8, state: u8) -> (i32, Vec<u8>) {
        let (what, lent) = (|| self.what.clone(), agree::pattern(length));
        let buffers = [&lent[..], &self.room];
        let outcome = agree::allowances(self.block, &self.model, row, state, buffers, what);
        self.filled(outcome, &lent)
    }

    /// Those of a strategic row for a state that there is.
    fn allowances(&self, row: u8, state: u8) -> Vec<[u8; 2]> {
        let (answer, list) = self.allowances_in(ALLOWANCES_BYTES, row, state);
        let count = usize::try_from(answer).expect("a count");
        let (pairs, zeros) = list.split_at(2 * count);
        assert!(zeros.iter().all(|&byte| byte == 0), "{}", self.what);
        pairs.chunks(2).map(|pair| [pair[0], pair[1]]).collect()
    }

    /// The rehearsal of the row from the state, in a report of this length that holds a
    /// pattern beforehand: the answer, and the report afterwards.
    fn rehearse_in(&self, length: usize, row: u8, state: u8, script: &[u8]) -> (i32, Vec<u8>) {
        let (what, lent) = (|| self.what.clone(), agree::pattern(length));
        let buffers = [&lent[..], &self.room];
        let outcome = agree::rehearse(self.block, &self.model, row, state, script, buffers, what);
        self.filled(outcome, &lent)
    }

    /// The report, or the answer that refuses it.
    fn rehearse(&self, row: u8, state: u8, script: &[u8]) -> Result<Report, i32> {
        match self.rehearse_in(REPORT_BYTES, row, state, script) {
            (0, report) => Ok(report.try_into().expect("four bytes")),
            (answer, _) => Err(answer),
        }
    }

    /// The answer, and the buffer that was lent before the room, which a refusal
    /// leaves as it was.
    fn filled(&self, mut outcome: Outcome, lent: &[u8]) -> (i32, Vec<u8>) {
        let room = outcome.buffer.split_off(lent.len());
        let buffer = std::mem::replace(&mut outcome.buffer, room);
        let answer = self.answer(outcome);
        assert!(answer >= 0 || buffer == lent, "{}: refused", self.what);
        (answer, buffer)
    }

    /// The room holds zeros after every answer but -1, which leaves it.
    fn answer(&self, outcome: Outcome) -> i32 {
        let room = outcome.buffer;
        let good = match outcome.answer {
            -1 => room == self.room,
            _ => room == ZEROS,
        };
        assert!(good, "{}: the room after {}", self.what, outcome.answer);
        outcome.answer
    }
}

/// Finished or not, the moves, and the last position, lowest byte first.
type Report = [u8; REPORT_BYTES];

/// A job and what it is.
type Named = (Vec<u8>, String);

/// Asks about so many jobs, each with numbers of its own case.
fn ask_each(
    seed: u64,
    count: u64,
    make: impl Fn(&mut Rng, u64) -> Named,
    mut ask: impl FnMut(&mut Rng, &Asked),
) {
    for case in 0..count {
        let rng = &mut Rng::for_case(seed, case);
        let (job, what) = make(rng, case);
        ask(rng, &Asked::new(&job, room(case), what));
    }
}

/// What the room holds beforehand must not matter.
fn room(case: u64) -> Vec<u8> {
    match case % 3 {
        0 => agree::pattern(ROOM_BYTES),
        1 => vec![0; ROOM_BYTES],
        _ => vec![255; ROOM_BYTES],
    }
}

/// A job as it is made.
fn whole(make: impl Fn(&mut Rng) -> Vec<u8>) -> impl Fn(&mut Rng, u64) -> Named {
    move |rng, case| (make(rng), format!("case {case}"))
}

/// One of the job files.
fn job_file(_: &mut Rng, case: u64) -> Named {
    let name = jobs::names().swap_remove(case as usize);
    (jobs::load(&name), name)
}

/// A job with damage, or whole.
fn damaged(rng: &mut Rng, case: u64) -> Named {
    let mut job = games::few(rng);
    let how = damage(rng, &mut job);
    (job, format!("case {case}, damage: {how}"))
}

/// A row with a table, or now and then any.
fn any_row(rng: &mut Rng, model: &Model) -> u8 {
    let rows = model.rows();
    match rng.one_in(12) || rows.is_empty() {
        true => rng.pick(&BORDERS),
        false => rng.pick(&rows),
    }
}

/// The kind of a strategic row: 0 for next, 1 for always, 2 for until.
fn kind(block: &[u8], i: u8) -> usize {
    usize::from(block[row(i.into(), KIND)] - NEXT)
}

const fn at(row: u8, state: u8, stock: [u8; 2]) -> At {
    At { row, state, stock }
}
