//! Rehearsals byte by byte, beside the library's own table and sets and the steps of the
//! block: what each reply does, and what the play comes to. The checker has no part here.

use super::*;
use rbatl_tests::ffi;
use rbatl_tests::layout::*;
use rbatl_tests::model::{MOVES_BYTES, RANKS_BYTES, SCRIPT_BYTES, SETS_BYTES};
use rbatl_tests::random::cases;

const SEED: u64 = 0x6279_7465;
const CASES: u64 = 400;
const FULL_CASES: u64 = 10;

/// How the pupil replies: at random, or so that until takes longest.
#[derive(Clone, Copy, Debug, PartialEq, Eq)]
enum Pupil {
    Random,
    Slow,
}

/// A strategic row, and what the library says of it.
struct Board<'a> {
    block: &'a [u8],
    row: u8,
    kind: u8,
    coalition: u8,
    ranks: Vec<u8>,
    moves: Vec<u8>,
    sets: Vec<u8>,
    what: String,
}

impl Board<'_> {
    fn new<'a>(block: &'a [u8], i: u8, what: &str) -> Board<'a> {
        let mut board = Board {
            block,
            row: i,
            kind: block[row(i.into(), KIND)],
            coalition: block[row(i.into(), COALITION)],
            ranks: vec![0; RANKS_BYTES],
            moves: vec![0; MOVES_BYTES],
            sets: vec![0; SETS_BYTES],
            what: format!("{what}, row {i}"),
        };
        let answer = ffi::table(block, i, &mut board.ranks, &mut board.moves);
        assert_eq!(answer, 0, "{}", board.what);
        let answer = ffi::label(block, &mut board.sets, &mut ZEROS.clone());
        assert_eq!(answer, 0, "{}", board.what);
        board
    }

    fn rank(&self, position: usize) -> u16 {
        u16::from_le_bytes([self.ranks[2 * position], self.ranks[2 * position + 1]])
    }

    /// Whether a row holds in a state.
    fn holds(&self, i: u8, state: usize) -> bool {
        self.sets[4 * usize::from(i) + state / 8] >> (state % 8) & 1 == 1
    }

    /// Whether left, or right, holds in a state.
    fn operand(&self, field: usize, state: usize) -> bool {
        self.holds(self.block[row(self.row.into(), field)], state)
    }

    fn is_limited(&self, resource: usize) -> bool {
        let bound = self.block[row(self.row.into(), BOUND + resource)];
        resource < Sizes::of(self.block).resources && bound != UNLIMITED
    }

    /// The state of a position and its stocks.
    fn parts(&self, position: usize) -> (usize, [usize; 2]) {
        let [first, second] = [0, 1].map(|resource| match self.is_limited(resource) {
            true => usize::from(self.block[row(self.row.into(), BOUND + resource)]) + 1,
            false => 1,
        });
        let place = position / second;
        (place / first, [place % first, position % second])
    }

    /// The joint actions of a state in which the coalition's agents have 0.
    fn replies(&self, state: usize) -> Vec<u8> {
        let idles = |joint: &usize| self.team(*joint).all(|(_, action)| action == 0);
        let joints = joint_actions(self.block, state).filter(idles);
        joints.map(|joint| joint as u8).collect()
    }

    /// The coalition's agents, each with its action.
    fn team(&self, joint: usize) -> impl Iterator<Item = (usize, usize)> + '_ {
        let agents = (0..MAX_AGENTS).filter(|agent| self.coalition >> agent & 1 == 1);
        agents.map(move |agent| (agent, actions(joint)[agent]))
    }

    /// What a move takes, below 0 where it charges.
    fn spent(&self, state: usize, mv: usize, resource: usize) -> i32 {
        let place = |(agent, action)| cost(state, agent, action, resource);
        let costs = self.team(mv).map(|agent| cost_of(self.block[place(agent)]));
        match self.block[resource_kind(resource)] {
            SUM => costs.sum(),
            _ => costs.max().unwrap_or(0),
        }
    }
}

/// A play as far as its script goes: finished, and the positions from the first on.
struct Course {
    script: Vec<u8>,
    positions: Vec<usize>,
    finished: bool,
}

impl Board<'_> {
    fn rehearse(&self, state: u8, script: &[u8]) -> Result<Report, i32> {
        let (mut report, mut room) = ([255; REPORT_BYTES], ZEROS);
        match ffi::rehearse(self.block, self.row, state, script, &mut report, &mut room) {
            0 => Ok(report),
            answer => Err(answer),
        }
    }

    /// The last position of a script that is right.
    fn last(&self, state: u8, script: &[u8]) -> usize {
        let report = self.rehearse(state, script);
        let [_, _, low, high] = report.unwrap_or_else(|n| panic!("{}: {n}", self.what));
        u16::from_le_bytes([low, high]).into()
    }

    /// One byte more each time, until the play ends or has so many moves.
    fn follow(&self, rng: &mut Rng, state: u8, most: usize, pupil: Pupil) -> Course {
        let (mut script, mut positions) = (Vec::new(), Vec::new());
        loop {
            let [finished, moves, ..] = self.rehearse(state, &script).expect("a report");
            assert_eq!(usize::from(moves), script.len(), "{}", self.what);
            positions.push(self.last(state, &script));
            let ends = finished == 1 && self.kind != ALWAYS;
            if ends || script.len() == most {
                return Course {
                    script,
                    positions,
                    finished: finished == 1,
                };
            }
            let reply = self.choose(rng, state, &script, pupil);
            script.push(reply);
        }
    }

    fn choose(&self, rng: &mut Rng, start: u8, script: &[u8], pupil: Pupil) -> u8 {
        let replies = self.replies(self.parts(self.last(start, script)).0);
        let rank = |&reply: &u8| self.rank(self.last(start, &[script, &[reply]].concat()));
        match pupil {
            Pupil::Random => rng.pick(&replies),
            Pupil::Slow => replies.into_iter().max_by_key(rank).expect("a reply"),
        }
    }
}

/// What each play must come to.
impl Board<'_> {
    /// The table's move and the reply lead from one position to the next, and what the
    /// move takes is taken, or what it charges is there, up to the bound.
    fn expect_steps(&self, course: &Course) {
        let steps = course.positions.windows(2).zip(&course.script);
        for (pair, &reply) in steps {
            let [(state, before), (target, after)] = [pair[0], pair[1]].map(|p| self.parts(p));
            let mv = self.moves[pair[0]];
            let what = format!("{}, {mv} and {reply} at {}", self.what, pair[0]);
            let due = self.block[next(state, usize::from(mv) + usize::from(reply))];
            assert_eq!(target, due.into(), "{what}");
            for resource in (0..MAX_RESOURCES).filter(|&j| self.is_limited(j)) {
                let bound = self.block[row(self.row.into(), BOUND + resource)].into();
                let left = before[resource] as i32 - self.spent(state, mv.into(), resource);
                assert!(left >= 0, "{what}");
                assert_eq!(after[resource] as i32, left.min(bound), "{what}");
            }
        }
    }

    fn expect_end(&self, course: &Course, pupil: Pupil) {
        let states = course.positions.iter().map(|&p| self.parts(p).0);
        let (states, moves) = (Vec::from_iter(states), course.script.len());
        let left = |states: &[usize]| states.iter().all(|&state| self.operand(LEFT, state));
        let rank = usize::from(self.rank(course.positions[0]));
        let good = match self.kind {
            NEXT => course.finished == (moves == 1) && left(&states[1..]),
            ALWAYS => course.finished && left(&states),
            _ => {
                let right = |&state: &usize| self.operand(RIGHT, state);
                let met = states.iter().position(right);
                let in_time = moves <= rank && (pupil == Pupil::Random || moves == rank);
                let ends = !course.finished || met == Some(moves) && in_time;
                ends && met.is_some() == course.finished && left(&states[..met.unwrap_or(moves)])
            }
        };
        assert!(good, "{}: {states:?} with rank {rank}", self.what);
    }

    /// Past the end any bytes may follow.
    fn expect_no_reading_on(&self, rng: &mut Rng, state: u8, course: &Course) {
        let due = self.rehearse(state, &course.script);
        let mut longer = course.script.clone();
        while longer.len() < SCRIPT_BYTES {
            longer.push(rng.byte());
            if rng.one_in(40) || longer.len() == SCRIPT_BYTES {
                assert_eq!(self.rehearse(state, &longer), due, "{}", self.what);
            }
        }
    }
}

/// Plays and their moves for each kind, and those that are not finished.
#[derive(Default, Debug)]
struct Seen {
    plays: [u64; 3],
    moves: [usize; 3],
    longest: [usize; 3],
    unfinished: [u64; 3],
}

/// From every state where the row is true; from the others there is none.
fn play_row(rng: &mut Rng, board: &Board, seen: &mut Seen) {
    for state in 0..Sizes::of(board.block).states {
        let start = state as u8;
        if !board.holds(board.row, state) {
            assert_eq!(board.rehearse(start, &[]), Err(-10), "{}", board.what);
            continue;
        }
        let pupil = rng.pick(&[Pupil::Random, Pupil::Slow]);
        let most = rng.pick(&[0, 1, 2, 24, 24, 24, 40]);
        let course = board.follow(rng, start, most, pupil);
        board.expect_steps(&course);
        board.expect_end(&course, pupil);
        if course.finished && board.kind != ALWAYS {
            board.expect_no_reading_on(rng, start, &course);
        }
        let (kind, moves) = (kind(board.block, board.row), course.script.len());
        seen.plays[kind] += 1;
        seen.moves[kind] += moves;
        seen.longest[kind] = seen.longest[kind].max(moves);
        seen.unfinished[kind] += u64::from(!course.finished);
    }
}

fn play_jobs(seed: u64, count: u64, make: impl Fn(&mut Rng, u64) -> Vec<u8>) -> Seen {
    let mut seen = Seen::default();
    for case in 0..count {
        let rng = &mut Rng::for_case(seed, case);
        let job = make(rng, case);
        for i in 0..Sizes::of(&job).rows as u8 {
            if is_strategic(job[row(i.into(), KIND)]) {
                play_row(
                    rng,
                    &Board::new(&job, i, &format!("case {case}")),
                    &mut seen,
                );
            }
        }
    }
    println!("{seen:?}");
    seen
}

#[test]
fn small_jobs() {
    let seen = play_jobs(SEED, cases(CASES), |rng, case| match case % 4 {
        0 => games::small(rng),
        1 => games::trade(rng),
        _ => games::few(rng),
    });
    assert!(seen.plays.iter().all(|&n| n >= cases(CASES)), "{seen:?}");
    let [next, always, until] = seen.unfinished;
    assert!(next > 0 && until > 0 && always == 0, "{seen:?}");
    assert!(seen.longest[2] >= 3, "{seen:?}");
}

/// 6,144 positions, and until as long as it can be: once through all states.
#[test]
fn full_jobs() {
    let count = FULL_CASES.max(cases(CASES) / 100);
    let seen = play_jobs(!SEED, count, |rng, case| match case % 5 {
        0 => games::ring(UNTIL, 1, true),
        1 => games::ring(UNTIL, 6, false),
        2 => games::maze(rng, UNTIL, 3, 1),
        3 => games::maze(rng, ALWAYS, 7, 2),
        _ => games::maze(rng, NEXT, 5, 0),
    });
    assert!(seen.plays.iter().all(|&n| n >= FULL_CASES), "{seen:?}");
    assert_eq!(seen.longest[2], MAX_STATES - 1);
}
