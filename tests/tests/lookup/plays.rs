//! Whole plays: against the library's moves nobody makes a row false that the
//! coalition wins, and against its replies nobody makes one true that it does
//! not win.

use super::*;
use rbatl_tests::checker::aim::Aim;
use rbatl_tests::checker::structure::{Move, Reply};
use rbatl_tests::layout::{ALWAYS, NEXT, UNTIL};
use rbatl_tests::play::{Game, Play};
use rbatl_tests::random::{cases, Rng};
use rbatl_tests::{ffi, games};

const SEED: u64 = 0x706C_6179;
const CASES: u64 = 2_500;
/// Moves that a play goes on for after its row is settled.
const AFTER: usize = 3;

/// How the side that the library does not play chooses.
#[derive(Clone, Copy, Debug, PartialEq, Eq)]
enum Style {
    Random,
    /// Opponents: the last reply, whatever comes. Coalition: the dearest move.
    Stubborn,
    /// Opponents: the outcome of the largest rank. Coalition: the move that
    /// most replies let win.
    Greedy,
}

const STYLES: [Style; 3] = [Style::Random, Style::Stubborn, Style::Greedy];

/// A row of a job: played by the library, judged by the checker.
struct Board<'a> {
    block: &'a [u8],
    model: &'a Model,
    game: Game,
    /// The most moves of a play.
    most: usize,
    what: String,
}

impl Board<'_> {
    fn new<'a>(block: &'a [u8], model: &'a Model, row: u8, most: usize, what: &str) -> Board<'a> {
        Board {
            block,
            model,
            game: Game::of(block, row),
            most,
            what: format!("{what}, row {row}"),
        }
    }

    fn rank(&self, at: At) -> u16 {
        let row = self.model.row(at.row).expect("a strategic row");
        row.table.ranks[row.position(at)]
    }

    fn wins(&self, at: At) -> bool {
        let row = self.model.row(at.row).expect("a strategic row");
        row.table.wins(row.position(at))
    }

    /// The library's move. Where it has none the row is settled, and the
    /// coalition idles.
    fn coalition_move(&self, play: &Play) -> u8 {
        let mut room = vec![255; ROOM_BYTES];
        match ffi::coalition_move(self.block, play.at, &mut room) {
            -10 => self.idle(play, true),
            mv => u8::try_from(mv).unwrap_or_else(|_| panic!("{}: {mv}", self.what)),
        }
    }

    /// The library's reply. Where it has none the row is settled, and the
    /// opponents idle.
    fn reply(&self, play: &Play, mv: u8) -> u8 {
        let mut room = vec![255; ROOM_BYTES];
        match ffi::reply(self.block, play.at, mv, &mut room) {
            -10 => self.idle(play, false),
            reply => u8::try_from(reply).unwrap_or_else(|_| panic!("{}: {reply}", self.what)),
        }
    }

    fn idle(&self, play: &Play, truth: bool) -> u8 {
        let settled = self.game.settled(&play.states);
        let what = format!("{}, {:?} at {:?}", self.what, play.states, play.at);
        assert_eq!(settled, Some(truth), "{what}: refused");
        0
    }

    /// Whether so many states, or all if there are fewer, settle the row.
    fn settled(&self, play: &Play, states: usize) -> Option<bool> {
        let states = states.min(play.states.len());
        self.game.settled(&play.states[..states])
    }

    /// Plays on until AFTER moves after the row is settled.
    fn play(&self, start: At, mut choose: impl FnMut(&Play) -> (u8, u8)) -> Play {
        let (mut play, mut after) = (Play::from(start), 0);
        while play.states.len() <= self.most && after < AFTER {
            let (mv, reply) = choose(&play);
            self.game.go(&mut play, mv, reply);
            after += usize::from(self.game.settled(&play.states).is_some());
        }
        play
    }
}

/// Opponents and coalitions that the library plays against.
impl Board<'_> {
    fn any_reply(&self, rng: &mut Rng, at: At, mv: u8, style: Style) -> u8 {
        let mv = self.game.find(at, mv);
        let score = |reply: &Reply| match style {
            Style::Random => 0,
            Style::Stubborn => reply.number.into(),
            Style::Greedy => self.rank(self.game.outcome(at, mv, reply)),
        };
        let replies = mv.replies.iter();
        let chosen = replies.max_by_key(|reply| (score(reply), rng.number()));
        chosen.expect("a reply").number
    }

    fn any_move(&self, rng: &mut Rng, at: At, style: Style) -> u8 {
        let won = |mv: &Move| {
            let outcome = |reply| self.game.outcome(at, mv, reply);
            let outcomes = mv.replies.iter().map(outcome);
            outcomes.filter(|&at| self.wins(at)).count() as i32
        };
        let score = |mv: &Move| match style {
            Style::Random => 0,
            Style::Stubborn => mv.cost.iter().sum::<i32>(),
            Style::Greedy => won(mv),
        };
        let moves = self.game.affordable(at).into_iter();
        let chosen = moves.max_by_key(|mv| (score(mv), rng.number()));
        chosen.expect("idling is free").number
    }
}

/// What each play must come to.
impl Board<'_> {
    /// From a position that the coalition wins, the library plays its moves. A
    /// greedy opponent makes until take as many moves as its rank says.
    fn expect_true(&self, rng: &mut Rng, start: At, style: Style) -> Play {
        let play = self.play(start, |play| {
            let mv = self.coalition_move(play);
            (mv, self.any_reply(rng, play.at, mv, style))
        });
        let settled = |states| self.settled(&play, states);
        let rank = usize::from(self.rank(start));
        let good = match self.game.aim() {
            Aim::Next { .. } => settled(2) == Some(true),
            Aim::Always { .. } => settled(self.most + 1).is_none(),
            Aim::Until { .. } => {
                let in_time = settled(rank + 1) == Some(true);
                in_time && (style != Style::Greedy || settled(rank).is_none())
            }
        };
        let what = format!("{}, {style:?} from {start:?}", self.what);
        assert!(good, "{what}: {:?} with rank {rank}", play.states);
        play
    }

    /// From a position that it does not win, the library plays the replies.
    fn expect_false(&self, rng: &mut Rng, start: At, style: Style) -> Play {
        let play = self.play(start, |play| {
            let mv = self.any_move(rng, play.at, style);
            (mv, self.reply(play, mv))
        });
        let settled = |states| self.settled(&play, states);
        let rank = usize::from(self.rank(start));
        let good = match self.game.aim() {
            Aim::Next { .. } => settled(2) == Some(false),
            Aim::Always { .. } => settled(rank + 1) == Some(false),
            Aim::Until { .. } => settled(play.states.len()) != Some(true),
        };
        let what = format!("{}, {style:?} from {start:?}", self.what);
        assert!(good, "{what}: {:?} with rank {rank}", play.states);
        play
    }
}

/// Plays of each kind of row, and the moves made in them.
#[derive(Default, Debug)]
struct Seen {
    won: [u64; 3],
    lost: [u64; 3],
    moves: usize,
    longest: usize,
}

/// Plays the row from the position, for the side that the library says wins.
fn play_from(board: &Board, rng: &mut Rng, start: At, style: Style, seen: &mut Seen) {
    let mut room = vec![0; ROOM_BYTES];
    let wins = ffi::coalition_move(board.block, start, &mut room) != -10;
    let (play, count) = match wins {
        true => (board.expect_true(rng, start, style), &mut seen.won),
        false => (board.expect_false(rng, start, style), &mut seen.lost),
    };
    count[match board.game.aim() {
        Aim::Next { .. } => 0,
        Aim::Always { .. } => 1,
        Aim::Until { .. } => 2,
    }] += 1;
    seen.moves += play.states.len() - 1;
    seen.longest = seen.longest.max(play.states.len() - 1);
}

/// From a random position of each row. A play of as many moves as there are
/// positions comes to one of them twice.
#[test]
fn none_is_lost() {
    let mut seen = Seen::default();
    for case in 0..cases(CASES) {
        let rng = &mut Rng::for_case(SEED, case);
        let job = games::few(rng);
        let model = Model::of(&job);
        for row in model.rows() {
            let positions = model.positions(row);
            let what = format!("case {case}");
            let board = Board::new(&job, &model, row, positions.len(), &what);
            let (start, style) = (rng.pick(&positions), rng.pick(&STYLES));
            play_from(&board, rng, start, style, &mut seen);
        }
    }
    println!("{seen:?}");
    let plays = seen.won.iter().chain(&seen.lost);
    assert!(plays.min() > Some(&(cases(CASES) / 10)), "{seen:?}");
}

/// Of full size, from both sides. Plays that are never settled are left after
/// 15 moves.
#[test]
fn none_is_lost_at_full_size() {
    let mut seen = Seen::default();
    let rows = [(NEXT, 1), (ALWAYS, 7), (ALWAYS, 2), (UNTIL, 5), (UNTIL, 6)];
    for (case, (kind, coalition)) in rows.into_iter().enumerate() {
        let rng = &mut Rng::for_case(!SEED, case as u64);
        let job = games::maze(rng, kind, coalition, 2);
        let model = Model::of(&job);
        let board = Board::new(&job, &model, 2, 15, &format!("case {case}"));
        let positions = model.positions(2).into_iter();
        let (won, lost): (Vec<At>, Vec<At>) = positions.partition(|&at| board.wins(at));
        for style in STYLES {
            for side in [&won, &lost].into_iter().filter(|side| !side.is_empty()) {
                let start = rng.pick(side);
                play_from(&board, rng, start, style, &mut seen);
            }
        }
    }
    println!("{seen:?}");
    let plays = seen.won.iter().chain(&seen.lost);
    assert!(plays.min() > Some(&0), "{seen:?}");
}
