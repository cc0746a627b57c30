//! Every play of small jobs: the positions that all plays from one position
//! come to, move after move, whoever plays against the library.

use super::*;
use rbatl_tests::checker::aim::Aim;
use rbatl_tests::checker::NEVER;
use rbatl_tests::play::Game;
use rbatl_tests::random::{cases, Rng};
use rbatl_tests::{ffi, games};
use std::collections::{BTreeMap, BTreeSet};

const SEED: u64 = 0x6576_6572_79;
const CASES: u64 = 300;

/// What the library answers at each position of a row: the outcomes of its move
/// to every reply, or of every affordable move to its reply.
struct Plays {
    game: Game,
    won: BTreeSet<At>,
    outcomes: BTreeMap<At, Vec<At>>,
}

impl Plays {
    fn of(block: &[u8], row: u8, positions: &[At]) -> Plays {
        let mut plays = Plays {
            game: Game::of(block, row),
            won: BTreeSet::new(),
            outcomes: BTreeMap::new(),
        };
        for &at in positions {
            let mut room = vec![255; ROOM_BYTES];
            let answer = ffi::coalition_move(block, at, &mut room);
            let outcomes = match u8::try_from(answer) {
                Ok(mv) => plays.of_the_move(at, mv),
                Err(_) => plays.of_the_replies(block, at),
            };
            if answer >= 0 {
                plays.won.insert(at);
            }
            plays.outcomes.insert(at, outcomes);
        }
        plays
    }

    fn of_the_move(&self, at: At, mv: u8) -> Vec<At> {
        let mv = self.game.find(at, mv);
        let replies = mv.replies.iter();
        replies
            .map(|reply| self.game.outcome(at, mv, reply))
            .collect()
    }

    fn of_the_replies(&self, block: &[u8], at: At) -> Vec<At> {
        let mut room = vec![255; ROOM_BYTES];
        let moves = self.game.affordable(at).into_iter();
        let outcomes = moves.map(|mv| {
            let answer = ffi::reply(block, at, mv.number, &mut room);
            let reply = mv.replies.iter().find(|r| i32::from(r.number) == answer);
            let reply = reply.unwrap_or_else(|| panic!("reply {answer} at {at:?}"));
            self.game.outcome(at, mv, reply)
        });
        outcomes.collect()
    }

    /// The moves after which every play from the position has its row settled,
    /// as the side that wins would have it; none if some play never has.
    fn settled_after(&self, start: At, what: &str) -> Option<usize> {
        let wins = self.won.contains(&start);
        let mut layer = BTreeSet::from([start]);
        for moves in 0..=self.outcomes.len() {
            layer.retain(|at| match self.settled(*at, moves) {
                Some(truth) => {
                    assert_eq!(truth, wins, "{what}: {at:?} after {moves} moves");
                    false
                }
                None => true,
            });
            if layer.is_empty() {
                return Some(moves);
            }
            let outcomes = layer.iter().flat_map(|at| &self.outcomes[at]);
            layer = outcomes.copied().collect();
        }
        None
    }

    /// Whether a play that was open before is settled at the position.
    fn settled(&self, at: At, moves: usize) -> Option<bool> {
        let state = usize::from(at.state);
        match (self.game.aim(), moves) {
            (Aim::Next { .. }, 0) => None,
            (Aim::Next { .. }, _) => self.game.settled(&[state, state]),
            _ => self.game.settled(&[state]),
        }
    }
}

/// The longest play takes as many moves as the rank says: for the coalition to
/// make until true, or for its opponents to make left of always false.
#[test]
fn every_play_ends_as_the_library_says() {
    let (mut all, mut longest) = (0, 0);
    for case in 0..cases(CASES) {
        let job = games::few(&mut Rng::for_case(SEED, case));
        let model = Model::of(&job);
        for row in model.rows() {
            let positions = model.positions(row);
            let plays = Plays::of(&job, row, &positions);
            let ranks = &model.row(row).expect("a strategic row").table.ranks;
            for (&start, &rank) in positions.iter().zip(ranks) {
                let what = format!("case {case} from {start:?}");
                let after = plays.settled_after(start, &what);
                expect_end(&plays, start, rank, after, &what);
                longest = longest.max(after.unwrap_or(0));
                all += 1;
            }
        }
    }
    println!("plays from {all} positions, settled after up to {longest} moves");
}

fn expect_end(plays: &Plays, start: At, rank: u16, after: Option<usize>, what: &str) {
    let wins = plays.won.contains(&start);
    let good = match (plays.game.aim(), wins) {
        (Aim::Next { .. }, _) => after == Some(1),
        (Aim::Always { .. }, true) => after.is_none() && rank == NEVER,
        (Aim::Always { .. }, false) | (Aim::Until { .. }, true) => after == Some(rank.into()),
        // Some plays may go on for ever, and others end with left false.
        (Aim::Until { .. }, false) => rank == NEVER,
    };
    assert!(good, "{what}: settled after {after:?}, rank {rank}");
}
