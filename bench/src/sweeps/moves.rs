//! The moves of a state: what each takes and gives, and where the replies lead.

use rbatl_tests::layout::*;

/// A coalition's move: its number, where the replies lead, and what it takes of each
/// resource or gives, but no more than its bound.
pub struct Move {
    pub number: u8,
    pub targets: Vec<usize>,
    pub taken: [u8; 2],
    pub given: [u8; 2],
    /// What it takes, in stock places.
    pub spent: u16,
}

impl Move {
    fn of(number: usize, cost: [i32; 2], sizes: [usize; 2]) -> Move {
        let taken = cost.map(|cost| u8::try_from(cost).unwrap_or(0));
        let given = |resource: usize| {
            let given = u8::try_from(-cost[resource]).unwrap_or(0);
            given.min(sizes[resource] as u8 - 1)
        };
        Move {
            number: number as u8,
            targets: Vec::new(),
            taken,
            given: [given(0), given(1)],
            spent: u16::from(taken[0]) * sizes[1] as u16 + u16::from(taken[1]),
        }
    }

    pub fn is_paid(&self, stocks: [usize; 2]) -> bool {
        usize::from(self.taken[0]) <= stocks[0] && usize::from(self.taken[1]) <= stocks[1]
    }

    /// The place that the move leaves of stocks that pay it; a full stock takes no more.
    pub fn landing(&self, sizes: [usize; 2], stocks: [usize; 2]) -> usize {
        let left = |resource: usize| {
            let taken = stocks[resource] - usize::from(self.taken[resource]);
            (taken + usize::from(self.given[resource])).min(sizes[resource] - 1)
        };
        left(0) * sizes[1] + left(1)
    }
}

/// The moves of a state in rising number that a full stock pays.
pub fn moves(block: &[u8], state: usize, coalition: u8, sizes: [usize; 2]) -> Vec<Move> {
    let mut moves: Vec<Move> = Vec::new();
    let mut places = [usize::MAX; JOINTS];
    for joint in 0..JOINTS {
        let agents = (0..MAX_AGENTS).filter(|agent| coalition >> agent & 1 == 1);
        let number = agents
            .map(|agent| actions(joint)[agent] << (2 * agent))
            .sum();
        // The first joint action of a move is the one whose opponents idle.
        if number == joint {
            places[number] = moves.len();
            moves.push(Move::of(
                number,
                cost_in(block, state, coalition, joint),
                sizes,
            ));
        }
        let target = block[next(state, joint)];
        moves[places[number]].targets.push(target.into());
    }
    moves.retain(|mv| mv.is_paid(sizes.map(|size| size - 1)));
    moves
}

/// What a move takes of each resource, below 0 where it charges.
fn cost_in(block: &[u8], state: usize, coalition: u8, joint: usize) -> [i32; 2] {
    let mut taken = [0; 2];
    for agent in (0..MAX_AGENTS).filter(|agent| coalition >> agent & 1 == 1) {
        for (resource, taken) in taken.iter_mut().enumerate() {
            let more = cost_of(block[cost(state, agent, actions(joint)[agent], resource)]);
            *taken = match block[resource_kind(resource)] {
                MAX => more.max(*taken),
                _ => more + *taken,
            };
        }
    }
    taken
}
