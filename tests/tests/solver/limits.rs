//! What a stock can just pay for, and jobs at the largest sizes.

use super::*;
use rbatl_tests::layout::*;
use rbatl_tests::{block, games, jobs};

const NEVER: u16 = 65535;

/// Ranks and moves of a row, in words.
fn table(job: &[u8], i: u8) -> (Vec<u16>, Vec<u8>) {
    assert_eq!(block::check(job), 0);
    let outcome = Lent::patterned().table(job, &Model::of(job), i, "a job at a limit");
    assert_eq!(outcome.answer, 0);
    let (ranks, moves) = outcome.buffer.split_at(RANKS_BYTES);
    let ranks = ranks
        .chunks(2)
        .map(|word| u16::from_le_bytes([word[0], word[1]]));
    (ranks.collect(), moves.to_vec())
}

/// One agent in three states. From state 0 action 1 leads to state 2 at these
/// costs, and idling to state 1. Proposition 0 holds in states 0 and 2, and
/// proposition 1 in state 2. Row 2 is of the kind.
fn step(kind: u8, costs: [u8; 2], bounds: [u8; 2]) -> Vec<u8> {
    let mut job = vec![0; BLOCK_BYTES];
    let sizes = Sizes {
        agents: 1,
        resources: 2,
        states: 3,
        propositions: 2,
        rows: 3,
    };
    sizes.store(&mut job);
    let left = u8::from(kind == NEXT);
    let right = u8::from(kind == UNTIL);
    let fields = [(KIND, kind), (LEFT, left), (RIGHT, right), (COALITION, 1)];
    let fields = fields.map(|(field, value)| (row(2, field), value));
    let states = [
        (mask(0), 1),
        (mask(2), 3),
        (count(0, 0), 2),
        (count(1, 0), 1),
        (count(2, 0), 1),
        (next(0, 0), 1),
        (next(0, 1), 2),
        (next(1, 0), 1),
        (next(2, 0), 2),
        (row(1, LEFT), 1),
    ];
    for (place, value) in states.into_iter().chain(fields) {
        job[place] = value;
    }
    for resource in 0..2 {
        job[cost(0, 0, 1, resource)] = costs[resource];
        job[row(2, BOUND + resource)] = bounds[resource];
    }
    job
}

/// The move is affordable exactly from its cost on, in each limited resource.
#[test]
fn a_stock_just_pays() {
    const U: u8 = UNLIMITED;
    for kind in [NEXT, ALWAYS, UNTIL] {
        for costs in [[0, 0], [1, 0], [0, 1], [7, 15], [15, 15], [15, 0]] {
            for bounds in [[15, 15], [7, 14], [0, U], [U, 0], [U, U], [U, 15]] {
                expect_step(kind, costs, bounds);
            }
        }
    }
}

fn expect_step(kind: u8, costs: [u8; 2], bounds: [u8; 2]) {
    let (ranks, moves) = table(&step(kind, costs, bounds), 2);
    let size = |bound: u8| {
        if bound == UNLIMITED {
            1
        } else {
            usize::from(bound) + 1
        }
    };
    let sizes = bounds.map(size);
    let pays = |resource: usize, stock: usize| {
        bounds[resource] == UNLIMITED || stock >= usize::from(costs[resource])
    };
    for stock in 0..sizes[0] * sizes[1] {
        let able = pays(0, stock / sizes[1]) && pays(1, stock % sizes[1]);
        let expected = match (able, kind) {
            (true, ALWAYS) => (NEVER, 1),
            (true, _) => (1, 1),
            (false, ALWAYS) => (1, 255),
            (false, _) => (NEVER, 255),
        };
        let what = format!("kind {kind}, {costs:?} of {bounds:?}, place {stock}");
        assert_eq!((ranks[stock], moves[stock]), expected, "{what}");
    }
    let end = 3 * sizes[0] * sizes[1];
    assert!(ranks[end..].iter().all(|&rank| rank == 0));
    assert!(moves[end..].iter().all(|&mv| mv == 0));
}

/// A row with all 6,144 positions fills its buffers to the last byte.
#[test]
fn all_positions() {
    let job = jobs::load("full.job");
    let full = |i: &u8| {
        let row = &job[row((*i).into(), 0)..row(usize::from(*i) + 1, 0)];
        is_strategic(row[KIND]) && row[BOUND..PADDING] == [MAX_BOUND, MAX_BOUND]
    };
    let rows: Vec<u8> = (0..MAX_ROWS as u8).filter(full).collect();
    assert!(rows.len() > 3);
    for i in rows {
        let (ranks, moves) = table(&job, i);
        assert_eq!((ranks.len(), moves.len()), (6144, 6144));
    }
}

/// The longest plays: 31 rounds of 23 moves for always, one way along for until.
#[test]
fn longest_plays() {
    for (coalition, rising) in [(1, true), (2, false), (6, true), (7, false)] {
        for (kind, longest) in [(ALWAYS, 31 * 23), (UNTIL, 23), (NEXT, 1)] {
            let (ranks, _) = table(&games::ring(kind, coalition, rising), 2);
            let finite = ranks.iter().filter(|&&rank| rank != NEVER);
            let what = format!("kind {kind}, coalition {coalition}");
            assert_eq!(finite.max(), Some(&longest), "{what}");
        }
    }
}
