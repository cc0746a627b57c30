//! What a move leaves of a stock, by arithmetic alone: how far the stock then goes.

use super::*;
use rbatl_tests::random::Rng;

const ALL: u8 = 7;
const BOUNDS: [u8; 5] = [0, 1, 5, 14, 15];

/// A chain of states. From each, action 1 of all agents at once leads to the next, at
/// these costs of resource 0, and all else to a state off the chain. Row 2, of the kind,
/// asks for the chain's last; with until left is true before it.
fn chain(kind: u8, bound: u8, steps: &[[i32; 3]]) -> Vec<u8> {
    let (last, off) = (steps.len(), steps.len() + 1);
    let mut job = jobs::smallest(MAX_AGENTS, 1, off + 1, 1, 3);
    for (state, costs) in steps.iter().enumerate() {
        for (agent, &spent) in costs.iter().enumerate() {
            job[count(state, agent)] = 2;
            set_cost(&mut job, state, agent, 1, &[spent]);
        }
        let joints: Vec<usize> = joint_actions(&job, state).collect();
        for joint in joints {
            let together = actions(joint) == [1, 1, 1];
            job[next(state, joint)] = if together { state + 1 } else { off } as u8;
        }
    }
    job[next(last, 0)] = last as u8;
    job[next(off, 0)] = off as u8;
    job[mask(last)] = 1;
    job[row(1, KIND)] = NOT;
    let left = u8::from(kind == UNTIL);
    job[row(2, KIND)..=row(2, BOUND)].copy_from_slice(&[kind, left, 0, ALL, bound]);
    job
}

/// The steps of one agent beside two that pay nothing.
fn of_one(steps: &[i32]) -> Vec<[i32; 3]> {
    steps.iter().map(|&spent| [0, spent, 0]).collect()
}

/// From each stock, state 0 has the rank of all steps exactly if each is paid from what
/// the ones before leave.
fn expect_chain(bound: u8, steps: &[[i32; 3]]) {
    let table = Asked::of(&chain(UNTIL, bound, steps)).table(2);
    for stock in 0..=bound {
        let mut costs = steps.iter().map(|costs| costs.iter().sum());
        let paid = costs.try_fold(stock, |stock, cost: i32| left_over(stock, cost, bound));
        let due = match paid {
            Some(_) => (steps.len() as u16, 1 + 4 + 16),
            None => (NEVER, u8::MAX),
        };
        let found = (table.ranks[stock as usize], table.moves[stock as usize]);
        assert_eq!(found, due, "{steps:?}, bound {bound}, stock {stock}");
    }
}

/// Bound 5, stock 4, cost -3: the stock is 5 afterwards, and not 7.
#[test]
fn a_full_stock_takes_no_more() {
    let table = |steps: &[i32]| Asked::of(&chain(UNTIL, 5, &of_one(steps))).table(2);
    assert_eq!(table(&[-3, 5]).ranks[4], 2);
    assert_eq!(table(&[-3, 3, 2]).ranks[4], 3);
    assert_eq!(table(&[-3, 3, 3]).ranks[4], NEVER);
    assert_eq!(table(&[-3, 6]).ranks[4], NEVER);
    // From stock 1 nothing is lost to the ceiling, and from 5 all.
    assert_eq!(table(&[-3, 4]).ranks[1], 2);
    assert_eq!(table(&[-3, 5]).ranks[1], NEVER);
    assert_eq!(table(&[-3, 5]).ranks[5], 2);
}

/// Every cost of one move, and then all that is left, or one more.
#[test]
fn of_one_move() {
    for bound in BOUNDS {
        for spent in -15..=15 {
            expect_chain(bound, &of_one(&[spent]));
            for rest in 0..=15 {
                expect_chain(bound, &of_one(&[spent, rest]));
            }
        }
    }
}

/// The ceiling is met at every step, and what it cuts off does not come back.
#[test]
fn of_many_moves() {
    let mut rng = Rng::new(7);
    for _ in 0..600 {
        let most = rng.pick(&[2, 5, 15]);
        let spent = |rng: &mut Rng| rng.within(0..=2 * most) as i32 - most as i32;
        let steps: Vec<i32> = (0..rng.within(2..=8)).map(|_| spent(&mut rng)).collect();
        expect_chain(rng.pick(&BOUNDS), &of_one(&steps));
    }
}

/// What one agent of the team charges another may spend in the same move: the sum
/// counts, and the ceiling is for what it leaves.
#[test]
fn of_three_agents() {
    let mut rng = Rng::new(8);
    for _ in 0..600 {
        let most = rng.pick(&[1, 4, 15]);
        let costs =
            |rng: &mut Rng| [0; 3].map(|_: i32| rng.within(0..=2 * most) as i32 - most as i32);
        let steps = [
            costs(&mut rng),
            costs(&mut rng),
            [0, rng.within(0..=15) as i32, 0],
        ];
        expect_chain(rng.pick(&BOUNDS), &steps);
    }
    expect_chain(5, &[[15, -15, 0], [0, 5, 0]]);
    expect_chain(5, &[[15, -15, -15], [0, 5, 0]]);
    expect_chain(15, &[[15, 15, -15], [0, 0, 0]]);
    expect_chain(15, &[[-15, -15, -15], [15, 0, 0]]);
}

/// A next row needs the move paid, and what it charges matters to nothing after it.
#[test]
fn of_next() {
    for bound in BOUNDS {
        for costs in [
            [1, 0, 0],
            [0, -1, 0],
            [15, -14, 0],
            [15, -15, 1],
            [-15, 15, 15],
        ] {
            let table = Asked::of(&chain(NEXT, bound, &[costs])).table(2);
            for stock in 0..=bound {
                let paid = left_over(stock, costs.iter().sum(), bound).is_some();
                let due = if paid { 1 } else { NEVER };
                assert_eq!(
                    table.ranks[stock as usize], due,
                    "{costs:?}, {stock} of {bound}"
                );
            }
        }
    }
}

/// Without a bound a charge fills nothing: the one stock is 0, and all is paid.
#[test]
fn without_a_bound() {
    for steps in [&[15, 15][..], &[-15, 15, 15], &[-1], &[0]] {
        let asked = Asked::of(&chain(UNTIL, UNLIMITED, &of_one(steps)));
        assert_eq!(asked.table(2).ranks[0] as usize, steps.len());
        assert_eq!(asked.model.positions(2).len(), steps.len() + 2);
        let at = At {
            row: 2,
            state: 0,
            stock: [1, 0],
        };
        assert_eq!(asked.reply(at, 0), -9, "no stock but 0");
    }
}

/// Where the team does not win, a reply shows whether its move is affordable, to the
/// unit.
#[test]
fn affordable_or_not() {
    for bound in [5, 15] {
        for costs in [[5, -3, 0], [15, -15, 0], [-1, 0, 0], [9, -2, -1]] {
            let mut job = chain(UNTIL, bound, &[costs, [0, 0, 0]]);
            job[mask(2)] = 0;
            let asked = Asked::of(&job);
            for stock in 0..=bound {
                let paid = left_over(stock, costs.iter().sum(), bound).is_some();
                let at = At {
                    row: 2,
                    state: 0,
                    stock: [stock, 0],
                };
                let due = if paid { 0 } else { -11 };
                assert_eq!(
                    asked.reply(at, 1 + 4 + 16),
                    due,
                    "{costs:?}, {stock} of {bound}"
                );
                assert_eq!(asked.reply(at, 0), 0, "idling is free");
            }
        }
    }
}

/// Only the team's costs count: what others charge fills none of its stock, and what
/// they spend takes none.
#[test]
fn of_others() {
    for spent in [-15, -1, 0, 1, 15] {
        let mut job = chain(UNTIL, 5, &[[0, 0, spent], [5, 0, 0]]);
        job[row(2, COALITION)] = 3;
        // Whatever agent 2 does, the other two lead on.
        for state in 0..2 {
            for joint in [5, 21] {
                job[next(state, joint)] = state as u8 + 1;
            }
        }
        let table = Asked::of(&job).table(2);
        for stock in 0..=5 {
            let due = if stock == 5 { 2 } else { NEVER };
            assert_eq!(table.ranks[stock], due, "cost {spent}, stock {stock}");
        }
    }
}
