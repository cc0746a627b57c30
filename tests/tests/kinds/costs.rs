//! What a move costs, by arithmetic alone: a bound pays it exactly from there on.

use super::*;
use rbatl_tests::jobs::smallest;
use rbatl_tests::random::Rng;

const ALL: u8 = 7;
/// The state in which the proposition holds.
const GOAL: usize = 2;

/// States 0, 1 and 2 in a row: from each of the first two, action 1 of all agents
/// at once leads to the next, at these costs of resource 0, and all else to
/// itself. Row 1 is of the kind, over the proposition.
fn chain(kind: u8, resource: u8, bound: u8, costs: [[u8; 3]; 2]) -> Vec<u8> {
    let mut job = smallest(3, 1, 3, 1, 2);
    job[resource_kind(0)] = resource;
    for (state, costs) in costs.into_iter().enumerate() {
        for (agent, spent) in costs.into_iter().enumerate() {
            job[count(state, agent)] = 2;
            job[cost(state, agent, 1, 0)] = spent;
        }
        let joints: Vec<usize> = joint_actions(&job, state).collect();
        for joint in joints {
            let together = actions(joint) == [1, 1, 1];
            job[next(state, joint)] = (state + usize::from(together)) as u8;
        }
    }
    job[next(GOAL, 0)] = GOAL as u8;
    job[mask(GOAL)] = 1;
    job[mask(0)] = 0;
    let fields = [(KIND, kind), (COALITION, ALL), (BOUND, bound)];
    for (field, value) in fields {
        job[row(1, field)] = value;
    }
    job
}

fn cost_of(kind: u8, costs: [u8; 3]) -> u8 {
    match kind {
        MAX => costs.into_iter().max().expect("three costs"),
        _ => costs.into_iter().sum(),
    }
}

/// One move from state 1, within each bound on both sides of its cost.
fn expect_one(costs: [u8; 3]) {
    for kind in [SUM, MAX] {
        let due = cost_of(kind, costs);
        for bound in [0, due.saturating_sub(1), due, due + 1, MAX_BOUND] {
            if bound > MAX_BOUND {
                continue;
            }
            let job = chain(NEXT, kind, bound, [costs; 2]);
            let able = Asked::of(&job).sets()[1] >> 1 & 1 == 1;
            assert_eq!(able, due <= bound, "kind {kind}, {costs:?}, bound {bound}");
        }
    }
}

/// Every pair of costs, the third agent's 0, in each order of the agents.
#[test]
fn of_two_agents() {
    for a in 0..=MAX_COST {
        for b in 0..=a {
            expect_one([a, b, 0]);
            expect_one([0, a, b]);
            expect_one([b, 0, a]);
        }
    }
}

#[test]
fn of_three_agents() {
    let mut rng = Rng::new(3);
    for most in [1, 3, 5, MAX_COST] {
        for _ in 0..100 {
            expect_one([0; 3].map(|_: u8| rng.within(0..=most.into()) as u8));
        }
    }
}

/// Along a play the costs of the moves add up, of either kind.
#[test]
fn of_successive_moves() {
    let mut rng = Rng::new(2);
    for _ in 0..400 {
        let most = rng.pick(&[2, 4, 7]);
        let costs = [[0; 3]; 2].map(|costs| costs.map(|_: u8| rng.within(0..=most) as u8));
        for kind in [SUM, MAX] {
            let due: u8 = costs.into_iter().map(|costs| cost_of(kind, costs)).sum();
            for bound in [due.saturating_sub(1), due, due + 1] {
                let bound = bound.min(MAX_BOUND);
                let mut job = chain(UNTIL, kind, bound, costs);
                // Left is `not`: true until the goal.
                job[ROWS] = 3;
                job.copy_within(row(1, 0)..row(2, 0), row(2, 0));
                job[row(1, 0)..row(2, 0)].fill(0);
                job[row(1, KIND)] = NOT;
                job[row(2, LEFT)] = 1;
                let able = Asked::of(&job).sets()[2] & 1 == 1;
                assert_eq!(able, due <= bound, "kind {kind}, {costs:?}, bound {bound}");
            }
        }
    }
}

/// Two resources of each choice of kinds, each with its own cost and bound.
#[test]
fn of_two_resources() {
    let mut rng = Rng::new(4);
    for _ in 0..200 {
        let costs = [[0; 3]; 2].map(|costs| costs.map(|_: u8| rng.within(0..=5) as u8));
        for kinds in [[SUM, SUM], [SUM, MAX], [MAX, SUM], [MAX, MAX]] {
            let due = [0, 1].map(|j| cost_of(kinds[j], costs[j]));
            let bounds = due.map(|due| (due + rng.below(2) as u8).saturating_sub(1));
            let mut job = chain(NEXT, kinds[0], bounds[0], [costs[0]; 2]);
            job[RESOURCES] = 2;
            job[resource_kind(1)] = kinds[1];
            job[row(1, BOUND + 1)] = bounds[1];
            for (agent, spent) in costs[1].into_iter().enumerate() {
                job[cost(1, agent, 1, 1)] = spent;
            }
            let able = Asked::of(&job).sets()[1] >> 1 & 1 == 1;
            let pays = due[0] <= bounds[0] && due[1] <= bounds[1];
            assert_eq!(able, pays, "kinds {kinds:?}, {costs:?}, bounds {bounds:?}");
        }
    }
}
