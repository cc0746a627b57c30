//! Jobs in which charging decides: a way leads past a cradle again and again, until the
//! stock pays for the way out, or for as long as the cradle gives what the way takes.

use super::trades::ask_for_the_way;
use super::{block, few_sizes, part, small_shape, Shape};
use crate::layout::*;
use crate::random::Rng;

/// A cradle and what is round it. State 0 is lost; from state 1, the cradle, a ring
/// leads back to it; the door before the last state leads into the ring, and the
/// cradle to the last state.
struct Plan {
    shape: Shape,
    /// The agent of the driver whose action decides.
    lead: usize,
    /// The resource that is charged, what a pass gives of it, and what it takes of the
    /// other.
    resource: usize,
    gain: i32,
    fee: i32,
    /// What the way in, on and out takes of it.
    prices: [i32; 3],
    /// One of so many replies leads elsewhere.
    spoilt: usize,
}

const CRADLE: usize = 1;

impl Plan {
    fn of(rng: &mut Rng) -> Plan {
        let few = few_sizes(rng);
        let sizes = Sizes {
            agents: rng.within(1..=MAX_AGENTS),
            states: few.states.max(4),
            ..few
        };
        let bounds: &[u8] = match sizes.resources {
            1 => &[2, 5, 9, MAX_BOUND],
            _ => &[1, 2, 4],
        };
        let bound = rng.pick(bounds);
        let driver = rng.within(1..=(1 << sizes.agents) - 1) as u8;
        let price = |rng: &mut Rng| rng.pick(&[bound / 2, bound, bound]).into();
        Plan {
            shape: Shape {
                sizes,
                actions: rng.within(2..=3),
                cost: 2,
                bound,
                fixed: false,
                driver,
            },
            lead: driver.trailing_zeros() as usize,
            resource: rng.below(sizes.resources),
            gain: rng.pick(&[1, 1, 2, 3]),
            fee: rng.pick(&[0, 0, 1, 2]),
            prices: [price(rng), rng.pick(&[0, 0, 1]), price(rng)],
            spoilt: rng.pick(&[3, 6, 16]),
        }
    }

    fn goal(&self) -> usize {
        self.shape.sizes.states - 1
    }

    fn door(&self) -> usize {
        self.goal() - 1
    }

    /// What action 1, which leads on, or action 2, which leads out, takes of the
    /// resource.
    fn cost(&self, state: usize, action: usize) -> i32 {
        let [way_in, on, out] = self.prices;
        match (state, action) {
            (CRADLE, 1) => -self.gain,
            (CRADLE, _) => out,
            _ if state == self.door() => way_in,
            _ => on,
        }
    }

    fn target(&self, state: usize, action: usize, idle: usize) -> usize {
        let ring = CRADLE..self.door();
        match (state, action) {
            _ if state == 0 || state == self.goal() => state,
            (_, 0) => idle,
            (CRADLE, 2..) => self.goal(),
            _ if ring.contains(&(state + 1)) => state + 1,
            _ => CRADLE,
        }
    }
}

/// Few positions, a cradle, and rows that mostly ask to keep to the way or to come to
/// its end.
pub fn cradle(rng: &mut Rng) -> Vec<u8> {
    let plan = Plan::of(rng);
    let mut block = block(rng, plan.shape);
    block[resource_kind(plan.resource)] = SUM;
    for state in 0..plan.shape.sizes.states {
        block[mask(state)] = match state {
            0 => 0,
            _ if state == plan.goal() => 3,
            _ => 2,
        };
        set_costs(rng, &mut block, &plan, state);
        set_targets(rng, &mut block, &plan, state);
    }
    for i in 4..plan.shape.sizes.rows {
        ask_for_the_way(rng, &mut block, plan.shape.driver, i);
        if is_strategic(block[row(i, KIND)]) && rng.one_in(2) {
            block[row(i, BOUND + plan.resource)] = plan.shape.bound;
        }
    }
    ask_at_last(rng, &mut block, &plan);
    block
}

/// The last row asks the driver for the end of the way, within bounds that often just
/// do.
fn ask_at_last(rng: &mut Rng, block: &mut [u8], plan: &Plan) {
    let i = plan.shape.sizes.rows - 1;
    let fields = [UNTIL, 1, 0, plan.shape.driver];
    block[row(i, KIND)..row(i, BOUND)].copy_from_slice(&fields);
    for resource in 0..plan.shape.sizes.resources {
        let limited = resource == plan.resource || rng.one_in(2);
        let bound = if limited { plan.shape.bound } else { UNLIMITED };
        block[row(i, BOUND + resource)] = bound;
    }
}

/// The lead can go on and out. Of a second resource it takes the cradle's fee, and
/// mostly nothing else.
fn set_costs(rng: &mut Rng, block: &mut [u8], plan: &Plan, state: usize) {
    block[count(state, plan.lead)] = 3;
    for action in 1..3 {
        for resource in 0..plan.shape.sizes.resources {
            let spent = match resource == plan.resource {
                true => plan.cost(state, action),
                false if (state, action) == (CRADLE, 1) => plan.fee,
                false => i32::from(rng.one_in(12)),
            };
            block[cost(state, plan.lead, action, resource)] = cost_byte(spent);
        }
    }
}

/// What the lead does decides, unless others spoil it. Idling waits or loses.
fn set_targets(rng: &mut Rng, block: &mut [u8], plan: &Plan, state: usize) {
    let idle = rng.pick(&[0, state, state]);
    let joints: Vec<usize> = joint_actions(block, state).collect();
    for joint in joints {
        let action = actions(joint)[plan.lead];
        let target = match part(joint, plan.shape.driver) {
            number if number != joint && rng.one_in(plan.spoilt) => {
                rng.below(plan.shape.sizes.states)
            }
            _ => plan.target(state, action, idle),
        };
        block[next(state, joint)] = target as u8;
    }
}

/// So small that strategies can be tried outright. The lead charges on the way from
/// state 0 to state 1, from where it goes back, or on to state 2 for what a bound just
/// pays.
pub fn tiny_cradle(rng: &mut Rng) -> Vec<u8> {
    let sizes = Sizes {
        agents: rng.within(1..=2),
        resources: rng.within(1..=2),
        states: 3,
        propositions: 2,
        rows: rng.within(5..=7),
    };
    let bound = if sizes.resources == 1 { 3 } else { 1 };
    let driver = rng.within(1..=(1 << sizes.agents) - 1) as u8;
    let shape = small_shape(sizes, bound, driver);
    let mut block = block(rng, shape);
    let plan = Plan {
        shape,
        lead: driver.trailing_zeros() as usize,
        resource: rng.below(sizes.resources),
        gain: rng.within(1..=2) as i32,
        fee: rng.pick(&[0, 0, 0, 1]),
        prices: [0, 0, rng.within(1..=bound.into()) as i32],
        spoilt: 4,
    };
    block[resource_kind(plan.resource)] = SUM;
    for state in 0..2 {
        set_tiny_state(rng, &mut block, &plan, state);
    }
    block[mask(2)] = rng.pick(&[1, 3]);
    for i in 4..sizes.rows {
        ask_for_the_way(rng, &mut block, driver, i);
    }
    ask_at_last(rng, &mut block, &plan);
    block
}

/// State 0 or 1, where the lead has one action beside idling.
fn set_tiny_state(rng: &mut Rng, block: &mut [u8], plan: &Plan, state: usize) {
    block[mask(state)] = 2;
    block[count(state, plan.lead)] = 2;
    for resource in 0..plan.shape.sizes.resources {
        let spent = match resource == plan.resource {
            true => [-plan.gain, plan.prices[2]][state],
            false => [plan.fee, 0][state],
        };
        block[cost(state, plan.lead, 1, resource)] = cost_byte(spent);
    }
    let joints: Vec<usize> = joint_actions(block, state).collect();
    for joint in joints {
        let target = match part(joint, plan.shape.driver) {
            number if number != joint && rng.one_in(plan.spoilt) => rng.below(3),
            _ if actions(joint)[plan.lead] == 1 => state + 1,
            _ => 0,
        };
        block[next(state, joint)] = target as u8;
    }
}
