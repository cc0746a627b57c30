//! Two resources, one charged while the other is spent, of both kinds and limited or
//! not.

use super::*;
use rbatl_tests::games;
use rbatl_tests::random::Rng;

/// In state 0 action 1 gives a unit of the first resource for one of the second, action
/// 2 leads to state 1 for these prices. Row 2 asks for it.
fn exchange(kinds: [u8; 2], prices: [i32; 2], bounds: [u8; 2]) -> Vec<u8> {
    let mut job = jobs::smallest(1, 2, 2, 1, 3);
    job[resource_kind(0)..].copy_from_slice(&kinds);
    job[count(0, 0)] = 3;
    set_cost(&mut job, 0, 0, 1, &[-1, 1]);
    set_cost(&mut job, 0, 0, 2, &prices);
    job[next(0, 2)] = 1;
    job[next(1, 0)] = 1;
    job[mask(1)] = 1;
    job[row(1, KIND)] = NOT;
    let fields = [UNTIL, 1, 0, 1, bounds[0], bounds[1]];
    job[row(2, KIND)..row(2, PADDING)].copy_from_slice(&fields);
    job
}

/// The moves from a stock: an exchange for each unit that is lacking, if the second
/// resource pays for them and for the way out.
fn due(prices: [i32; 2], bounds: [u8; 2], stock: [u8; 2]) -> u16 {
    let limited = |resource: usize| bounds[resource] != UNLIMITED;
    let lacking = match limited(0) {
        true => (prices[0] - i32::from(stock[0])).max(0),
        false => 0,
    };
    let fits = !limited(0) || prices[0] <= bounds[0].into();
    let paid = !limited(1) || lacking + prices[1] <= stock[1].into();
    match fits && paid {
        true => lacking as u16 + 1,
        false => NEVER,
    }
}

#[test]
fn ranks() {
    for second in [SUM, MAX] {
        for prices in [[0, 0], [4, 0], [4, 2], [7, 7], [15, 0], [1, 15]] {
            for bounds in [
                [15, 15],
                [4, 9],
                [7, 0],
                [UNLIMITED, 3],
                [5, UNLIMITED],
                [0, 15],
            ] {
                let asked = Asked::of(&exchange([SUM, second], prices, bounds));
                let table = asked.table(2);
                for (at, rank) in asked.model.positions(2).into_iter().zip(table.ranks) {
                    let due = match at.state {
                        0 => due(prices, bounds, at.stock),
                        _ => 0,
                    };
                    assert_eq!(rank, due, "{prices:?} of {bounds:?} at {at:?}");
                }
            }
        }
    }
}

/// Each pair of bounds is tried with its own ceiling: the first has to hold the price,
/// the second what is lacking of it when the first is full.
#[test]
fn allowances() {
    for bounds in [[15, 15], [0, 0], [3, 9]] {
        let asked = Asked::of(&exchange([SUM, SUM], [4, 2], bounds));
        assert_eq!(asked.allowances(2, 0), [[4, 2]]);
        assert_eq!(asked.allowances(2, 1), [[0, 0]]);
    }
    for (bounds, due) in [
        ([UNLIMITED, 0], [UNLIMITED, 2]),
        ([0, UNLIMITED], [4, UNLIMITED]),
    ] {
        let asked = Asked::of(&exchange([SUM, SUM], [4, 2], bounds));
        assert_eq!(asked.allowances(2, 0), [due]);
    }
}

/// From state 0 the way in takes `toll` of the first resource; in state 1 a pass gives
/// `gain` of it for `fee` of the second, and the way out to state 2 takes `price`.
struct Stairs {
    toll: i32,
    gain: i32,
    fee: i32,
    price: i32,
}

impl Stairs {
    fn job(&self, bounds: [u8; 2]) -> Asked {
        let mut job = jobs::smallest(1, 2, 3, 1, 3);
        job[count(0, 0)] = 2;
        set_cost(&mut job, 0, 0, 1, &[self.toll, 0]);
        job[count(1, 0)] = 3;
        set_cost(&mut job, 1, 0, 1, &[-self.gain, self.fee]);
        set_cost(&mut job, 1, 0, 2, &[self.price, 0]);
        for (place, target) in [
            ((0, 1), 1),
            ((1, 0), 1),
            ((1, 1), 1),
            ((1, 2), 2),
            ((2, 0), 2),
        ] {
            job[next(place.0, place.1)] = target;
        }
        job[mask(2)] = 1;
        job[row(1, KIND)] = NOT;
        let fields = [UNTIL, 1, 0, 1, bounds[0], bounds[1]];
        job[row(2, KIND)..row(2, PADDING)].copy_from_slice(&fields);
        Asked::of(&job)
    }

    /// What the second bound has to be beside the first: the fees of the passes that
    /// make up for what the way in leaves less than the price.
    fn second(&self, first: i32) -> Option<i32> {
        let lacking = (self.price + self.toll - first).max(0);
        let fees = (lacking + self.gain - 1) / self.gain * self.fee;
        (first >= self.toll.max(self.price) && fees <= 15).then_some(fees)
    }

    /// The steps down, each the first at its height.
    fn allowances(&self) -> Vec<[u8; 2]> {
        let mut pairs: Vec<[u8; 2]> = Vec::new();
        for first in 0..=15 {
            let second = self.second(first).map(|second| second as u8);
            let lower = |&second: &u8| pairs.last().is_none_or(|last| second < last[1]);
            if let Some(second) = second.filter(lower) {
                pairs.push([first as u8, second]);
            }
        }
        pairs
    }
}

/// What the first resource holds beyond the price saves units of the second.
#[test]
fn staircase() {
    let stairs = Stairs {
        toll: 3,
        gain: 1,
        fee: 2,
        price: 4,
    };
    for bounds in [[0, 0], [15, 15]] {
        let asked = stairs.job(bounds);
        // With 4 the way in leaves 1 and 3 are lacking, which take 6; with 7 none.
        assert_eq!(asked.allowances(2, 0), [[4, 6], [5, 4], [6, 2], [7, 0]]);
        assert_eq!(asked.allowances(2, 1), [[4, 0]]);
    }
}

/// As many as there can be, in a job of full size.
#[test]
fn longest_staircase() {
    for kind in [ALWAYS, UNTIL] {
        let asked = Asked::of(&games::charged_stairs(kind, 5));
        for step in [0, 1, 14, 15] {
            let due: Vec<[u8; 2]> = (0..=15 - step).map(|x| [x, 15 - step - x]).collect();
            assert_eq!(asked.allowances(2, step), due);
        }
        assert!(asked.allowances(2, 16).is_empty());
    }
}

#[test]
fn many_staircases() {
    let (mut rng, mut longest) = (Rng::new(9), 0);
    for _ in 0..60 {
        let stairs = Stairs {
            toll: rng.within(0..=15) as i32,
            gain: rng.within(1..=4) as i32,
            fee: rng.within(0..=3) as i32,
            price: rng.within(0..=15) as i32,
        };
        let bounds = rng.pick(&[[0, 0], [7, 3], [15, 15]]);
        let due = stairs.allowances();
        assert_eq!(stairs.job(bounds).allowances(2, 0), due);
        longest = longest.max(due.len());
    }
    assert!(longest > 4, "only {longest} pairs");
}
