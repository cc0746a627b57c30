//! One resource and a cradle that is passed again and again: what no single pass pays
//! for, several do.

use super::*;
use rbatl_tests::text;

/// From the door, state 0, the way in takes `toll`; the cradle, state 1, gives `gain`
/// for each pass through state 2, and its way out to state 3 takes `price`. Row 2 asks
/// for state 3, where proposition 0 holds, with proposition 1 true before.
fn text_of(bound: u8, toll: i32, gain: i32, price: i32) -> String {
    format!(
        "\
job2,1,1,4,2,3,sum
state,0,2
acts,0,0,2,0,{toll}
go,0,0,1
state,1,2
acts,1,0,3,0,-{gain},{price}
go,1,1,2,3
state,2,2
acts,2,0,1,0
go,2,1
state,3,1
acts,3,0,1,0
go,3,3
prop,0
prop,1
until,1,{bound},1,0
"
    )
}

fn job(bound: u8, toll: i32, gain: i32, price: i32) -> Asked {
    let text = text_of(bound, toll, gain, price);
    let block = text::read(text.as_bytes()).expect("a job");
    assert_eq!(text::write(&block), text.as_bytes());
    Asked::of(&block)
}

/// The passes that bring the stock to the price, none if the bound is below it.
fn passes(bound: u8, gain: i32, price: i32, stock: u8) -> Option<u16> {
    let lacking = (price - i32::from(stock)).max(0);
    let passes = (lacking + gain - 1) / gain;
    (price <= bound.into()).then_some(passes as u16)
}

/// The rank of each position is two moves for each pass that is needed, and one out.
#[test]
fn ranks() {
    for bound in [1, 4, 15] {
        for (toll, gain, price) in [(1, 1, 15), (15, 1, 15), (4, 3, 4), (1, 15, 1), (3, 2, 4)] {
            let table = job(bound, toll, gain, price).table(2);
            for stock in 0..=bound {
                let at = |state: u8| table.ranks[usize::from(state * (bound + 1) + stock)];
                let out = |stock| passes(bound, gain, price, stock).map(|n| 2 * n + 1);
                let way_in = left_over(stock, toll, bound).and_then(out);
                let due = [
                    way_in.map(|rank| rank + 1),
                    out(stock),
                    out(stock).map(|rank| rank + 1),
                    Some(0),
                ];
                let found = [0, 1, 2, 3].map(at);
                let due = due.map(|rank| rank.unwrap_or(NEVER));
                assert_eq!(found, due, "{toll}, {gain}, {price}: {stock} of {bound}");
            }
        }
    }
}

/// From the door at full stock the team wins only by going round: its rank is above the
/// number of states, 15 times 2 moves round and 2 besides. Without charges it never wins.
#[test]
fn round_and_round() {
    let asked = job(15, 15, 1, 15);
    assert_eq!(asked.sets(), [8, 7, 15]);
    assert_eq!(asked.table(2).ranks[15], 32);
    let mut free = asked.block.clone();
    set_cost(&mut free, 1, 0, 1, &[0]);
    let free = Asked::of(&free);
    assert_eq!(free.sets(), [8, 7, 14]);
    assert_eq!(free.table(2).ranks[15], NEVER);
    // One unit less of the price or of the toll saves one pass of two moves.
    assert_eq!(job(15, 15, 1, 14).table(2).ranks[15], 30);
    assert_eq!(job(15, 14, 1, 15).table(2).ranks[15], 30);
}

/// The rehearsal of it goes round 15 times; a script of one reply less is unfinished.
#[test]
fn rehearsed() {
    let asked = job(15, 15, 1, 15);
    for length in [32, 33, 255] {
        let report = [1, 32, 3 * 16, 0];
        assert_eq!(asked.rehearse(2, 0, &vec![0; length]), (0, report));
    }
    // At the cradle with 15 units, and at the door's other side with none.
    assert_eq!(asked.rehearse(2, 0, &[0; 31]), (0, [0, 31, 16 + 15, 0]));
    assert_eq!(asked.rehearse(2, 0, &[0; 30]), (0, [0, 30, 32 + 15, 0]));
    assert_eq!(asked.rehearse(2, 0, &[0]), (0, [0, 1, 16, 0]));
    assert_eq!(asked.rehearse(2, 0, &[]), (0, [0, 0, 15, 0]));
    let wrong = [&[0; 31][..], &[1]].concat();
    assert_eq!(asked.rehearse(2, 0, &wrong).0, -12);
}

/// A bound is what a battery holds, and not what it starts with: the cradle is won from
/// any stock, and yet no smaller bound than the price is enough there.
#[test]
fn allowances_are_bounds() {
    let asked = job(15, 2, 1, 9);
    let ranks = asked.table(2).ranks;
    assert!(ranks[16..32].iter().all(|&rank| rank != NEVER));
    for (state, due) in [(0, 9), (1, 9), (2, 9), (3, 0)] {
        assert_eq!(asked.allowances(2, state), [[due, 0]], "state {state}");
    }
    // The row's own bound plays no part.
    for bound in [0, 8, 9] {
        assert_eq!(job(bound, 2, 1, 9).allowances(2, 1), [[9, 0]]);
    }
    assert_eq!(job(15, 12, 1, 9).allowances(2, 0), [[12, 0]]);
}

/// A team of two at the same cradle: what one charges the other may spend at once, and a
/// move of both is one sum.
#[test]
fn together() {
    let text = "\
job2,2,1,2,1,3,sum
state,0,0
acts,0,0,2,0,-4
acts,0,1,2,0,6
go,0,0,0,0,1
state,1,1
acts,1,0,1,0
acts,1,1,1,0
go,1,1
prop,0
not,0
until,3,5,1,0
";
    let job = text::read(text.as_bytes()).expect("a job");
    let ranks = Asked::of(&job).table(2).ranks;
    // Two units pay the move; from fewer one agent charges first, up to the bound of 5.
    assert_eq!(ranks[..6], [2, 2, 1, 1, 1, 1]);
    let mut alone = job.clone();
    alone[row(2, COALITION)] = 2;
    assert_eq!(Asked::of(&alone).table(2).ranks[..6], [NEVER; 6]);
}

/// Always: the cradle gives `gain`, the way back takes `price`, and without either, the
/// team falls into state 2, where left is false. Followed move by move.
#[test]
fn for_ever_or_not() {
    for bound in [1, 3, 15] {
        for (gain, price) in [(1, 1), (3, 1), (1, 2), (2, 3), (15, 15), (14, 15), (1, 15)] {
            let table = Asked::of(&upkeep(bound, gain, price)).table(1);
            for stock in 0..=bound {
                let found =
                    [0, 1].map(|state| table.ranks[state * (bound as usize + 1) + stock as usize]);
                let due = [0, 1].map(|state| moves_kept(state, stock, bound, gain, price));
                assert_eq!(found, due, "{gain} for {price}: {stock} of {bound}");
            }
        }
    }
}

fn upkeep(bound: u8, gain: i32, price: i32) -> Vec<u8> {
    let mut job = jobs::smallest(1, 1, 3, 1, 2);
    for (state, spent) in [(0, -gain), (1, price)] {
        job[mask(state)] = 1;
        job[count(state, 0)] = 2;
        set_cost(&mut job, state, 0, 1, &[spent]);
        job[next(state, 0)] = 2;
        job[next(state, 1)] = 1 - state as u8;
    }
    job[next(2, 0)] = 2;
    job[row(1, KIND)..=row(1, BOUND)].copy_from_slice(&[ALWAYS, 0, 0, 1, bound]);
    job
}

/// How many moves it takes until left is false, never if that takes too many.
fn moves_kept(state: usize, mut stock: u8, bound: u8, gain: i32, price: i32) -> u16 {
    for moves in 0..200 {
        let spent = if (state + moves).is_multiple_of(2) {
            -gain
        } else {
            price
        };
        match left_over(stock, spent, bound) {
            Some(left) => stock = left,
            None => return moves as u16 + 1,
        }
    }
    NEVER
}
