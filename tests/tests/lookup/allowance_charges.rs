//! Smallest allowances of jobs with charges. Each pair of bounds has its own ceiling, so
//! that what one table says of its stocks does not tell them.

use super::allowances::{counts_of_trials, resources, Resources};
use super::*;
use rbatl_tests::checker::allowances::Trials;
use rbatl_tests::checker::search;
use rbatl_tests::checker::structure::Structure;
use rbatl_tests::layout::*;
use rbatl_tests::random::cases;
use std::collections::BTreeMap;

const SEED: u64 = 0x6365_696C;
const CASES: u64 = 120;
const FULL_CASES: u64 = 3;

/// What the table of the row with bounds of 15 says of each stock as a bound.
fn misread(block: &[u8], i: u8) -> Trials {
    let mut job = block.to_vec();
    for bound in &mut job[row(i.into(), BOUND)..row(i.into(), PADDING)] {
        *bound = if *bound == UNLIMITED {
            UNLIMITED
        } else {
            MAX_BOUND
        };
    }
    if Sizes::of(&job).resources == 1 {
        job[row(i.into(), BOUND + 1)] = 0;
    }
    let structure = Structure::of(&job);
    let sets = search::label(&structure);
    let table = search::table(&structure, i.into(), &sets).expect("a strategic row");
    let bound = |resource: usize| job[row(i.into(), BOUND + resource)];
    let shown = |resource: usize| match bound(resource) {
        UNLIMITED => vec![(0, UNLIMITED)],
        most => (0..=most)
            .map(|stock| (stock.into(), stock))
            .collect::<Vec<_>>(),
    };
    let mut trials = Vec::new();
    for (x, first) in shown(0) {
        for (y, second) in shown(1) {
            let wins = |state: usize| table.wins(table.position(state, &[x, y]));
            trials.push(([first, second], structure.set(wins)));
        }
    }
    Trials(trials)
}

/// Lists that are not empty, by the resources, and those that the table would get wrong.
#[derive(Default, Debug)]
struct Seen {
    filled: BTreeMap<Resources, u64>,
    several: u64,
    misread: u64,
}

fn ask_states(asked: &Asked, i: u8, seen: &mut Seen) {
    let misread = misread(asked.block, i);
    for state in 0..Sizes::of(asked.block).states {
        let pairs = asked.allowances(i, state as u8);
        if !pairs.is_empty() {
            *seen.filled.entry(resources(asked.block, i)).or_default() += 1;
        }
        seen.several += u64::from(pairs.len() > 1);
        seen.misread += u64::from(pairs != misread.smallest(state));
    }
}

/// One resource and two, of both kinds, limited and not.
#[test]
fn small_jobs() {
    let mut seen = Seen::default();
    let make = |rng: &mut Rng, case: u64| match case % 4 {
        0 => whole(|rng| games::charged(rng, games::trade))(rng, case),
        1 => whole(|rng| games::charged(rng, games::few))(rng, case),
        _ => whole(games::cradle)(rng, case),
    };
    ask_each(SEED, cases(CASES), make, |_, asked| {
        for i in asked.model.rows() {
            ask_states(asked, i, &mut seen);
        }
    });
    println!("{seen:?}");
    assert!(seen.filled.len() >= 10, "{seen:?}");
    assert!(seen.several > cases(CASES) / 20, "{seen:?}");
    assert!(seen.misread > cases(CASES) / 2, "{seen:?}");
}

/// 6,144 positions, beside what the library says of each pair.
#[test]
fn full_jobs() {
    let mut counts = [0; 3];
    for case in 0..FULL_CASES.max(cases(CASES) / 40) {
        let rng = &mut Rng::for_case(SEED ^ 1, case);
        let (kind, coalition) = (rng.pick(&[ALWAYS, UNTIL]), rng.within(1..=7) as u8);
        let job = match case % 3 {
            0 => games::cradle_ring(kind, coalition, case % 2 == 0),
            _ => games::charged_maze(rng, kind, coalition, 2),
        };
        for count in counts_of_trials(&job, 2, &format!("case {case}")) {
            counts[count.min(2)] += 1;
        }
    }
    println!("{counts:?}");
    assert!(counts[1] > 0, "{counts:?}");
}
